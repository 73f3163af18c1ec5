//! A sheet, checked block by block up to the first wrong one, and its interfaces found in it.

use crate::bytes::{be16, le32, part};
use crate::table::{interfaces_in, routes_in, Interface, BLOCK, ENTRIES, FULL_OF_INTERFACES, FULL_OF_ROUTES};
use crate::table::{INTERFACE, INTERFACES, SWITCHES};

const MOST_BLOCKS: usize = 16;
const MOST_INTERFACES: usize = 64;
/// Bytes between the last entry of a block and the first of the next.
const BETWEEN: usize = BLOCK - INTERFACE * FULL_OF_INTERFACES;

/// A valid sheet: its blocks of interfaces, those of routes, and how many interfaces there are.
#[derive(Clone, Copy)]
pub struct Sheet<'a> {
    interface_blocks: &'a [u8],
    pub route_blocks: &'a [u8],
    pub interfaces: usize,
}

pub fn check(bytes: &[u8]) -> Option<Sheet<'_>> {
    if !bytes.chunks_exact(BLOCK).remainder().is_empty() || bytes.len() > MOST_BLOCKS * BLOCK {
        return None;
    }
    let of_interfaces = bytes.chunks_exact(BLOCK).take_while(|block| block[0] == INTERFACES).count();
    let (interface_blocks, route_blocks) = bytes.split_at(BLOCK * of_interfaces);
    let mut interfaces = 0;
    for (place, block) in interface_blocks.chunks_exact(BLOCK).enumerate() {
        let after_full_ones = interfaces == place * FULL_OF_INTERFACES;
        interfaces += interfaces_in(block.try_into().ok()?, place).filter(|_| after_full_ones)?;
        if interfaces > MOST_INTERFACES {
            return None;
        }
    }
    if interfaces == 0 {
        return None;
    }
    let right = route_blocks.is_empty() || routes_ok(route_blocks, of_interfaces, interfaces);
    right.then_some(Sheet { interface_blocks, route_blocks, interfaces })
}

/// A function of its own, so that what the other blocks need is not held while it runs.
#[inline(never)]
fn routes_ok(blocks: &[u8], first: usize, interfaces: usize) -> bool {
    let mut before = FULL_OF_ROUTES;
    for (place, block) in (first..).zip(blocks.chunks_exact(BLOCK)) {
        match routes_in(part(block, 0), place, interfaces) {
            Some(used) if before == FULL_OF_ROUTES => before = used,
            _ => return false,
        }
    }
    true
}

impl<'a> Sheet<'a> {
    /// Two blocks that are known to be a valid sheet.
    #[inline(always)]
    pub fn of_two(bytes: &'a [u8; 2 * BLOCK]) -> Sheet<'a> {
        let (first, second) = bytes.split_at(BLOCK);
        if second[0] == INTERFACES {
            let interfaces = FULL_OF_INTERFACES + usize::from(second[1]);
            Sheet { interface_blocks: bytes, route_blocks: &[], interfaces }
        } else {
            Sheet { interface_blocks: first, route_blocks: second, interfaces: usize::from(first[1]) }
        }
    }

    #[inline(always)]
    pub fn is_prohibited(&self) -> bool {
        be16(self.interface_blocks, SWITCHES) == 1
    }

    #[inline(always)]
    pub fn interface(&self, number: usize) -> &'a Interface {
        // there are at most 64, and of a byte the quotient is one multiplication
        let before = usize::from(number as u8 / FULL_OF_INTERFACES as u8);
        part(self.interface_blocks, ENTRIES + INTERFACE * number + BETWEEN * before)
    }

    /// The addresses of the interfaces, as they lie in memory.
    pub fn addresses(&self) -> impl Iterator<Item = u32> + 'a {
        let blocks = self.interface_blocks.chunks_exact(BLOCK);
        let entries = blocks.flat_map(|block| block[ENTRIES..SWITCHES].chunks_exact(INTERFACE));
        entries.take(self.interfaces).map(|entry| le32(entry, 0))
    }
}
