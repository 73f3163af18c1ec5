//! One 512-byte block of a sheet: its frame and its entries, checked in one pass over its bytes.

use crate::bytes::{all_zero, be16, be32, class, is_multicast, is_unicast, le16, le32, le64, part, Class};

pub const BLOCK: usize = 512;
pub const ENTRIES: usize = 4;
pub const SWITCHES: usize = 508;
pub const INTERFACES: u8 = 1;
const ROUTES: u8 = 2;
/// Bytes of an entry, and entries in a full block.
pub const INTERFACE: usize = 28;
pub const FULL_OF_INTERFACES: usize = (SWITCHES - ENTRIES) / INTERFACE;
pub const ROUTE: usize = 56;
pub const FULL_OF_ROUTES: usize = (SWITCHES - ENTRIES) / ROUTE;
const LEAST_MTU: u32 = 576;
/// The switch of the first block, as it lies.
const PROHIBITED: u16 = u16::from_le_bytes([0, 1]);
/// An incoming interface that is not known.
pub const UNKNOWN: u16 = 65_535;

pub type Interface = [u8; INTERFACE];
pub type Route = [u8; ROUTE];

/// The sum of a block's words, 8 bytes at a time, and its carries. Modulo 65535 neither the order of the bytes in a word nor
/// the width of the words matters, and a block that has a kind never sums to 0: so its end-around sum is 0xFFFF exactly where
/// this one is a multiple of 65535.
struct Sum {
    words: u64,
    carries: u64,
}

impl Sum {
    /// What is outside a block's entries.
    #[inline(always)]
    fn of_frame(block: &[u8; BLOCK]) -> Sum {
        Sum { words: u64::from(le32(block, 0)) + u64::from(le32(block, SWITCHES)), carries: 0 }
    }

    /// A chain of additions, each of which takes the carry of the one before. An interface ends with half a word.
    #[inline(always)]
    fn add(&mut self, entry: &[u8]) {
        let words = entry.chunks_exact(8);
        let half = words.remainder();
        let mut carry = false;
        for word in words {
            carry = self.add_word(le64(word, 0), carry);
        }
        if !half.is_empty() {
            carry = self.add_word(le32(half, 0).into(), carry);
        }
        self.carries += u64::from(carry);
    }

    /// Adds a word and a carry, and answers the next one.
    #[inline(always)]
    fn add_word(&mut self, word: u64, carry: bool) -> bool {
        let (sum, over) = self.words.overflowing_add(word);
        let (sum, over_again) = sum.overflowing_add(u64::from(carry));
        self.words = sum;
        over | over_again
    }

    #[inline(always)]
    fn is_right(&self) -> bool {
        let (sum, carry) = self.words.overflowing_add(self.carries);
        (sum + u64::from(carry)) % 65_535 == 0
    }
}

/// How many entries a block of this kind, at this place of its sheet, has in use; None where its first 4 bytes are wrong.
#[inline(always)]
fn used(block: &[u8; BLOCK], kind: u8, full: usize, place: usize) -> Option<usize> {
    let head = le32(block, 0) ^ (place as u32) << 24; // takes the right number out
    let used = head as usize >> 8;
    (head & 0xffff_00ff == u32::from(kind) && used.wrapping_sub(1) < full).then_some(used)
}

/// The entries in use, each of N bytes. A compiler sees by `zip` that they are inside.
#[inline(always)]
fn entries<const N: usize>(block: &[u8; BLOCK], used: usize) -> impl Iterator<Item = &[u8; N]> {
    block[ENTRIES..SWITCHES].chunks_exact(N).zip(0..used).map(|(entry, _)| part(entry, 0))
}

/// Whether the entries behind those in use are 0. Of most blocks there are none. They are whole words, and half a one before
/// where an odd number of interfaces is left.
#[inline(always)]
fn rest_is_zero<const N: usize>(block: &[u8; BLOCK], used: usize) -> bool {
    let behind = ENTRIES + N * used;
    let whole = behind + (SWITCHES - behind) % 8;
    behind == SWITCHES || le32(block, behind) == 0 && all_zero(&block[whole..SWITCHES])
}

/// The number of entries in use of a valid block of interfaces.
#[inline(always)]
pub fn interfaces_in(block: &[u8; BLOCK], place: usize) -> Option<usize> {
    let used = used(block, INTERFACES, FULL_OF_INTERFACES, place)?;
    let prohibition = if place == 0 { PROHIBITED } else { 0 };
    if le16(block, SWITCHES) & !prohibition != 0 {
        return None;
    }
    let mut sum = Sum::of_frame(block);
    for entry in entries(block, used) {
        if !interface_ok(entry) {
            return None;
        }
        sum.add(entry);
    }
    (rest_is_zero::<INTERFACE>(block, used) && sum.is_right()).then_some(used)
}

/// The number of entries in use of a valid block of routes, in a sheet of so many interfaces.
#[inline(always)]
pub fn routes_in(block: &[u8; BLOCK], place: usize, interfaces: usize) -> Option<usize> {
    let used = used(block, ROUTES, FULL_OF_ROUTES, place)?;
    if le16(block, SWITCHES) != 0 {
        return None;
    }
    let outside = bits_outside(interfaces);
    let mut sum = Sum::of_frame(block);
    for entry in entries(block, used) {
        if !route_ok(entry, interfaces, outside) {
            return None;
        }
        sum.add(entry);
    }
    (rest_is_zero::<ROUTE>(block, used) && sum.is_right()).then_some(used)
}

/// The bits of a map, as it lies in memory, that stand for no interface.
#[inline(always)]
fn bits_outside(interfaces: usize) -> u64 {
    u64::MAX.checked_shl(interfaces as u32).unwrap_or(0).swap_bytes()
}

/// What must be 0 in the first 8 bytes of an interface once 1 is taken off its length: the bits of 32 and more in the length,
/// undefined flags, the zero byte. A length of 0 borrows, and so has those bits.
const INTERFACE_ZEROS: u64 = u64::from_le_bytes([0, 0, 0, 0, !31, !3, 0, !0]);
const INTERFACE_LENGTH: u64 = u64::from_le_bytes([0, 0, 0, 0, 1, 0, 0, 0]);

#[inline(always)]
fn interface_ok(entry: &Interface) -> bool {
    let first_ok = le64(entry, 0).wrapping_sub(INTERFACE_LENGTH) & INTERFACE_ZEROS == 0;
    first_ok && last_ok(be32(entry, 24)) && is_unicast(entry[0])
}

/// MTU and zeros: turned, the zeros are the upper half of a number that is not over 16 bits.
#[inline(always)]
fn last_ok(mtu_and_zeros: u32) -> bool {
    mtu_and_zeros.rotate_left(16).wrapping_sub(LEAST_MTU) <= u32::from(u16::MAX) - LEAST_MTU
}

/// What is fixed in the first bytes of a route. Kind 2: all but two flags, the source too. Kind 1, with 1 taken off its length
/// as above, and kind 3: kind, undefined flags (RP is one) and zero.
const GROUP_FIXED: u64 = u64::from_le_bytes([!0, !0, !3, !0, !0, !0, !0, !0]);
const BOTH_FIXED: u32 = u32::from_le_bytes([!0, !31, !2, !0]);
const BOTH_LENGTH: u32 = u32::from_le_bytes([0, 1, 0, 0]);
const SOURCE_FIXED: u32 = u32::from_le_bytes([!0, 0, !2, !0]);

#[inline(always)]
fn route_ok(route: &Route, interfaces: usize, outside: u64) -> bool {
    if (le64(route, 32) | le64(route, 40) | le64(route, 48)) & outside != 0 || le16(route, 22) != 0 {
        return false;
    }
    way_ok(route, interfaces) && what_ok(route)
}

/// Kind, source length, flags, source and group.
#[inline(always)]
fn what_ok(route: &Route) -> bool {
    let first = le32(route, 0);
    if le64(route, 0) & GROUP_FIXED == 2 {
        is_multicast(route[8])
    } else if first.wrapping_sub(BOTH_LENGTH) & BOTH_FIXED == 1 {
        is_multicast(route[8]) && zero_past(route, route[1])
    } else {
        first & SOURCE_FIXED == 3 && le32(route, 8) == 0 && route[1] <= 32 && zero_past(route, route[1])
    }
}

/// Whether the source has no bit past its length, at most 32.
#[inline(always)]
fn zero_past(route: &Route, length: u8) -> bool {
    (u64::from(be32(route, 4)) << length) as u32 == 0
}

/// Incoming interface and upstream.
#[inline(always)]
fn way_ok(route: &Route, interfaces: usize) -> bool {
    let incoming = be16(route, 16);
    if usize::from(incoming) >= interfaces {
        return incoming == UNKNOWN && le32(route, 12) == 0;
    }
    match class(route[12]) {
        Class::Unicast => true,
        Class::Edge => le32(route, 12).wrapping_add(1) < 2, // 0 or all ones
        Class::Other => false,
    }
}

#[cfg(test)]
mod tests {
    use super::*;

    /// The sum of RFC 1071, word by word.
    fn carried(block: &[u8; BLOCK]) -> u16 {
        block.chunks_exact(2).fold(0, |sum: u16, word| {
            let (sum, carry) = sum.overflowing_add(be16(word, 0));
            sum + u16::from(carry)
        })
    }

    fn mended(mut block: [u8; BLOCK]) -> [u8; BLOCK] {
        block[510..].fill(0);
        let check = !carried(&block);
        block[510..].copy_from_slice(&check.to_be_bytes());
        block
    }

    /// A block of interfaces 10.0.0.1/24 with an MTU of 1500.
    fn of(interfaces: usize, place: u8, switches: [u8; 2]) -> [u8; BLOCK] {
        let mut entry = [0; INTERFACE];
        entry[..6].copy_from_slice(&[10, 0, 0, 1, 24, 1]);
        entry[24..26].copy_from_slice(&1500_u16.to_be_bytes());
        let mut block = [0; BLOCK];
        block[..ENTRIES].copy_from_slice(&[1, interfaces as u8, 0, place]);
        block[ENTRIES..ENTRIES + INTERFACE * interfaces].copy_from_slice(&entry.repeat(interfaces));
        block[SWITCHES..510].copy_from_slice(&switches);
        mended(block)
    }

    #[test]
    fn the_sum_is_that_of_rfc_1071() {
        let mut seed = 1_u64;
        for turn in 0..20_000 {
            let mut block = [0xff; BLOCK];
            for byte in &mut block[..turn % BLOCK] {
                seed = seed.wrapping_mul(6_364_136_223_846_793_005).wrapping_add(1);
                *byte = (seed >> 56) as u8;
            }
            block[0] |= 1;
            // right, by a little wrong, by two bytes exchanged, and as it came
            let mut blocks = [mended(block), mended(block), mended(block), block];
            blocks[1][turn % BLOCK] ^= 1;
            blocks[2].swap(turn % BLOCK & !1, turn % BLOCK | 1);
            for block in blocks {
                let mut sums = [Sum::of_frame(&block), Sum::of_frame(&block)];
                entries::<ROUTE>(&block, FULL_OF_ROUTES).for_each(|entry| sums[0].add(entry));
                entries::<INTERFACE>(&block, FULL_OF_INTERFACES).for_each(|entry| sums[1].add(entry));
                assert_eq!(sums.map(|sum| sum.is_right()), [carried(&block) == 0xffff; 2]);
            }
        }
    }

    #[test]
    fn one_switch_in_the_first_block() {
        let right = |place: u8, switches| interfaces_in(&of(1, place, switches), usize::from(place)).is_some();
        assert!(right(0, [0, 0]) && right(0, [0, 1]) && right(3, [0, 0]));
        assert!(!right(0, [0, 2]) && !right(0, [1, 0]) && !right(3, [0, 1]));
    }

    #[test]
    fn no_byte_of_a_block_can_change_alone() {
        for interfaces in 1..=FULL_OF_INTERFACES {
            let mut block = of(interfaces, 2, [0, 0]);
            assert_eq!(interfaces_in(&block, 2), Some(interfaces));
            assert_eq!(interfaces_in(&block, 3), None);
            for at in 0..BLOCK {
                block[at] ^= 1;
                assert_eq!(interfaces_in(&block, 2), None);
                block[at] ^= 1;
            }
        }
    }

    #[test]
    fn what_is_behind_the_entries_is_zero() {
        for interfaces in 1..=FULL_OF_INTERFACES {
            for at in ENTRIES + INTERFACE * interfaces..SWITCHES {
                let mut block = of(interfaces, 0, [0, 0]);
                block[at] = 1;
                assert_eq!(interfaces_in(&mended(block), 0), None);
            }
        }
    }

    #[test]
    fn mtus_and_zeros() {
        let word = |mtu: u16, zeros: u16| u32::from(mtu) << 16 | u32::from(zeros);
        assert!((0..=u16::MAX).all(|mtu| last_ok(word(mtu, 0)) == (mtu >= 576)));
        assert!((1..=u16::MAX).all(|zeros| [0, 575, 576, 1500, 65_535].iter().all(|mtu| !last_ok(word(*mtu, zeros)))));
    }
}
