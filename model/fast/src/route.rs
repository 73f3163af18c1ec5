//! Which route, and the proper last hop.

use crate::bytes::{agree, be32, be64, le32, part, ALL_ONES};
use crate::sheet::Sheet;
use crate::table::{Route, BLOCK, ENTRIES, FULL_OF_ROUTES, ROUTE};

const RP: u8 = 1;

/// What a route is chosen for: the group as it lies in memory, which is only compared, and the source as a number.
#[derive(Clone, Copy)]
pub struct Wanted {
    pub group: u32,
    pub source: u32,
}

/// By kind, the rank of a length of 0: kind 1 comes before kind 2, and that before kind 3; of kinds 1 and 3 the longer before
/// the shorter.
const RANKS: [u32; 4] = [0, 65, 64, 1];

/// The route of the highest rank that serves, and of equal ones the first.
#[inline(always)]
pub fn choose<'a>(sheet: &Sheet<'a>, wanted: Wanted) -> Option<&'a Route> {
    let mut chosen = None;
    let mut highest = 0;
    for block in sheet.route_blocks.chunks_exact(BLOCK) {
        let block: &[u8; BLOCK] = part(block, 0);
        for number in 0..usize::from(block[1]).min(FULL_OF_ROUTES) {
            let route: &Route = part(block, ENTRIES + ROUTE * number);
            // in a valid sheet a group of 0 is kind 3, and any other is kind 1 or 2; most are neither ours nor 0
            let group = le32(route, 8);
            if group == wanted.group || group == 0 {
                let rank = RANKS[usize::from(route[0] & 3)] + u32::from(route[1]);
                if rank > highest && serves(route, wanted.source) {
                    (highest, chosen) = (rank, Some(route));
                }
            }
        }
    }
    chosen
}

/// Whether a route of our group, or of none, serves the source; kind 2 has a length of 0, with which every source agrees.
#[inline(always)]
fn serves(route: &Route, source: u32) -> bool {
    agree(source, be32(route, 4), route[1]) && (source != ALL_ONES || route[0] == 2)
}

pub fn is_rp(route: &Route) -> bool {
    route[2] & RP != 0
}

/// Whether this is the proper last hop for a client: only interfaces that the route would forward to are looked at.
#[inline]
pub fn is_last_hop(sheet: &Sheet, route: Option<&Route>, client: u32) -> bool {
    let Some(route) = route else { return false };
    let mut forward = be64(route, 32);
    let mut found = is_rp(route);
    while !found && forward != 0 {
        let interface = sheet.interface(forward.trailing_zeros() as usize);
        found = interface[5] & 1 != 0 && agree(client, be32(interface, 0), interface[4]);
        forward &= forward - 1;
    }
    found
}
