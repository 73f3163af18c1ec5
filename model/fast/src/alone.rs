//! Parts of a step by themselves, to be measured: each is one call that nothing is inlined from.

use crate::recent::{self, Seen};
use crate::route::{self, Wanted};
use crate::sheet::{self, Sheet};

/// A sheet that was found valid.
pub struct Checked<'a>(Sheet<'a>);

#[inline(never)]
pub fn check_sheet(bytes: &[u8]) -> Option<Checked<'_>> {
    sheet::check(bytes).map(Checked)
}

/// Whether there is a route for a source and a group.
#[inline(never)]
pub fn choose_route(Checked(sheet): &Checked, source: u32, group: u32) -> bool {
    route::choose(sheet, Wanted { group: group.swap_bytes(), source }).is_some()
}

#[inline(never)]
pub fn check_recent(list: &[u8; recent::SIZE]) -> bool {
    recent::is_well_formed(list)
}

/// Whether a well-formed list has a client and an id, 6 bytes as they lie in a header.
#[inline(never)]
pub fn search_recent(list: &[u8; recent::SIZE], entry: [u8; 6]) -> bool {
    recent::has(list, Seen(entry))
}
