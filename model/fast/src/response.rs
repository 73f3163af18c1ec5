//! One router's answer to a message that it accepts: its block, written where it belongs, and where the trace goes.

use crate::bytes::{be16, field, le32, le64, put, ALL_ONES};
use crate::message::{MOST, STANDARD, STANDARD_HEAD};
use crate::route::is_rp;
use crate::sheet::Sheet;
use crate::table::{Interface, Route, UNKNOWN};

/// Forwarding codes.
const NO_SPACE: u8 = 0x81;
const WRONG_LAST_HOP: u8 = 6;
const NO_ROUTE: u8 = 5;

const ALL_ROUTERS: u32 = u32::from_le_bytes([224, 0, 0, 2]);
/// The first octet of groups that a boundary stops.
const SCOPED: u8 = 239;
const MULTICAST: u8 = 1;
const BOUNDARY: u8 = 2;
const PRUNE_SENT: u8 = 2;
/// What an MTU counts beside the message: the headers of IPv4 and UDP.
const IP_AND_UDP: usize = 20 + 8;

/// A router as a message meets it.
#[derive(Clone, Copy)]
pub struct Visit<'a> {
    pub sheet: Sheet<'a>,
    pub receiving: usize,
    /// The receiving interface.
    pub interface: &'a Interface,
    pub route: Option<Way<'a>>,
    pub wrong_last_hop: bool,
    pub time: u32,
}

/// The route chosen, and the interface that it names, if it names one.
#[derive(Clone, Copy)]
pub struct Way<'a> {
    pub route: &'a Route,
    incoming: Option<&'a Interface>,
}

impl<'a> Way<'a> {
    #[inline(always)]
    pub fn by(sheet: &Sheet<'a>, route: &'a Route) -> Way<'a> {
        let number = be16(route, 16);
        let incoming = if number == UNKNOWN { None } else { Some(sheet.interface(usize::from(number))) };
        Way { route, incoming }
    }
}

/// Where a Request goes next: the address and the number of the interface to send on, as they lie in memory.
#[derive(Clone, Copy)]
pub struct Onward<'a> {
    pub destination: u32,
    pub incoming: [u8; 2],
    pub interface: &'a Interface,
}

impl<'a> Visit<'a> {
    /// Whether a message of this length has no room for another block, by the MTU of the incoming interface, or of the receiving one
    /// where none is known.
    #[inline(always)]
    pub fn is_full(&self, length: usize) -> bool {
        let link = self.route.and_then(|way| way.incoming).unwrap_or(self.interface);
        is_full_anywhere(length) || length + STANDARD + IP_AND_UDP > usize::from(be16(link, 24))
    }

    /// Appends this router's block to the message that is the first `length` bytes of the output.
    #[inline(always)]
    pub fn append(&self, output: &mut [u8; MOST], length: usize) {
        let code = self.code(output[4]);
        let block = &mut output[length..length + STANDARD];
        put(block, 0, STANDARD_HEAD.to_le_bytes());
        put(block, 4, self.time.to_be_bytes());
        put(block, 12, field::<4>(self.interface, 0));
        put(block, 28, field::<8>(self.interface, 16));
        match self.route {
            Some(way) if !self.sheet.is_prohibited() => fill(block, way),
            _ => {
                put(block, 8, [0; 4]);
                put(block, 16, [0; 12]);
                put(block, 36, [0; 12]);
                block[50] = 0;
            }
        }
        put(block, 48, [self.interface[6], 0]);
        block[51] = code;
    }

    /// The first forwarding code that applies.
    #[inline(always)]
    fn code(&self, group_octet: u8) -> u8 {
        let Some(Way { route, incoming }) = self.route else {
            return if self.wrong_last_hop { WRONG_LAST_HOP } else { NO_ROUTE };
        };
        let receiving = (1_u64 << self.receiving).swap_bytes(); // its bit in a map as it lies
        if self.wrong_last_hop {
            WRONG_LAST_HOP
        } else if is_rp(route) {
            8
        } else if self.sheet.is_prohibited() {
            0x83
        } else if self.interface[5] & MULTICAST == 0 {
            0x0a
        } else if usize::from(be16(route, 16)) == self.receiving {
            9
        } else if le64(route, 32) & receiving == 0 {
            1
        } else if group_octet == SCOPED && (is_boundary(self.interface) || incoming.is_some_and(is_boundary)) {
            4
        } else if route[2] & PRUNE_SENT != 0 {
            2
        } else if le64(route, 40) & receiving != 0 {
            3
        } else if le64(route, 48) & receiving != 0 {
            7
        } else {
            0
        }
    }

    /// Where the message goes next; None ends the trace.
    #[inline(always)]
    pub fn onward(&self, hops_used: bool) -> Option<Onward<'a>> {
        let Way { route, incoming } = self.route?;
        if hops_used || is_rp(route) || le32(route, 12) == 0 || self.sheet.is_prohibited() {
            return None;
        }
        Some(Onward { destination: upstream(route), incoming: field(route, 16), interface: incoming? })
    }
}

fn is_boundary(interface: &Interface) -> bool {
    interface[5] & BOUNDARY != 0
}

/// What the route tells, most of it carried over as it lies.
#[inline(always)]
fn fill(block: &mut [u8], Way { route, incoming }: Way) {
    let (address, input) = incoming.map_or(([0; 4], [0xff; 8]), |interface| (field(interface, 0), field(interface, 8)));
    let (kind, length) = (route[0], route[1]);
    put(block, 8, address);
    put(block, 16, upstream(route).to_le_bytes());
    put(block, 20, input);
    put(block, 36, if kind == 3 { [0xff; 8] } else { field::<8>(route, 24) });
    put(block, 44, field::<4>(route, 18));
    block[50] = match kind {
        2 => 0xff,
        1 if length < 32 => 0x80 | length,
        _ => length,
    };
}

/// Upstream as it is shown and sent to.
#[inline(always)]
fn upstream(route: &Route) -> u32 {
    match le32(route, 12) {
        ALL_ONES => ALL_ROUTERS,
        upstream => upstream,
    }
}

/// Whether a message has no room for another block whatever the MTU.
#[inline(always)]
pub fn is_full_anywhere(length: usize) -> bool {
    length + STANDARD > MOST
}

/// Tells in the last type 4 block that there was no room for another.
#[inline(always)]
pub fn mark_full(output: &mut [u8; MOST], last: usize) {
    output[last + STANDARD - 1] = NO_SPACE;
}
