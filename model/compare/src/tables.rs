//! Random routers: their tables as sheets, right ones mostly, and wrong ones by one change.

use model::build::{ip, mend_all, InterfaceEntry, RouteEntry, SheetPlan};
use model::bytes::mask;
use model::rng::Rng;
use model::sheet::{Table, BLOCK, ENTRIES, LEAST_MTU, MOST_BLOCKS, SWITCHES};

/// Few groups, few networks: so that messages, routes and interfaces meet.
pub fn group(rng: &mut Rng) -> u32 {
    rng.pick(&[ip(224, 0, 0, 5), ip(232, 1, 1, 1), ip(232, 1, 1, 2), ip(239, 1, 1, 1), ip(239, 255, 255, 255)])
}

/// A host's or a router's address in one of a few networks.
pub fn address(rng: &mut Rng) -> u32 {
    match rng.below(12) {
        0 => rng.draw() as u32,
        1 => rng.pick(&[ip(1, 0, 0, 0), ip(126, 255, 255, 255), ip(128, 0, 0, 0), ip(223, 255, 255, 255)]),
        _ => ip(10, rng.below(2) as u8, rng.below(3) as u8, rng.below(4) as u8),
    }
}

fn unicast(rng: &mut Rng) -> u32 {
    loop {
        let address = address(rng);
        if model::bytes::is_unicast(address) {
            return address;
        }
    }
}

fn count(rng: &mut Rng) -> u64 {
    match rng.below(4) {
        0 => 0,
        1 => u64::MAX,
        2 => rng.below(70_000),
        _ => rng.draw(),
    }
}

/// An MTU that a sheet may have: Ethernet's, one so small that packets get full, one near the most room, or any.
pub fn mtu(rng: &mut Rng) -> u16 {
    match rng.below(8) {
        0 | 1 => 1500,
        2 | 3 => LEAST_MTU + rng.below(60) as u16,
        4 | 5 => LEAST_MTU + rng.below(1000) as u16,
        6 => 1490 + rng.below(20) as u16,
        _ => LEAST_MTU + rng.below(u64::from(u16::MAX - LEAST_MTU) + 1) as u16,
    }
}

fn interface(rng: &mut Rng) -> InterfaceEntry {
    let length = if rng.one_in(4) { 1 + rng.below(32) as u8 } else { 24 };
    let flags = if rng.one_in(3) { rng.below(4) as u8 } else { 1 };
    InterfaceEntry {
        flags,
        threshold: rng.draw() as u8,
        input: count(rng),
        output: count(rng),
        mtu: mtu(rng),
        ..InterfaceEntry::new(unicast(rng), length)
    }
}

/// A map of interfaces: all, none, or some.
fn map(rng: &mut Rng, interfaces: usize) -> u64 {
    let every = u64::MAX >> 64_usize.saturating_sub(interfaces);
    match rng.below(4) {
        0 => 0,
        1 => every,
        _ => rng.draw() & every,
    }
}

fn route(rng: &mut Rng, interfaces: usize) -> RouteEntry {
    let length = rng.pick(&[1, 8, 16, 23, 24, 24, 25, 31, 32]);
    let source = address(rng);
    let entry = match rng.below(4) {
        0 | 1 => RouteEntry::source_and_group(source & mask(length), length, group(rng)),
        2 => RouteEntry { flags: u8::from(rng.one_in(3)), ..RouteEntry::group(group(rng)) },
        _ if rng.one_in(3) => RouteEntry::source_only(0, 0),
        _ => RouteEntry::source_only(source & mask(length), length),
    };
    let (incoming, upstream) = match rng.below(6) {
        0 => (u16::MAX, 0),
        1 => (rng.below(interfaces as u64) as u16, 0),
        2 => (rng.below(interfaces as u64) as u16, u32::MAX),
        _ => (rng.below(interfaces as u64) as u16, unicast(rng)),
    };
    let prune_sent = if rng.one_in(8) { 2 } else { 0 };
    let forward = map(rng, interfaces);
    RouteEntry {
        flags: entry.flags | prune_sent,
        protocol: rng.draw() as u16,
        multicast: rng.draw() as u16,
        packets: count(rng),
        pruned: if rng.one_in(3) { map(rng, interfaces) } else { 0 },
        stopped: if rng.one_in(3) { map(rng, interfaces) } else { 0 },
        ..entry.by(incoming, upstream, forward)
    }
}

/// A router's tables: small ones mostly, so that what arrives meets them.
pub fn plan(rng: &mut Rng) -> SheetPlan {
    let interfaces = match rng.below(40) {
        0 => 1 + rng.below(64) as usize,
        1 => rng.pick(&[17, 18, 19, 35, 36, 37, 54, 55, 64, 65, 72]),
        _ => 1 + rng.below(6) as usize,
    };
    let room = Table::Routes.full() * (MOST_BLOCKS - interfaces.div_ceil(Table::Interfaces.full()));
    let routes = match rng.below(40) {
        0 => rng.below(room as u64 + 1) as usize,
        1 => rng.pick(&[8, 9, 10, 18, 19, room]),
        _ => rng.below(10) as usize,
    };
    router_with(rng, interfaces, routes)
}

/// A router with so many interfaces and routes.
pub fn router_with(rng: &mut Rng, interfaces: usize, routes: usize) -> SheetPlan {
    SheetPlan {
        prohibited: rng.one_in(12),
        interfaces: (0..interfaces).map(|_| interface(rng)).collect(),
        routes: (0..routes).map(|_| route(rng, interfaces)).collect(),
    }
}

/// A first octet at an edge of the address classes.
fn edge_address(rng: &mut Rng) -> u32 {
    match rng.below(3) {
        0 => rng.pick(&[0, 1, u32::MAX - 1, u32::MAX]),
        _ => ip(rng.pick(&[0, 1, 126, 127, 128, 223, 224, 239, 240, 255]), rng.draw() as u8, 0, 1),
    }
}

/// One field of one entry at an edge of its rule, or past it.
pub fn spoil_entry(plan: &mut SheetPlan, rng: &mut Rng) {
    let interfaces = plan.interfaces.len();
    if plan.routes.is_empty() || rng.one_in(3) {
        let entry = &mut plan.interfaces[rng.below(interfaces as u64) as usize];
        match rng.below(6) {
            0 => entry.address = edge_address(rng),
            1 => entry.length = rng.pick(&[0, 1, 32, 33, 64, 255]),
            2 => entry.flags = rng.pick(&[0, 3, 4, 5, 8, 128, 255]),
            3 => entry.zero = rng.pick(&[0, 1, 128]),
            4 => entry.mtu = rng.pick(&[0, 1, 320, 511, 512, 574, 575, 576, 577, 0x4001, 0x4002, 0xff01, 65_535]),
            _ => entry.zeros = rng.pick(&[0, 1, 128, 256, 0x8000, 65_535]),
        }
        return;
    }
    let beyond = 1u64.checked_shl(interfaces as u32).unwrap_or(0);
    let routes = plan.routes.len() as u64;
    let entry = &mut plan.routes[rng.below(routes) as usize];
    match rng.below(13) {
        0 => entry.kind = rng.pick(&[0, 1, 2, 3, 4, 255]),
        1 => entry.length = rng.pick(&[0, 1, 31, 32, 33, 255]),
        2 => entry.flags = rng.pick(&[0, 1, 2, 3, 4, 6, 128]),
        3 => entry.zero = rng.pick(&[0, 1, 128]),
        4 => entry.zeros = rng.pick(&[0, 1, 256]),
        5 => entry.source ^= 1 << rng.below(32),
        6 => entry.group = edge_address(rng),
        7 => entry.upstream = edge_address(rng),
        8 => entry.incoming = rng.pick(&[0, interfaces as u16 - 1, interfaces as u16, 64, 255, 256, 65_534, 65_535]),
        9 => entry.forward |= beyond,
        10 => entry.pruned |= beyond,
        11 => entry.stopped |= beyond,
        _ => *entry = RouteEntry { source: 0, length: 0, ..*entry },
    }
}

/// Takes the last entry out of a block.
fn take_one_out(block: &mut [u8]) {
    let size = if block[0] == 1 { Table::Interfaces } else { Table::Routes }.entry_size();
    block[1] = block[1].wrapping_sub(1);
    let end = ENTRIES + size * usize::from(block[1]);
    if end + size <= SWITCHES {
        block[end..end + size].fill(0);
    }
}

/// A change to a sheet that mostly breaks one rule of its blocks; its check words are mended mostly.
pub fn spoil(sheet: &mut Vec<u8>, rng: &mut Rng) {
    let at = rng.below(sheet.len() as u64) as usize;
    let start = at / BLOCK * BLOCK;
    let blocks = sheet.len() / BLOCK;
    match rng.below(11) {
        0 => sheet.truncate(at),
        1 => sheet.resize(rng.pick(&[0, 512, 1024, 1536, 8192, 8704]), 0),
        2 => sheet[start + rng.pick(&[0, 1, 2, 3, 508, 509])] = rng.below(24) as u8,
        3 => sheet[at] = rng.pick(&[0, 1, 2, 3, 4, 31, 32, 33, 64, 127, 128, 223, 224, 240, 255]),
        4 => sheet[at] ^= 1 << rng.below(8),
        5 => take_one_out(&mut sheet[start..start + BLOCK]),
        6 => take_one_out(&mut sheet[..BLOCK]),
        7 | 8 => {
            // a block of the sheet again behind it, with the next number; it may be of the wrong kind there
            let mut block = sheet[start..start + BLOCK].to_vec();
            block[2..4].copy_from_slice(&(blocks as u16).to_be_bytes());
            block[508..510].fill(0);
            sheet.extend(block);
        }
        9 => {
            sheet.rotate_left(BLOCK);
            for (number, block) in sheet.chunks_exact_mut(BLOCK).enumerate() {
                block[2..4].copy_from_slice(&(number as u16).to_be_bytes());
            }
        }
        _ => sheet[at] = rng.draw() as u8,
    }
    if !rng.one_in(6) {
        mend_all(sheet);
    }
}
