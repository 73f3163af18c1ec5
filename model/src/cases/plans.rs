//! Sheets that several crates' cases start from.

use crate::build::{ip, InterfaceEntry, RouteEntry, SheetPlan};
use crate::rng::Rng;
use crate::sheet::LEAST_MTU;

/// An interface 10.7.x.1/24, whose counts and MTU name it. The MTU leaves room for every message.
pub fn interface(number: usize) -> InterfaceEntry {
    let counts = 1000 + number as u64;
    InterfaceEntry {
        threshold: number as u8,
        input: counts,
        output: counts << 32,
        mtu: 1500 + 700 * number as u16,
        ..InterfaceEntry::new(ip(10, 7, number as u8, 1), 24)
    }
}

/// A route of each kind in turn, with counts that name it.
pub fn route(number: usize) -> RouteEntry {
    let group = ip(232, 1, 1, number as u8);
    let source = ip(203, 0, number as u8, 0);
    let entry = match number % 3 {
        0 => RouteEntry::source_and_group(source, 24, group),
        1 => RouteEntry::group(group),
        _ => RouteEntry::source_only(source, 24),
    };
    RouteEntry {
        protocol: 2,
        multicast: 3 + number as u16,
        packets: 5000 + number as u64,
        ..entry.by(0, ip(10, 7, 0, 2), 1)
    }
}

pub fn plan(interfaces: usize, routes: usize) -> SheetPlan {
    SheetPlan {
        prohibited: false,
        interfaces: (0..interfaces).map(interface).collect(),
        routes: (0..routes).map(route).collect(),
    }
}

/// A router that sends on what [`super::faults`] has as accepted messages: it forwards to interface
/// 0 what comes by interface 1.
pub fn accepting() -> SheetPlan {
    let route = RouteEntry::source_and_group(ip(203, 0, 113, 0), 24, ip(232, 1, 1, 1)).by(1, ip(10, 7, 1, 2), 0b001);
    SheetPlan { routes: vec![RouteEntry { protocol: 13, multicast: 5, packets: 7_000_000_000, ..route }], ..plan(3, 0) }
}

/// A valid route of any kind, by interfaces of a sheet that has so many.
pub fn random_route(rng: &mut Rng, interfaces: usize) -> RouteEntry {
    let group = ip(224 + rng.below(16) as u8, rng.below(3) as u8, 0, rng.below(4) as u8);
    let length = rng.below(33) as u8;
    let source = |length: u8, bits: u64| bits as u32 & crate::bytes::mask(length);
    let bits = rng.draw();
    let entry = match rng.below(3) {
        0 => RouteEntry::source_and_group(source(length.max(1), bits), length.max(1), group),
        1 => RouteEntry { flags: rng.below(2) as u8, ..RouteEntry::group(group) },
        _ => RouteEntry::source_only(source(length, bits), length),
    };
    let every = u64::MAX >> (64 - interfaces);
    let incoming = if rng.one_in(5) { u16::MAX } else { rng.below(interfaces as u64) as u16 };
    let upstream = match rng.below(4) {
        _ if incoming == u16::MAX => 0,
        0 => 0,
        1 => u32::MAX,
        _ => ip(10, 7, rng.below(8) as u8, 2),
    };
    RouteEntry {
        flags: entry.flags | (2 * rng.below(2)) as u8,
        protocol: rng.draw() as u16,
        multicast: rng.draw() as u16,
        packets: rng.draw(),
        pruned: rng.draw() & every,
        stopped: rng.draw() & every,
        ..entry.by(incoming, upstream, rng.draw() & every)
    }
}

pub fn random_interface(rng: &mut Rng) -> InterfaceEntry {
    let octet = loop {
        let octet = 1 + rng.below(223) as u8;
        if octet != 127 {
            break octet;
        }
    };
    InterfaceEntry {
        flags: rng.below(4) as u8,
        threshold: rng.draw() as u8,
        input: rng.draw(),
        output: rng.draw(),
        mtu: LEAST_MTU + rng.below(u64::from(u16::MAX - LEAST_MTU) + 1) as u16,
        ..InterfaceEntry::new(ip(octet, rng.draw() as u8, rng.draw() as u8, rng.draw() as u8), 1 + rng.below(32) as u8)
    }
}
