//! Random yards, and Queries through them: chains and rings of routers that know one route, and routers thrown together.

use crate::tables::{address, group, mtu, router_with, spoil, spoil_entry};
use model::build::{ip, Header, InterfaceEntry, RouteEntry, SheetPlan};
use model::bytes::ALL_ONES;
use model::rng::Rng;

const GROUP: u32 = ip(239, 1, 1, 1);
const SOURCE: u32 = ip(203, 0, 113, 9);

/// All that a walk is handed.
#[derive(Clone, Debug)]
pub struct Walk {
    pub yard: Vec<u8>,
    pub times: Vec<u32>,
    pub message: Vec<u8>,
    pub router: u32,
    pub receiving: u32,
    pub destination: u32,
    pub ttl: u32,
    pub output: usize,
    pub answer: usize,
}

fn address_of(router: u64, interface: u64) -> u32 {
    ip(10, router as u8, interface as u8, 1)
}

/// A router of a chain, whose route goes on to the next one, to any other, or ends; its links have Ethernet's MTU, or any.
fn linked(rng: &mut Rng, number: u64, routers: u64) -> SheetPlan {
    let narrow = rng.one_in(4);
    let count = 2 + rng.below(3);
    let mut interfaces: Vec<_> =
        (0..count).map(|interface| InterfaceEntry::new(address_of(number, interface), 24)).collect();
    for interface in &mut interfaces {
        if rng.one_in(10) {
            interface.flags = rng.below(4) as u8;
        }
        if narrow {
            interface.mtu = mtu(rng);
        }
    }
    let upstream = match rng.below(40) {
        0 => 0,
        1 => u32::MAX,
        2 => address(rng) | ip(1, 0, 0, 0),
        3..=8 => address_of(rng.below(routers), rng.below(2)),
        _ => address_of((number + 1) % routers, rng.below(2)),
    };
    let upstream = if model::bytes::is_unicast(upstream) || upstream == u32::MAX { upstream } else { 0 };
    let entry = match rng.below(8) {
        0 => RouteEntry::group(GROUP),
        1 => RouteEntry::source_only(ip(203, 0, 0, 0), 16),
        2 if rng.one_in(8) => RouteEntry { flags: 1, ..RouteEntry::group(GROUP) },
        _ => RouteEntry::source_and_group(ip(203, 0, 113, 0), 24, GROUP),
    };
    let maps = |rng: &mut Rng| if rng.one_in(8) { rng.below(1 << count) } else { 0 };
    let forward = if rng.one_in(10) { rng.below(1 << count) } else { (1 << count) - 3 };
    let route = RouteEntry { pruned: maps(rng), stopped: maps(rng), ..entry.by(1, upstream, forward) };
    SheetPlan { prohibited: rng.one_in(60), interfaces, routes: vec![route] }
}

/// A router of two blocks of any kind.
fn any(rng: &mut Rng) -> SheetPlan {
    match rng.below(10) {
        0 => {
            let interfaces = 19 + rng.below(18) as usize;
            router_with(rng, interfaces, 0)
        }
        _ => {
            let (interfaces, routes) = (1 + rng.below(6) as usize, 1 + rng.below(9) as usize);
            router_with(rng, interfaces, routes)
        }
    }
}

fn query(rng: &mut Rng, plan: &SheetPlan, linked: bool) -> Header {
    let first = plan.interfaces[0].address;
    Header {
        kind: 1,
        length: 20,
        hops: rng.pick(&[1, 2, 5, 26, 27, 28, 29, 255]),
        group: if linked { GROUP } else { group(rng) },
        source: match rng.below(10) {
            0 => ALL_ONES,
            _ if linked => SOURCE,
            _ => address(rng),
        },
        client: if rng.one_in(6) { address(rng) } else { first ^ 50 },
        id: rng.draw() as u16,
        port: 40_000,
    }
}

pub fn random(rng: &mut Rng) -> Walk {
    let routers = if rng.one_in(4) { 1 + rng.below(32) } else { 1 + rng.below(5) };
    let chain = !rng.one_in(3);
    let mut plans: Vec<SheetPlan> =
        (0..routers).map(|number| if chain { linked(rng, number, routers) } else { any(rng) }).collect();
    if rng.one_in(30) {
        let spoilt = rng.below(routers) as usize;
        spoil_entry(&mut plans[spoilt], rng);
    }
    let mut yard: Vec<u8> = plans.iter().flat_map(SheetPlan::to_bytes).collect();
    match rng.below(60) {
        0 => spoil(&mut yard, rng),
        1 => yard.truncate(rng.below(yard.len() as u64) as usize),
        2 => yard.extend(vec![0; rng.pick(&[1, 512, 1024])]),
        3 => yard = plans[0].to_bytes().repeat(rng.pick(&[31, 32, 33])),
        _ => {}
    }
    let start = rng.below(routers);
    let plan = &plans[start as usize];
    let receiving = if rng.one_in(3) { rng.below(plan.interfaces.len() as u64) } else { 0 };
    let mut message = query(rng, plan, chain).to_bytes();
    match rng.below(40) {
        0 => message[0] = rng.below(5) as u8,
        1 => message.truncate(rng.below(21) as usize),
        2 => message[3] = 0,
        3 => message.push(0),
        _ => {}
    }
    let times = if rng.one_in(20) { rng.below(routers + 3) } else { routers.max(33) };
    Walk {
        yard,
        times: (0..times).map(|_| rng.draw() as u32).collect(),
        message,
        router: if rng.one_in(30) { rng.pick(&[routers as u32, 32, 65_536, u32::MAX]) } else { start as u32 },
        receiving: if rng.one_in(40) { rng.pick(&[64, 65_535, 65_536]) } else { receiving as u32 },
        destination: match rng.below(20) {
            0 => address(rng),
            1 => ip(224, 0, 0, 2),
            _ => plan.interfaces[receiving as usize].address,
        },
        ttl: rng.pick(&[1, 64, 255]),
        output: if rng.one_in(20) { rng.pick(&[0, 1471, 1473, 2000]) } else { 1472 },
        answer: if rng.one_in(20) { rng.pick(&[0, 15, 17, 64]) } else { 16 },
    }
}
