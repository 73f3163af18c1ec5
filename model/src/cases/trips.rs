//! Walks that several kinds of cases start from: yards, and Queries through them.

use crate::build::{ip, Header, InterfaceEntry, RouteEntry, SheetPlan};
use crate::rng::Rng;
use crate::sheet::LEAST_MTU;
use crate::walk::Start;
use crate::worked;

pub const GROUP: u32 = ip(232, 1, 1, 1);
const SOURCE: u32 = ip(203, 0, 113, 9);
const CLIENT: u32 = ip(192, 0, 2, 50);

/// All that a walk is handed, but the times.
#[derive(Clone)]
pub struct Trip {
    pub yard: Vec<u8>,
    pub message: Vec<u8>,
    pub times: usize,
    pub output: usize,
    pub router: u32,
    pub receiving: u32,
    pub destination: u32,
    pub ttl: u32,
}

impl Trip {
    pub fn start(&self) -> Start<'_> {
        let Trip { router, receiving, destination, ttl, .. } = *self;
        Start { message: &self.message, router, receiving, destination, ttl }
    }
}

pub fn header(hops: u8) -> Header {
    Header { kind: 1, length: 20, hops, group: GROUP, source: SOURCE, client: CLIENT, id: 77, port: 40_000 }
}

/// P1 to P5, by the second router's upstream and the hops.
pub fn worked_trip(upstream_of_second: u32, hops: u8) -> Trip {
    Trip {
        yard: worked::yard(upstream_of_second),
        message: worked::query(hops),
        times: 2,
        output: 1472,
        router: 0,
        receiving: 0,
        destination: worked::DESTINATION,
        ttl: 0,
    }
}

/// P2's yard as a loop, in which each router's interfaces have these MTUs.
pub fn loop_trip(mtus: [[u16; 2]; 2], hops: u8) -> Trip {
    let mut routers = worked::routers(ip(198, 51, 100, 1));
    for (router, mtus) in routers.iter_mut().zip(mtus) {
        router.interfaces.iter_mut().zip(mtus).for_each(|(interface, mtu)| interface.mtu = mtu);
    }
    Trip { yard: yard_of(&routers), ..worked_trip(0, hops) }
}

/// A refusal's number, and how one of the worked trips is made so.
pub type Refusal = (u32, fn(&mut Trip));

/// In the order tried.
pub const REFUSALS: [Refusal; 5] = [
    (1, |trip| trip.output = 1471),
    (21, |trip| trip.yard[1024 + 700] = 1),
    (22, |trip| trip.times = 1),
    (23, |trip| trip.router = 2),
    (24, |trip| trip.message[0] = 2),
];

/// What a router of a line does, the walk's end, and how the router is made so. The walk ends there, or it goes
/// on to the last router.
pub struct Ending {
    pub name: &'static str,
    pub end: u32,
    pub goes_on: bool,
    change: fn(&mut SheetPlan),
}

const fn ends(name: &'static str, end: u32, change: fn(&mut SheetPlan)) -> Ending {
    Ending { name, end, goes_on: false, change }
}

const fn goes_on(name: &'static str, change: fn(&mut SheetPlan)) -> Ending {
    Ending { name, end: 101, goes_on: true, change }
}

pub const ENDINGS: [Ending; 12] = [
    ends("to a group", 102, |plan| plan.routes[0].upstream = u32::MAX),
    ends("to nobody", 103, |plan| plan.routes[0].upstream = ip(198, 18, 0, 1)),
    ends("no upstream", 101, |plan| plan.routes[0].upstream = 0),
    ends("unknown incoming", 101, |plan| plan.routes[0] = plan.routes[0].by(u16::MAX, 0, 1)),
    ends("prohibited", 101, |plan| plan.prohibited = true),
    ends("no route", 101, |plan| plan.routes[0].group = GROUP + 1),
    goes_on("a kind 3 route", |plan| plan.routes[0] = RouteEntry::source_only(0, 0).by(1, plan.routes[0].upstream, 1)),
    goes_on("a kind 2 route", |plan| plan.routes[0] = RouteEntry::group(GROUP).by(1, plan.routes[0].upstream, 1)),
    ends("RP", 101, |plan| {
        plan.routes[0] = RouteEntry { flags: 1, ..RouteEntry::group(GROUP).by(1, plan.routes[0].upstream, 1) }
    }),
    goes_on("not multicast", |plan| plan.interfaces[0].flags = 0),
    goes_on("pruned", |plan| plan.routes[0].pruned = 1),
    goes_on("prune sent", |plan| plan.routes[0].flags = 2),
];

impl Ending {
    /// A walk along a line of three, one of which does this.
    pub fn trip(&self, place: usize) -> Trip {
        let mut plans = line_plans(3, 0);
        (self.change)(&mut plans[place]);
        Trip { yard: yard_of(&plans), ..line_trip(3, 0, 9) }
    }

    /// A walk to the end of a line, where the last router does this and an interface of it has the least MTU.
    pub fn narrow_trip(&self, routers: usize, interface: usize) -> Trip {
        let mut plans = line_plans(routers, 0);
        (self.change)(&mut plans[routers - 1]);
        plans[routers - 1].interfaces[interface].mtu = LEAST_MTU;
        Trip { yard: yard_of(&plans), ..line_trip(routers, 0, 255) }
    }

    pub fn steps(&self, place: usize) -> u32 {
        if self.goes_on {
            3
        } else {
            place as u32 + 1
        }
    }
}

pub fn yard_of(plans: &[SheetPlan]) -> Vec<u8> {
    plans.iter().flat_map(SheetPlan::to_bytes).collect()
}

pub fn receiving_address(number: usize) -> u32 {
    ip(10, 20, number as u8, 1)
}

/// A router that forwards to interface 0 what comes from its upstream by interface 1.
pub fn router(number: usize, upstream: u32) -> SheetPlan {
    let below = InterfaceEntry {
        threshold: number as u8,
        output: number as u64,
        ..InterfaceEntry::new(receiving_address(number), 24)
    };
    let above = InterfaceEntry { input: 100 + number as u64, ..InterfaceEntry::new(ip(10, 21, number as u8, 1), 24) };
    let route = RouteEntry::source_and_group(ip(203, 0, 113, 0), 24, GROUP).by(1, upstream, 1);
    SheetPlan {
        prohibited: false,
        interfaces: vec![below, above],
        routes: vec![RouteEntry { packets: 1000 + number as u64, ..route }],
    }
}

/// The upstream of a router of a line, 0 at its end.
fn next(number: usize, routers: usize) -> u32 {
    if number + 1 == routers {
        0
    } else {
        receiving_address(number + 1)
    }
}

pub fn line_plans(routers: usize, last_upstream: u32) -> Vec<SheetPlan> {
    let upstream = |number| if number + 1 == routers { last_upstream } else { next(number, routers) };
    (0..routers).map(|number| router(number, upstream(number))).collect()
}

pub fn line(routers: usize, last_upstream: u32) -> Vec<u8> {
    yard_of(&line_plans(routers, last_upstream))
}

pub fn ring(routers: usize) -> Vec<u8> {
    line(routers, receiving_address(0))
}

pub fn line_trip(routers: usize, start: usize, hops: u8) -> Trip {
    Trip {
        yard: line(routers, 0),
        message: header(hops).to_bytes(),
        times: routers,
        output: 1472,
        router: start as u32,
        receiving: 0,
        destination: receiving_address(start),
        ttl: 64,
    }
}

/// A router of a line that has four interfaces; the last two are on no route.
pub fn wide(number: usize, routers: usize) -> SheetPlan {
    let mut plan = router(number, next(number, routers));
    plan.interfaces.extend([22, 23].map(|net| InterfaceEntry::new(ip(10, net, number as u8, 1), 24)));
    plan
}

/// A walk along a line of such routers, from any interface of any of them.
pub fn wide_trip(routers: usize, start: usize, receiving: usize) -> Trip {
    let plans: Vec<SheetPlan> = (0..routers).map(|number| wide(number, routers)).collect();
    Trip {
        yard: yard_of(&plans),
        receiving: receiving as u32,
        destination: plans[start].interfaces[receiving].address,
        ..line_trip(routers, start, 9)
    }
}

/// Walks through one yard of routers with few addresses among them, so that traces run into each other.
pub fn random_trips(rng: &mut Rng, trials: usize) -> Vec<Trip> {
    let routers = 1 + if rng.one_in(8) { rng.below(32) } else { rng.below(7) };
    let plans: Vec<SheetPlan> = (0..routers).map(|_| random_router(rng)).collect();
    let yard = yard_of(&plans);
    let trips = (0..trials).map(|_| {
        let router = rng.below(routers) as usize;
        let receiving = rng.below(plans[router].interfaces.len() as u64) as usize;
        Trip {
            yard: yard.clone(),
            message: random_query(rng),
            times: routers as usize,
            output: 1472,
            router: router as u32,
            receiving: receiving as u32,
            destination: plans[router].interfaces[receiving].address,
            ttl: rng.below(300) as u32,
        }
    });
    trips.collect()
}

fn random_address(rng: &mut Rng) -> u32 {
    ip(10, 30, rng.below(3) as u8, 1 + rng.below(4) as u8)
}

fn random_router(rng: &mut Rng) -> SheetPlan {
    let count = 1 + rng.below(4);
    let interfaces = (0..count).map(|_| {
        let flags = if rng.one_in(6) { rng.below(4) as u8 } else { 1 };
        let mtu = if rng.one_in(3) { rng.pick(&[LEAST_MTU, 620, 1000, 1499, u16::MAX]) } else { 1500 };
        InterfaceEntry { flags, mtu, ..InterfaceEntry::new(random_address(rng), 24) }
    });
    let interfaces: Vec<InterfaceEntry> = interfaces.collect();
    let routes = 1 + rng.below(3);
    let routes = (0..routes).map(|_| random_way(rng, count));
    SheetPlan { prohibited: false, routes: routes.collect(), interfaces }
}

fn random_way(rng: &mut Rng, interfaces: u64) -> RouteEntry {
    let entry = match rng.below(6) {
        0 => RouteEntry { flags: rng.below(2) as u8, ..RouteEntry::group(GROUP) },
        1 | 2 => RouteEntry::source_only(0, 0),
        _ => RouteEntry::source_and_group(ip(203, 0, 113, 0), 24, GROUP),
    };
    let upstream = match rng.below(12) {
        0 => 0,
        1 => u32::MAX,
        2 => ip(198, 18, 0, 1),
        _ => random_address(rng),
    };
    entry.by(rng.below(interfaces) as u16, upstream, rng.draw() & ((1 << interfaces) - 1))
}

fn random_query(rng: &mut Rng) -> Vec<u8> {
    let source = if rng.one_in(6) { u32::MAX } else { SOURCE };
    let group = if source == SOURCE && rng.one_in(6) { u32::MAX } else { GROUP };
    let hops = rng.pick(&[1, 2, 4, 9, 40, 255]);
    Header { source, group, client: ip(10, 30, rng.below(3) as u8, 200), ..header(hops) }.to_bytes()
}
