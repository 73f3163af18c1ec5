//! Messages that meet the link's room, or pass it (document 02): whose MTU counts, and whether the packet is full.

use super::engine::Setup;
use super::faults;
use super::plans::{accepting, interface};
use super::situations::Situation;
use crate::build::{augmented, ip, standard, Header, InterfaceEntry, RouteEntry, SheetPlan};
use crate::engine::IP_AND_UDP;
use crate::message::{HEADER, MOST, STANDARD};
use crate::sheet::LEAST_MTU;

/// A message to a router, and whether it is full there.
pub struct Case {
    pub label: String,
    pub setup: Setup,
    pub full: bool,
}

/// What a message needs of an MTU beyond its length: a block, and the headers of IPv4 and UDP.
const BEYOND: usize = STANDARD + IP_AND_UDP;
/// The interfaces whose MTU does not count have these, in which all long messages pass the room, or none that is shorter than 1424.
const OTHERS: [u16; 2] = [LEAST_MTU, u16::MAX];
/// A Request of this length, and the MTU in which it just fits.
const LENGTH: usize = 920;
const FITTING: u16 = 1000;
/// The link's MTU and that of the others, by which it would be the other way round: it fits, and it does not.
const EDGES: [(u16, u16); 2] = [(FITTING, OTHERS[0]), (FITTING - 1, OTHERS[1])];

/// Whose MTU counts.
#[derive(Clone, Copy)]
enum Link {
    Incoming,
    Receiving,
}

/// A way for a message to go on, or to be answered.
struct Way {
    name: &'static str,
    link: Link,
    make: fn(&mut Situation),
}

const fn by_incoming(name: &'static str, make: fn(&mut Situation)) -> Way {
    Way { name, link: Link::Incoming, make }
}

const fn by_receiving(name: &'static str, make: fn(&mut Situation)) -> Way {
    Way { name, link: Link::Receiving, make }
}

/// The first way to each link, and the other to the second.
const MAIN: [Way; 3] = [
    by_incoming("incoming", |_| ()),
    by_receiving("incoming unknown", |s| s.unknown_incoming = true),
    by_receiving("no route", |s| s.no_route = true),
];

const OTHER_WAYS: [Way; 16] = [
    by_incoming("a group's route", |s| s.route_kind = 2),
    by_incoming("a source's route", |s| s.route_kind = 3),
    by_incoming("prohibited", |s| s.prohibited = true),
    by_incoming("RP", |s| s.rp = true),
    by_incoming("RP, prohibited", |s| (s.rp, s.prohibited) = (true, true)),
    by_incoming("upstream 0", |s| s.upstream = 0),
    by_incoming("upstream not known", |s| s.upstream = u32::MAX),
    by_incoming("hops reached", |s| s.hops = 3),
    by_incoming("not forwarded to", |s| s.wrong_interface = true),
    by_receiving("receiving is incoming", |s| s.rpf = true),
    by_receiving("unknown, prohibited", |s| (s.unknown_incoming, s.prohibited) = (true, true)),
    by_receiving("unknown, RP", |s| (s.unknown_incoming, s.rp) = (true, true)),
    by_receiving("unknown, hops reached", |s| (s.unknown_incoming, s.hops) = (true, 3)),
    by_receiving("no route of a source", |s| (s.no_route, s.route_kind) = (true, 3)),
    by_receiving("no route, prohibited", |s| (s.no_route, s.prohibited) = (true, true)),
    by_receiving("no route, hops reached", |s| (s.no_route, s.hops) = (true, 3)),
];

pub fn all() -> impl Iterator<Item = Case> {
    let by_length = byte_by_byte().chain(every_way()).chain(in_the_least_room()).chain(in_the_most_room());
    by_length.chain(queries()).chain(block_by_block()).chain(two_routes()).chain(interface_by_interface())
}

fn is_full(length: usize, mtu: u16) -> bool {
    length + BEYOND > usize::from(mtu) || length + STANDARD > MOST
}

impl Way {
    /// A message whose link has an MTU, all other interfaces having another.
    fn situation(&self, kind: u8, mtu: u16, others: u16) -> Situation {
        let mut situation = Situation { mtus: [others; 4], ..Situation::new(kind) };
        (self.make)(&mut situation);
        situation.mtus[match self.link {
            Link::Receiving => 0,
            Link::Incoming => 1,
        }] = mtu;
        situation
    }

    fn request(&self, length: usize, mtu: u16, others: u16) -> Case {
        let situation = Situation { length, ..self.situation(2, mtu, others) };
        let label = format!("room: {}, {length} in {mtu}, others {others}", self.name);
        Case { label, setup: situation.setup(), full: is_full(length, mtu) }
    }
}

/// A Request meets the room, passes it by each number of bytes up to a block and more, and leaves some.
fn byte_by_byte() -> impl Iterator<Item = Case> {
    let mtus = FITTING - 56..=FITTING + 4;
    MAIN.iter().flat_map(move |way| {
        let mtus = mtus.clone();
        OTHERS.into_iter().flat_map(move |others| mtus.clone().map(move |mtu| way.request(LENGTH, mtu, others)))
    })
}

/// Whatever else the answer would be.
fn every_way() -> impl Iterator<Item = Case> {
    let mtus = [FITTING - 52, FITTING - 51, FITTING - 1, FITTING, FITTING + 1];
    OTHER_WAYS.iter().flat_map(move |way| {
        OTHERS.into_iter().flat_map(move |others| mtus.map(|mtu| way.request(LENGTH, mtu, others)))
    })
}

/// Up to the longest message, which goes home whole.
fn in_the_least_room() -> impl Iterator<Item = Case> {
    let lengths = (484..=560).step_by(4).chain([600, 916, 920, 1000, 1416, 1420, 1424, 1468, MOST]);
    MAIN.iter().flat_map(move |way| {
        let lengths = lengths.clone();
        OTHERS
            .into_iter()
            .flat_map(move |others| lengths.clone().map(move |length| way.request(length, LEAST_MTU, others)))
    })
}

/// No MTU brings more room than 1472.
fn in_the_most_room() -> impl Iterator<Item = Case> {
    let mtus = [1495, 1496, 1497, 1498, 1499, 1500, 1501, 1502, 1504, 1552, 9000, 65_535];
    MAIN.iter().flat_map(move |way| {
        mtus.into_iter()
            .flat_map(move |mtu| [1412, 1416, 1420, 1424, MOST].map(|length| way.request(length, mtu, LEAST_MTU)))
    })
}

/// A Query has room in any link.
fn queries() -> impl Iterator<Item = Case> {
    MAIN.iter().chain(&OTHER_WAYS).map(|way| {
        let setup = way.situation(1, LEAST_MTU, LEAST_MTU).setup();
        Case { label: format!("room: {}, a query", way.name), setup, full: false }
    })
}

fn header() -> Header {
    Header { hops: 255, ..faults::header(2) }
}

/// A router that sends on, its incoming interface having an MTU and the others another.
fn router(mtu: u16, others: u16) -> SheetPlan {
    let mut plan = accepting();
    plan.interfaces.iter_mut().for_each(|interface| interface.mtu = others);
    plan.interfaces[1].mtu = mtu;
    plan
}

/// Type 4 blocks alone, as traces have them.
fn block_by_block() -> impl Iterator<Item = Case> {
    [(576, 8..=12), (1000, 16..=20), (1500, 25..=27)].into_iter().flat_map(|(mtu, counts)| {
        counts.map(move |count| {
            let message = header().with(&vec![standard(0x50 + count as u8); count]);
            let full = is_full(message.len(), mtu);
            let label = format!("room: {count} blocks in {mtu}");
            Case { label, setup: Setup::new(message, &router(mtu, u16::MAX)), full }
        })
    })
}

/// To a router in which it meets a link of this MTU.
fn long_request(label: String, plan: &SheetPlan, mtu: u16) -> Case {
    let message = header().with(&[standard(0x61), augmented(LENGTH - HEADER - STANDARD, 0x62)]);
    Case { label, setup: Setup::new(message, plan), full: is_full(LENGTH, mtu) }
}

/// Of two routes that serve, by interfaces 1 and 2, the chosen one's interface counts, in whichever order they stand.
fn two_routes() -> impl Iterator<Item = Case> {
    let (source, group) = (ip(203, 0, 113, 0), ip(232, 1, 1, 1));
    let longer = RouteEntry::source_and_group(source, 24, group);
    let by_group = RouteEntry::group(group);
    let by_source = RouteEntry::source_only(source, 24);
    let pairs = [
        ("shorter", longer, RouteEntry::source_and_group(source & !0xffff, 16, group)),
        ("equal", longer, longer),
        ("group's", longer, by_group),
        ("source's", by_group, by_source),
        ("shorter source's", by_source, RouteEntry::source_only(0, 0)),
        ("group's RP", longer, RouteEntry { flags: 1, ..by_group }),
        ("other group's", longer, RouteEntry::source_and_group(source, 24, group + 1)),
    ];
    let by = |route: RouteEntry, incoming: u8| route.by(incoming.into(), ip(10, 7, incoming, 2), 1);
    let pairs = pairs.map(|(name, chosen, other)| (name, by(chosen, 1), by(other, 2)));
    let behind = pairs.map(|(name, chosen, other)| served_by(&format!("{name} route behind"), [chosen, other]));
    // of equal routes the first is chosen
    let others = pairs.into_iter().filter(|(name, ..)| *name != "equal");
    let before = others.map(|(name, chosen, other)| served_by(&format!("{name} route before"), [other, chosen]));
    behind.into_iter().chain(before).flatten()
}

fn served_by(name: &str, routes: [RouteEntry; 2]) -> [Case; 2] {
    EDGES.map(|(mtu, others)| {
        let plan = SheetPlan { routes: routes.to_vec(), ..router(mtu, others) };
        long_request(format!("room: {name}, {mtu}"), &plan, mtu)
    })
}

/// The interface that a route names, or the receiving one, in every block of three.
fn interface_by_interface() -> impl Iterator<Item = Case> {
    let numbers = [0, 1, 16, 17, 18, 19, 20, 21, 35, 36, 37, 41, 42, 53];
    EDGES.into_iter().flat_map(move |(mtu, others)| {
        let incoming = numbers.map(|number| {
            let plan = one_of_many(number, mtu, others);
            let case = long_request(format!("room: incoming {number}, {mtu}"), &plan, mtu);
            received_by(53 - number, case)
        });
        let receiving = numbers.map(|number| {
            let mut plan = one_of_many(number, mtu, others);
            plan.routes[0] = plan.routes[0].by(u16::MAX, 0, 1);
            received_by(number, long_request(format!("room: receiving {number}, {mtu}"), &plan, mtu))
        });
        incoming.into_iter().chain(receiving)
    })
}

/// A router of 54 interfaces, one of which has an MTU and is the incoming one.
fn one_of_many(number: usize, mtu: u16, others: u16) -> SheetPlan {
    let interfaces = (0..54).map(|number| InterfaceEntry { mtu: others, ..interface(number) }).collect();
    let mut plan = SheetPlan { interfaces, ..accepting() };
    plan.interfaces[number].mtu = mtu;
    plan.routes[0].incoming = number as u16;
    plan
}

fn received_by(number: usize, case: Case) -> Case {
    Case { setup: Setup { receiving: number as u32, ..case.setup }, ..case }
}
