//! A router and a message made to fit any set of the tests of document 01's step 3: which codes apply.

use super::engine::Setup;
use super::faults;
use super::plans::interface;
use crate::build::{augmented, ip, standard, Header, InterfaceEntry, RouteEntry, SheetPlan};
use crate::rng::Rng;

/// The tests, each true if its code applies; and what else differs between cases.
#[derive(Clone, Copy)]
pub struct Situation {
    /// The message's type, 1 or 2.
    pub kind: u8,
    pub not_last_hop: bool,
    pub rp: bool,
    pub no_route: bool,
    pub prohibited: bool,
    pub no_multicast: bool,
    pub rpf: bool,
    pub wrong_interface: bool,
    pub scoped: Scope,
    /// The group, where it is not one of those that go with `scoped`.
    pub other_group: Option<u32>,
    pub prune_sent: bool,
    pub pruned: bool,
    pub stopped: bool,
    pub route_kind: u8,
    pub upstream: u32,
    pub unknown_incoming: bool,
    pub hops: u8,
    pub mtus: [u16; INTERFACES],
    /// A Request's length, [`SHORT`] or longer by an Augmented block.
    pub length: usize,
}

const INTERFACES: usize = 4;
/// The length of a Request without an Augmented block at its end.
const SHORT: usize = 136;

/// Where a boundary of a scoped group is.
#[derive(Clone, Copy, PartialEq, Eq)]
pub enum Scope {
    None,
    Receiving,
    Incoming,
    Both,
    /// A group in 239.0.0.0/8, and no boundary on the way.
    GroupAlone,
    /// Boundaries, and another group.
    BoundaryAlone,
}

/// A code, and how a situation is made so that it applies.
pub struct Code {
    pub number: u8,
    pub make: fn(&mut Situation),
}

/// The codes of step 3, in the order in which they are noted.
pub fn all_codes() -> [Code; 11] {
    let code = |number: u8, make: fn(&mut Situation)| Code { number, make };
    [
        code(6, |s| s.not_last_hop = true),
        code(8, |s| s.rp = true),
        code(5, |s| s.no_route = true),
        code(0x83, |s| s.prohibited = true),
        code(0x0a, |s| s.no_multicast = true),
        code(9, |s| s.rpf = true),
        code(1, |s| s.wrong_interface = true),
        code(4, |s| s.scoped = Scope::Receiving),
        code(2, |s| s.prune_sent = true),
        code(3, |s| s.pruned = true),
        code(7, |s| s.stopped = true),
    ]
}

impl Situation {
    /// One in which no code applies.
    pub fn new(kind: u8) -> Situation {
        Situation {
            kind,
            not_last_hop: false,
            rp: false,
            no_route: false,
            prohibited: false,
            no_multicast: false,
            rpf: false,
            wrong_interface: false,
            scoped: Scope::None,
            other_group: None,
            prune_sent: false,
            pruned: false,
            stopped: false,
            route_kind: 1,
            upstream: ip(10, 7, 1, 2),
            unknown_incoming: false,
            hops: 9,
            mtus: [1500; INTERFACES],
            length: SHORT,
        }
    }

    /// A router that is RP is the proper last hop; one that has no route is not, to a Query, and what
    /// comes after needs a route.
    pub fn is_possible(&self) -> bool {
        let later = self.rp
            || self.no_multicast
            || self.rpf
            || self.wrong_interface
            || self.prune_sent
            || self.pruned
            || self.stopped
            || self.scoped != Scope::None;
        let hidden = self.no_route && (later || (self.kind == 1 && !self.not_last_hop));
        let never = self.rp && self.not_last_hop && self.kind == 1;
        !never && !hidden
    }

    pub fn random(rng: &mut Rng) -> Situation {
        let mut likely = |n: u64| rng.one_in(n);
        let mut situation = Situation {
            not_last_hop: likely(5),
            rp: likely(8),
            no_route: likely(8),
            prohibited: likely(10),
            no_multicast: likely(8),
            rpf: likely(8),
            wrong_interface: likely(6),
            prune_sent: likely(5),
            pruned: likely(3),
            stopped: likely(3),
            unknown_incoming: likely(6),
            ..Situation::new(1)
        };
        situation.scoped = match rng.below(10) {
            0 => Scope::Receiving,
            1 => Scope::Incoming,
            2 => Scope::GroupAlone,
            3 => Scope::BoundaryAlone,
            _ => Scope::None,
        };
        situation.kind = 1 + rng.below(2) as u8;
        situation.route_kind = 1 + rng.below(3) as u8;
        situation.upstream = rng.pick(&[0, u32::MAX, ip(10, 7, 1, 2), ip(198, 51, 100, 9)]);
        situation.hops = rng.pick(&[1, 3, 4, 5, 255]);
        if rng.one_in(2) {
            situation.crowd(rng);
        }
        situation
    }

    /// Small MTUs among others, and a Request that fills the room of one of them, nearly or just not.
    fn crowd(&mut self, rng: &mut Rng) {
        self.mtus = self.mtus.map(|_| rng.pick(&[576, 577, 578, 579, 600, 1000, 1499, 1500, 1501, 9000, 65_535]));
        let filling = usize::from(rng.pick(&self.mtus).min(1500)) - 80;
        self.length = filling / 4 * 4 + 4 * rng.below(5) as usize - 8;
    }

    fn group(&self) -> u32 {
        self.other_group.unwrap_or(match self.scoped {
            Scope::None | Scope::BoundaryAlone => ip(232, 1, 1, 1),
            _ => ip(239, 1, 1, 1),
        })
    }

    /// Interface 0 receives, 1 is towards the source, 2 serves clients, 3 does nothing.
    fn interfaces(&self) -> SheetPlan {
        let numbered = self.mtus.into_iter().enumerate();
        let mut interfaces: Vec<_> =
            numbered.map(|(number, mtu)| InterfaceEntry { mtu, ..interface(number) }).collect();
        if self.no_multicast {
            interfaces[0].flags &= !1;
        }
        if matches!(self.scoped, Scope::Receiving | Scope::Both | Scope::BoundaryAlone) {
            interfaces[0].flags |= 2;
        }
        if matches!(self.scoped, Scope::Incoming | Scope::Both | Scope::BoundaryAlone) {
            interfaces[1].flags |= 2;
        }
        interfaces[3].flags |= 2;
        SheetPlan { prohibited: self.prohibited, interfaces, routes: Vec::new() }
    }

    fn route(&self) -> RouteEntry {
        let group = if self.no_route { ip(225, 0, 0, 1) } else { self.group() };
        let source = ip(203, 0, 113, 0);
        let (incoming, upstream) = match (self.unknown_incoming, self.rpf) {
            (true, _) => (u16::MAX, 0),
            (false, true) => (0, self.upstream),
            (false, false) => (1, self.upstream),
        };
        let entry = match self.route_kind {
            _ if self.rp => RouteEntry { flags: 1, ..RouteEntry::group(group) },
            1 => RouteEntry::source_and_group(source, 24, group),
            2 => RouteEntry::group(group),
            _ if self.no_route => RouteEntry::source_only(ip(99, 0, 0, 0), 8),
            _ => RouteEntry::source_only(source, 25),
        };
        RouteEntry {
            flags: entry.flags | if self.prune_sent { 2 } else { 0 },
            protocol: 13,
            multicast: 5,
            packets: 0x0123_4567_89ab_cdef,
            pruned: if self.pruned { 0b1001 } else { 0b1000 },
            stopped: if self.stopped { 0b0101 } else { 0b0110 },
            ..entry.by(incoming, upstream, if self.wrong_interface { 0b0100 } else { 0b0101 })
        }
    }

    fn message(&self) -> Vec<u8> {
        let client = if self.not_last_hop { ip(10, 7, 3, 50) } else { ip(10, 7, 2, 50) };
        let header = Header { client, group: self.group(), hops: self.hops, ..faults::header(self.kind) };
        match self.kind {
            1 => header.to_bytes(),
            _ => {
                let mut blocks = vec![standard(0x21), augmented(12, 0x22), standard(0x23)];
                blocks.extend((self.length > SHORT).then(|| augmented(self.length - SHORT, 0x24)));
                header.with(&blocks)
            }
        }
    }

    pub fn setup(&self) -> Setup {
        let plan = SheetPlan { routes: vec![self.route()], ..self.interfaces() };
        Setup::new(self.message(), &plan)
    }
}
