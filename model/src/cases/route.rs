//! The cases of which route and of the proper last hop. Area 1 holds a sheet. Command 2 (fields of 8
//! bytes from byte 8 on): sheet's length and source, 4 bytes each; group and client likewise. Lines:
//! `label source group client -> 0 lasthop`, or `.. -> 1 kind length source group packets lasthop`,
//! where the packet count names the route: 5000 and its number.

use super::plans::{interface, random_route};
use super::tape::{Area, Tape};
use crate::build::{ip, InterfaceEntry, RouteEntry, SheetPlan};
use crate::bytes::mask;
use crate::rng::Rng;
use crate::sheet::Sheet;

const CHOOSE: u8 = 2;
const AREA: usize = 8192;
const GROUP: u32 = ip(232, 1, 1, 1);
const OTHER: u32 = ip(239, 2, 2, 2);
const ALL_ONES: u32 = u32::MAX;

pub fn tape() -> Tape {
    let mut cases = Cases { tape: Tape::default(), sheet: Area::new(1, AREA), length: 0, name: "" };
    cases.each_kind();
    cases.nested();
    cases.every_length();
    cases.ties();
    cases.last_hops();
    cases.overlapping(&mut Rng::new(21));
    cases.tape
}

struct Cases {
    tape: Tape,
    sheet: Area,
    length: usize,
    name: &'static str,
}

/// Routes with counts that name them.
fn named(routes: Vec<RouteEntry>) -> Vec<RouteEntry> {
    routes.into_iter().zip(5000..).map(|(route, packets)| RouteEntry { packets, ..route }).collect()
}

fn plan(interfaces: usize, routes: Vec<RouteEntry>) -> SheetPlan {
    SheetPlan { prohibited: false, interfaces: (0..interfaces).map(interface).collect(), routes: named(routes) }
}

impl Cases {
    fn use_sheet(&mut self, name: &'static str, plan: &SheetPlan) {
        let bytes = plan.to_bytes();
        self.tape.set(&mut self.sheet, &bytes);
        self.length = bytes.len();
        self.name = name;
    }

    fn ask(&mut self, source: u32, group: u32, client: u32) -> Option<usize> {
        self.tape.label(&format!("{} {source} {group} {client}", self.name));
        let (length, both) = (self.length as u64, |high: u32, low: u32| u64::from(high) << 32 | u64::from(low));
        self.tape.numbers(CHOOSE, &[length << 32 | u64::from(source), both(group, client)]);
        let sheet = Sheet::parse(&self.sheet.bytes[..self.length]).expect("a valid sheet");
        let chosen = sheet.choose(source, group);
        let route = chosen.map(|number| &sheet.routes[number]);
        let last_hop = u8::from(sheet.is_last_hop(route, client));
        self.tape.line(match route {
            None => format!(" -> 0 {last_hop}"),
            Some(r) => {
                let kind = r.kind as u8 + 1;
                format!(" -> 1 {kind} {} {} {} {} {last_hop}", r.length, r.source, r.group, r.packets)
            }
        });
        chosen
    }

    /// Each kind alone, each pair and all three, in every order, by every form of source and group.
    fn each_kind(&mut self) {
        let kinds = [
            RouteEntry::source_and_group(ip(203, 0, 113, 0), 24, GROUP),
            RouteEntry::group(GROUP),
            RouteEntry::source_only(ip(203, 0, 113, 0), 24),
        ];
        let orders: [&[usize]; 16] = [
            &[],
            &[0],
            &[1],
            &[2],
            &[0, 1],
            &[1, 0],
            &[0, 2],
            &[2, 0],
            &[1, 2],
            &[2, 1],
            &[0, 1, 2],
            &[0, 2, 1],
            &[1, 0, 2],
            &[1, 2, 0],
            &[2, 0, 1],
            &[2, 1, 0],
        ];
        for order in orders {
            let routes = order.iter().map(|kind| kinds[*kind].by(0, ip(10, 7, 0, 2), 1)).collect();
            self.use_sheet("kinds", &plan(2, routes));
            for source in [ip(203, 0, 113, 9), ip(203, 0, 114, 9), ALL_ONES] {
                for group in [GROUP, OTHER, ALL_ONES] {
                    self.ask(source, group, ip(10, 7, 0, 50));
                }
            }
        }
    }

    /// Prefixes of every length of one address, of kinds 1 and 3, in a mixed order.
    fn nested(&mut self) {
        let address = ip(203, 77, 113, 41);
        let order: Vec<u8> = (0..33).map(|i| (i * 20 % 33) as u8).collect();
        let prefix = |length: u8| address & mask(length);
        let third = order.iter().map(|length| RouteEntry::source_only(prefix(*length), *length));
        let first = order.iter().filter(|length| **length > 0);
        let first = first.map(|length| RouteEntry::source_and_group(prefix(*length), *length, GROUP));
        self.use_sheet("nested", &plan(3, third.chain(first).collect()));
        for bit in 0..32 {
            let source = address ^ 1 << bit;
            for group in [GROUP, OTHER, ALL_ONES] {
                self.ask(source, group, address);
            }
        }
        for group in [GROUP, OTHER, ALL_ONES] {
            self.ask(address, group, address);
            self.ask(ALL_ONES, group, address);
        }
    }

    /// Every length, of a route and of the interface that it forwards to, for a source and a client that differ from both in
    /// no bit, in each bit alone, and in each bit and all behind it. The second route serves where the first does not.
    fn every_length(&mut self) {
        let address = ip(203, 77, 113, 41);
        let (alone, from_there) = ((0..32).map(|bit| 1 << bit), (0..31).map(|bit| u32::MAX >> bit));
        let differences: Vec<u32> = alone.chain(from_there).chain([0]).collect();
        for length in 0..=32 {
            let routes = [length, 0].map(|length| RouteEntry::source_only(address & mask(length), length).by(0, 0, 1));
            let mut base = plan(1, routes.into());
            base.interfaces[0] = InterfaceEntry::new(address, length.max(1)); // none has length 0
            self.use_sheet("lengths", &base);
            for difference in &differences {
                let other = address ^ difference;
                let agree = difference.checked_shr(32 - u32::from(length)).unwrap_or(0) == 0;
                assert_eq!(self.ask(other, ALL_ONES, other), Some(usize::from(!agree)));
            }
        }
    }

    /// Of equal routes the earlier is chosen.
    fn ties(&mut self) {
        let source = ip(203, 0, 113, 9);
        let three = [
            RouteEntry::source_and_group(ip(203, 0, 113, 0), 24, GROUP),
            RouteEntry::group(GROUP),
            RouteEntry::source_only(ip(203, 0, 113, 0), 24),
        ];
        let routes = three.into_iter().cycle().take(30).collect();
        self.use_sheet("ties", &plan(2, routes));
        for (source, group) in
            [(source, GROUP), (ip(1, 1, 1, 1), GROUP), (ALL_ONES, GROUP), (source, OTHER), (source, ALL_ONES)]
        {
            assert!(self.ask(source, group, source).is_some_and(|number| number < 3));
        }
        let longer_later = vec![
            RouteEntry::source_and_group(ip(203, 0, 0, 0), 16, GROUP),
            RouteEntry { flags: 1, ..RouteEntry::group(GROUP) },
            RouteEntry::source_and_group(ip(203, 0, 113, 0), 25, GROUP),
            RouteEntry::source_and_group(ip(203, 0, 113, 0), 25, GROUP),
            RouteEntry::source_only(0, 0),
        ];
        self.use_sheet("RP loses to kind 1", &plan(2, longer_later));
        for source in [source, ip(203, 0, 113, 129), ip(203, 1, 0, 0), ALL_ONES] {
            self.ask(source, GROUP, ip(10, 7, 0, 50));
        }
    }

    /// Clients at the edges of subnets; interfaces without the flag, out of the map, and RP.
    fn last_hops(&mut self) {
        for length in [1, 8, 24, 28, 30, 31, 32] {
            let mut base = plan(3, vec![RouteEntry::group(GROUP).by(0, 0, 0b010)]);
            base.interfaces[1].length = length;
            let address = base.interfaces[1].address;
            self.use_sheet("last hop", &base);
            let outside = address ^ 1 << (32 - length);
            for client in [address, address ^ 1, address ^ 2, outside, ip(10, 7, 0, 50), ip(10, 7, 2, 50)] {
                self.ask(ALL_ONES, GROUP, client);
            }
        }
        for (name, flags, forward, rp) in [
            ("not multicast", 0, 0b010, 0),
            ("boundary alone", 2, 0b010, 0),
            ("not in the map", 1, 0b101, 0),
            ("empty map", 1, 0, 0),
            ("RP, empty map", 1, 0, 1),
            ("all in the map", 3, 0b111, 0),
        ] {
            let mut base = plan(3, vec![RouteEntry { flags: rp, ..RouteEntry::group(GROUP).by(0, 0, forward) }]);
            base.interfaces[1].flags = flags;
            self.use_sheet(name, &base);
            for client in [ip(10, 7, 0, 50), ip(10, 7, 1, 50), ip(10, 7, 2, 50), ip(10, 8, 1, 50)] {
                self.ask(ALL_ONES, GROUP, client);
                self.ask(ALL_ONES, OTHER, client);
            }
        }
        let wide = plan(64, vec![RouteEntry::group(GROUP).by(0, 0, 1 << 63 | 1 << 18)]);
        self.use_sheet("64 interfaces", &wide);
        for third in [0, 17, 18, 19, 62, 63] {
            self.ask(ALL_ONES, GROUP, ip(10, 7, third, 50));
        }
    }

    /// Sheets with many prefixes of a few addresses.
    fn overlapping(&mut self, rng: &mut Rng) {
        for _ in 0..10 {
            let roots = [rng.draw() as u32, rng.draw() as u32, 0, 1 << 31];
            let count = 20 + rng.below(60) as usize;
            let routes: Vec<RouteEntry> = (0..count)
                .map(|_| {
                    let route = random_route(rng, 5);
                    let source = rng.pick(&roots) & mask(route.length);
                    let group = if route.kind == 3 { 0 } else { rng.pick(&[GROUP, GROUP, OTHER]) };
                    RouteEntry { source, group, ..route }
                })
                .collect();
            self.use_sheet("overlapping", &plan(5, routes));
            for _ in 0..60 {
                let source = match rng.below(12) {
                    0 => ALL_ONES,
                    1 => rng.draw() as u32,
                    _ => rng.pick(&roots) ^ ((1 << rng.below(32)) * rng.below(2) as u32),
                };
                let group = rng.pick(&[GROUP, GROUP, OTHER, OTHER + 1, ALL_ONES]);
                let client = ip(10, 7, rng.below(6) as u8, 50);
                self.ask(source, group, client);
            }
        }
    }
}
