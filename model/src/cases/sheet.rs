//! The cases of the sheet. Area 1 holds a sheet. Commands (fields of 8 bytes from byte 8 on): 2 check
//! (length), 3 interface (length, number), 4 route (length, number), 5 holder (length, address).
//! Lines: `label -> 0`, `label -> 1 interfaces routes prohibited`; `interface i -> ` its fields in the
//! order of the sheet; `route k -> ` likewise; `holder a -> i`, or 65535 for none.

use super::plans::{interface, plan, random_interface, random_route};
use super::tape::{Area, Tape};
use crate::build::{ip, mend_all, InterfaceEntry, RouteEntry, SheetPlan};
use crate::bytes::be16;
use crate::rng::Rng;
use crate::sheet::{sum, Rule, Sheet, Table, BLOCK, ENTRIES, LEAST_MTU, SWITCHES};

const CHECK: u8 = 2;
const INTERFACE: u8 = 3;
const ROUTE: u8 = 4;
const HOLDER: u8 = 5;
/// Room for one block more than a sheet may have.
const AREA: usize = 17 * BLOCK;

pub fn tape() -> Tape {
    let mut cases = Cases { tape: Tape::default(), sheet: Area::new(1, AREA) };
    cases.shapes();
    cases.lengths();
    for place in [Place::first_entries(), Place::last_entries()] {
        cases.interface_rules(&place);
        cases.route_rules(&place);
    }
    cases.interface_rules(&Place::end_of_a_full_block());
    cases.block_rules();
    cases.sums();
    cases.flips(&mut Rng::new(11));
    cases.random(&mut Rng::new(12));
    cases.tape
}

struct Cases {
    tape: Tape,
    sheet: Area,
}

/// A plan, and the interface and the route of it that a case changes.
struct Place {
    name: &'static str,
    plan: SheetPlan,
    interface: usize,
    route: usize,
}

impl Place {
    fn first_entries() -> Place {
        Place { name: "first", plan: plan(2, 3), interface: 0, route: 0 }
    }

    /// In the last of several blocks of their kinds.
    fn last_entries() -> Place {
        Place { name: "last", plan: plan(24, 21), interface: 23, route: 20 }
    }

    fn end_of_a_full_block() -> Place {
        let [interface, route] = [Table::Interfaces, Table::Routes].map(|table| table.full() - 1);
        Place { name: "full block's", plan: plan(24, 21), interface, route }
    }
}

impl Cases {
    /// Checks the bytes, and answers what the model finds.
    fn check(&mut self, label: &str, bytes: &[u8]) -> Result<Sheet, Rule> {
        self.tape.set(&mut self.sheet, bytes);
        self.check_first(label, bytes.len())
    }

    /// Checks the first `length` bytes of the area as it stands.
    fn check_first(&mut self, label: &str, length: usize) -> Result<Sheet, Rule> {
        self.tape.label(label);
        self.tape.numbers(CHECK, &[length as u64]);
        let parsed = Sheet::parse(&self.sheet.bytes[..length]);
        self.tape.line(match &parsed {
            Err(_) => " -> 0".to_string(),
            Ok(sheet) => {
                format!(" -> 1 {} {} {}", sheet.interfaces.len(), sheet.routes.len(), u8::from(sheet.prohibited))
            }
        });
        parsed
    }

    /// A case that is to keep every rule.
    fn kept(&mut self, label: &str, bytes: &[u8]) -> Sheet {
        self.check(label, bytes).unwrap_or_else(|rule| panic!("{label} breaks {rule:?}"))
    }

    /// A case that is to break one rule.
    fn broken(&mut self, rule: Rule, label: &str, bytes: &[u8]) {
        assert_eq!(self.check(label, bytes), Err(rule), "{label}");
    }

    /// A case that is to keep every rule, or to break this one.
    fn either(&mut self, keeps: bool, rule: Rule, label: &str, bytes: &[u8]) {
        if keeps {
            self.kept(label, bytes);
        } else {
            self.broken(rule, label, bytes);
        }
    }

    /// Reads all of a valid sheet.
    fn read(&mut self, bytes: &[u8], plan: &SheetPlan) {
        for (number, entry) in plan.interfaces.iter().enumerate() {
            self.tape.label(&format!("interface {number}"));
            self.tape.numbers(INTERFACE, &[bytes.len() as u64, number as u64]);
            self.tape.line(interface_line(entry));
        }
        for (number, entry) in plan.routes.iter().enumerate() {
            self.tape.label(&format!("route {number}"));
            self.tape.numbers(ROUTE, &[bytes.len() as u64, number as u64]);
            self.tape.line(route_line(entry));
        }
    }

    fn holder(&mut self, bytes: &[u8], sheet: &Sheet, address: u32) {
        self.tape.label(&format!("holder {address}"));
        self.tape.numbers(HOLDER, &[bytes.len() as u64, u64::from(address)]);
        self.tape.line(format!(" -> {}", sheet.holder(address).unwrap_or(65_535)));
    }

    fn shapes(&mut self) {
        for (interfaces, routes) in [
            (1, 0),
            (1, 1),
            (2, 3),
            (17, 8),
            (18, 9),
            (19, 10),
            (21, 0),
            (36, 0),
            (36, 18),
            (37, 19),
            (54, 117),
            (55, 108),
            (64, 108),
            (1, 135),
        ] {
            for prohibited in [false, true] {
                let plan = SheetPlan { prohibited, ..plan(interfaces, routes) };
                let bytes = plan.to_bytes();
                let label = format!("shape {interfaces} {routes}{}", if prohibited { " prohibited" } else { "" });
                let sheet = self.kept(&label, &bytes);
                if !prohibited {
                    self.read(&bytes, &plan);
                    for address in [ip(10, 7, 0, 1), ip(10, 7, interfaces as u8 - 1, 1), ip(10, 7, 0, 2), 0, u32::MAX] {
                        self.holder(&bytes, &sheet, address);
                    }
                }
            }
        }
        let mut repeated = plan(24, 0);
        repeated.interfaces[22].address = repeated.interfaces[3].address;
        repeated.interfaces[5].address = repeated.interfaces[4].address;
        let bytes = repeated.to_bytes();
        let sheet = self.kept("addresses repeated", &bytes);
        for address in [3, 4, 5, 22, 23].map(|number| repeated.interfaces[number].address) {
            self.holder(&bytes, &sheet, address);
        }
    }

    fn lengths(&mut self) {
        for interfaces in [63, 64, 65, 66, 72] {
            let bytes = plan(interfaces, 0).to_bytes();
            self.either(interfaces <= 64, Rule::TooManyInterfaces, &format!("interfaces {interfaces}"), &bytes);
        }
        self.broken(Rule::Length, "17 blocks", &plan(1, 144).to_bytes());
        for length in [0, 1, 2, 4, 510, 511, 513, 1023, 1025, 1536 - 1, 8191, 8193, 8703, 8704] {
            assert_eq!(self.check_first(&format!("length {length}"), length), Err(Rule::Length));
        }
        for blocks in 1..=16 {
            assert!(self.check_first(&format!("length {}", blocks * BLOCK), blocks * BLOCK).is_ok());
        }
    }

    fn interface_case(&mut self, place: &Place, keeps: bool, rule: Rule, what: &str, entry: InterfaceEntry) {
        let mut plan = place.plan.clone();
        plan.interfaces[place.interface] = entry;
        let label = format!("{} interface {what}", place.name);
        self.either(keeps, rule, &label, &plan.to_bytes());
    }

    fn interface_rules(&mut self, place: &Place) {
        let base = interface(place.interface);
        for (first, keeps) in octets(|octet| (1..=223).contains(&octet) && octet != 127) {
            for rest in [0, 1, 0xff_ffff] {
                let entry = InterfaceEntry { address: first << 24 | rest, ..base };
                let what = format!("address {first} {rest}");
                self.interface_case(place, keeps, Rule::InterfaceAddress, &what, entry);
            }
        }
        for length in [0, 1, 2, 8, 31, 32, 33, 64, 128, 255] {
            let keeps = (1..=32).contains(&length);
            let entry = InterfaceEntry { length, ..base };
            self.interface_case(place, keeps, Rule::InterfaceLength, &format!("length {length}"), entry);
        }
        for flags in [0, 1, 2, 3, 4, 5, 8, 16, 32, 64, 128, 255] {
            let entry = InterfaceEntry { flags, ..base };
            self.interface_case(place, flags <= 3, Rule::InterfaceFlags, &format!("flags {flags}"), entry);
        }
        for zero in [0, 1, 128, 255] {
            let entry = InterfaceEntry { zero, ..base };
            self.interface_case(place, zero == 0, Rule::InterfaceZero, &format!("zero {zero}"), entry);
        }
        let free = InterfaceEntry { threshold: 255, input: u64::MAX, output: u64::MAX, ..base };
        self.interface_case(place, true, Rule::InterfaceZero, "counts", free);
        self.mtus(place, base);
    }

    /// MTUs at the least one and round Ethernet's, and those that are on the other side of the least with their bytes exchanged;
    /// and what stands behind.
    fn mtus(&mut self, place: &Place, base: InterfaceEntry) {
        let edges = [0, 1, 28, 80, 255, 256, 511, 512, 548, 574, 575, 576, 577, 604, 639, 640, 768, 1024, 1280];
        let others = [1471, 1472, 1499, 1500, 1501, 9000, 32_767, 32_768, 65_279, 65_534, 65_535];
        let exchanged = [0x0140, 0x01ff, 0x4001, 0x4002, 0xff01];
        for mtu in edges.into_iter().chain(others).chain(exchanged) {
            let entry = InterfaceEntry { mtu, ..base };
            self.interface_case(place, mtu >= LEAST_MTU, Rule::InterfaceMtu, &format!("MTU {mtu}"), entry);
        }
        for zeros in [0, 1, 128, 255, 256, 0x8000, 0xff00, 65_535] {
            let entry = InterfaceEntry { zeros, ..base };
            self.interface_case(place, zeros == 0, Rule::InterfaceZeros, &format!("zeros {zeros}"), entry);
        }
    }

    fn route_case(&mut self, place: &Place, keeps: bool, rule: Rule, what: &str, entry: RouteEntry) {
        let mut plan = place.plan.clone();
        plan.routes[place.route] = entry;
        let label = format!("{} route {what}", place.name);
        self.either(keeps, rule, &label, &plan.to_bytes());
    }

    fn route_rules(&mut self, place: &Place) {
        let group = ip(232, 1, 1, 1);
        let by = |entry: RouteEntry| entry.by(0, ip(10, 7, 0, 2), 1);
        let kinds = [
            by(RouteEntry::source_and_group(ip(203, 0, 113, 0), 24, group)),
            by(RouteEntry::group(group)),
            by(RouteEntry::source_only(ip(203, 0, 113, 0), 24)),
        ];
        for kind in [0, 4, 5, 128, 255] {
            let entry = RouteEntry { kind, ..kinds[0] };
            self.route_case(place, false, Rule::RouteKind, &format!("kind {kind}"), entry);
        }
        for base in kinds {
            self.route_lengths(place, base);
            self.route_fields(place, base);
            self.route_ways(place, base);
        }
        self.route_sources(place);
        self.route_case(
            place,
            true,
            Rule::RouteSource,
            "source 224.0.0.0",
            RouteEntry::source_only(ip(224, 0, 0, 0), 4),
        );
    }

    fn route_lengths(&mut self, place: &Place, base: RouteEntry) {
        for length in [0, 1, 2, 31, 32, 33, 34, 64, 128, 255] {
            let keeps = match base.kind {
                1 => (1..=32).contains(&length),
                2 => length == 0,
                _ => length <= 32,
            };
            let entry = RouteEntry { length, source: 0, ..base };
            self.route_case(place, keeps, Rule::RouteLength, &format!("kind {} length {length}", base.kind), entry);
        }
    }

    fn route_fields(&mut self, place: &Place, base: RouteEntry) {
        let kind = base.kind;
        for flags in [0, 1, 2, 3, 4, 6, 8, 16, 32, 64, 128, 255] {
            let keeps = if kind == 2 { flags <= 3 } else { flags == 0 || flags == 2 };
            let entry = RouteEntry { flags, ..base };
            self.route_case(place, keeps, Rule::RouteFlags, &format!("kind {kind} flags {flags}"), entry);
        }
        for zero in [1, 128, 255] {
            let entry = RouteEntry { zero, ..base };
            self.route_case(place, false, Rule::RouteZero, &format!("kind {kind} zero {zero}"), entry);
        }
        for zeros in [1, 255, 256, 65_535] {
            let entry = RouteEntry { zeros, ..base };
            self.route_case(place, false, Rule::RouteZero, &format!("kind {kind} zeros {zeros}"), entry);
        }
        for (first, multicast) in octets(|octet| (224..=239).contains(&octet)) {
            for rest in [0, 1, 0xff_ffff] {
                let group = first << 24 | rest;
                let keeps = if kind == 3 { group == 0 } else { multicast };
                let entry = RouteEntry { group, ..base };
                self.route_case(place, keeps, Rule::RouteGroup, &format!("kind {kind} group {first} {rest}"), entry);
            }
        }
    }

    /// Incoming, upstream and the maps.
    fn route_ways(&mut self, place: &Place, base: RouteEntry) {
        let kind = base.kind;
        for (first, unicast) in octets(|octet| (1..=223).contains(&octet) && octet != 127) {
            for rest in [0, 1, 0xff_fffe, 0xff_ffff] {
                let upstream = first << 24 | rest;
                let keeps = unicast || upstream == 0 || upstream == u32::MAX;
                let entry = RouteEntry { upstream, ..base };
                self.route_case(
                    place,
                    keeps,
                    Rule::RouteUpstream,
                    &format!("kind {kind} upstream {first} {rest}"),
                    entry,
                );
            }
        }
        let interfaces = place.plan.interfaces.len() as u16;
        for incoming in [0, interfaces - 1, interfaces, 63, 64, 255, 256, 65_534] {
            let entry = RouteEntry { incoming, ..base };
            let keeps = incoming < interfaces;
            self.route_case(place, keeps, Rule::RouteIncoming, &format!("kind {kind} incoming {incoming}"), entry);
        }
        for upstream in [0, 1 << 24, u32::MAX] {
            let entry = RouteEntry { incoming: 65_535, upstream, ..base };
            let what = format!("kind {kind} unknown, upstream {upstream}");
            self.route_case(place, upstream == 0, Rule::RouteUpstream, &what, entry);
        }
        for bit in [0, interfaces - 1, interfaces, 31, 32, 62, 63] {
            let map = 1 << bit;
            let (forward, pruned, stopped) = (base.forward, base.pruned, base.stopped);
            for (name, entry) in [
                ("forward", RouteEntry { forward: forward | map, ..base }),
                ("pruned", RouteEntry { pruned: pruned | map, ..base }),
                ("stopped", RouteEntry { stopped: stopped | map, ..base }),
            ] {
                let what = format!("kind {kind} {name} bit {bit}");
                self.route_case(place, bit < interfaces, Rule::RouteMaps, &what, entry);
            }
        }
    }

    /// Source bits past each length, and the last bit within.
    fn route_sources(&mut self, place: &Place) {
        let group = ip(232, 1, 1, 1);
        for length in 0..=32u8 {
            for bit in [length.wrapping_sub(1), length, 31] {
                if bit < 32 {
                    let source = 1 << (31 - bit);
                    let what = format!("length {length} source bit {bit}");
                    let entry = RouteEntry::source_only(source, length);
                    self.route_case(place, bit < length, Rule::RouteSource, &format!("kind 3 {what}"), entry);
                    if length > 0 {
                        let entry = RouteEntry::source_and_group(source, length, group);
                        self.route_case(place, bit < length, Rule::RouteSource, &format!("kind 1 {what}"), entry);
                    }
                }
            }
        }
        for source in [1, 1 << 31, u32::MAX] {
            let entry = RouteEntry { source, ..RouteEntry::group(group) };
            self.route_case(place, false, Rule::RouteSource, &format!("kind 2 source {source}"), entry);
        }
    }

    fn with_bytes(&mut self, rule: Option<Rule>, label: &str, base: &[u8], changes: &[(usize, u8)]) {
        let mut bytes = base.to_vec();
        for (at, value) in changes {
            bytes[*at] = *value;
        }
        mend_all(&mut bytes);
        match rule {
            None => drop(self.kept(label, &bytes)),
            Some(rule) => self.broken(rule, label, &bytes),
        }
    }

    fn block_rules(&mut self) {
        let four = plan(19, 10).to_bytes();
        self.block_heads(&four);
        let two = plan(2, 3).to_bytes();
        for (at, value) in [(508, 1), (508, 128), (509, 2), (509, 3), (509, 128), (509, 255)] {
            self.with_bytes(Some(Rule::Switches), &format!("block 0 switch {at} {value}"), &two, &[(at, value)]);
        }
        self.with_bytes(None, "block 0 switch 509 1", &two, &[(509, 1)]);
        for (at, value) in [(1020, 1), (1021, 1), (1021, 2), (1021, 255)] {
            self.with_bytes(Some(Rule::Switches), &format!("block 1 switch {at} {value}"), &two, &[(at, value)]);
        }
        let unused = [(60, 1), (61, 255), (300, 4), (507, 1), (512 + 172, 1), (512 + 173, 128), (1018, 1), (1019, 1)];
        for (at, value) in unused {
            self.with_bytes(Some(Rule::UnusedBytes), &format!("unused byte {at} {value}"), &two, &[(at, value)]);
        }
        self.block_orders();
        self.no_interface_block();
        self.empty_blocks();
        self.overfull_blocks();
    }

    /// Bytes 0 to 3 of each block of a sheet of two interface and two route blocks.
    fn block_heads(&mut self, four: &[u8]) {
        for block in 0..4 {
            let start = block * BLOCK;
            for kind in [0, 3, 4, 255] {
                let label = format!("block {block} kind {kind}");
                self.with_bytes(Some(Rule::BlockKind), &label, four, &[(start, kind)]);
            }
            for (at, value) in [(2, 1), (2, 255), (3, block as u8 + 1), (3, block as u8 ^ 128)] {
                let label = format!("block {block} number {at} {value}");
                self.with_bytes(Some(Rule::BlockNumber), &label, four, &[(start + at, value)]);
            }
            for used in [0, 19, 20, 21, 22, 64, 128, 255] {
                let label = format!("block {block} used {used}");
                self.with_bytes(Some(Rule::Used), &label, four, &[(start + 1, used)]);
            }
        }
        self.with_bytes(Some(Rule::Used), "block 3 used 10", four, &[(3 * BLOCK + 1, 10)]);
        self.with_bytes(Some(Rule::UnusedBytes), "block 0 used 17", four, &[(1, 17)]);
        self.with_bytes(Some(Rule::UnusedBytes), "block 2 used 8", four, &[(2 * BLOCK + 1, 8)]);
        self.with_bytes(Some(Rule::InterfaceAddress), "block 1 used 2", four, &[(BLOCK + 1, 2)]);
        self.with_bytes(Some(Rule::RouteKind), "block 3 used 2", four, &[(3 * BLOCK + 1, 2)]);
        self.partly_filled(four, 0, Table::Interfaces, 17);
        self.partly_filled(four, 0, Table::Interfaces, 1);
        self.partly_filled(four, 2, Table::Routes, 8);
        self.partly_filled(four, 2, Table::Routes, 1);
    }

    fn partly_filled(&mut self, four: &[u8], block: usize, table: Table, used: usize) {
        let mut bytes = four.to_vec();
        let partly = &mut bytes[block * BLOCK..][..BLOCK];
        partly[1] = used as u8;
        partly[ENTRIES + used * table.entry_size()..SWITCHES].fill(0);
        mend_all(&mut bytes);
        self.broken(Rule::PartlyFilled, &format!("block {block} partly filled {used}"), &bytes);
    }

    /// Blocks in the wrong order, each numbered by its place.
    fn block_orders(&mut self) {
        let full = plan(36, 18).to_bytes();
        let blocks: Vec<&[u8]> = full.chunks(BLOCK).collect();
        for order in
            [&[2][..], &[2, 0], &[2, 3], &[0, 2, 1], &[2, 0, 1, 3], &[0, 2, 1, 3], &[0, 1, 2, 0], &[0, 2, 3, 1]]
        {
            let label = format!("block order {order:?}");
            self.broken(Rule::BlockOrder, &label, &renumbered(&blocks, order));
        }
        for order in [&[0][..], &[1, 0], &[0, 2], &[0, 1, 3, 2], &[1, 0, 3, 3, 2]] {
            self.kept(&format!("block order {order:?}"), &renumbered(&blocks, order));
        }
    }

    /// Route blocks alone, whose routes name no interface: only an interface block is missing.
    fn no_interface_block(&mut self) {
        for routes in [1, 9, 10] {
            let unknown = RouteEntry::source_only(ip(203, 0, 113, 0), 24);
            let plan = SheetPlan { routes: vec![unknown; routes], ..SheetPlan::default() };
            self.broken(Rule::BlockOrder, &format!("no interface block, {routes} routes"), &plan.to_bytes());
            let with_one = SheetPlan { interfaces: vec![interface(0)], ..plan };
            self.kept(&format!("one interface, {routes} routes"), &with_one.to_bytes());
        }
    }

    /// Blocks with no entry in use and no other rule broken: the only one of their kind, and one behind a full one.
    fn empty_blocks(&mut self) {
        for (interfaces, routes, block) in [(1, 0, 0), (19, 0, 1), (19, 10, 1), (1, 1, 1), (1, 10, 2), (19, 10, 3)] {
            let mut bytes = plan(interfaces, routes).to_bytes();
            bytes[block * BLOCK + 1] = 0;
            bytes[block * BLOCK + ENTRIES..block * BLOCK + SWITCHES].fill(0);
            mend_all(&mut bytes);
            self.broken(Rule::Used, &format!("shape {interfaces} {routes}, block {block} empty"), &bytes);
        }
    }

    /// Full blocks, the only one or the last of their kind, that claim more entries than there are bytes for: no other rule is broken.
    fn overfull_blocks(&mut self) {
        let interfaces = [(18, 0, 0), (18, 9, 0), (36, 0, 1), (36, 9, 1), (54, 0, 2)].map(|shape| (shape, 18));
        let routes = [(1, 9, 1), (18, 9, 1), (36, 18, 3)].map(|shape| (shape, 9));
        for ((interfaces, routes, block), full) in interfaces.into_iter().chain(routes) {
            let bytes = plan(interfaces, routes).to_bytes();
            for used in [full, full + 1, full + 2, full + 3, 64 + full, 128 + full, 255] {
                let rule = (used > full).then_some(Rule::Used);
                let label = format!("shape {interfaces} {routes}, block {block} claims {used}");
                self.with_bytes(rule, &label, &bytes, &[(block * BLOCK + 1, used)]);
            }
        }
    }

    fn sums(&mut self) {
        let two = plan(2, 3).to_bytes();
        for block in 0..2 {
            let check = block * BLOCK + 510;
            for (name, change) in [("more", 1u16), ("less", u16::MAX), ("256 more", 256), ("half more", 1 << 15)] {
                let mut bytes = two.clone();
                let word = u16::from_be_bytes([bytes[check], bytes[check + 1]]).wrapping_add(change);
                bytes[check..check + 2].copy_from_slice(&word.to_be_bytes());
                self.broken(Rule::Sum, &format!("block {block} check word {name}"), &bytes);
            }
            let mut bytes = two.clone();
            bytes.swap(check, check + 1);
            self.broken(Rule::Sum, &format!("block {block} check word swapped"), &bytes);
            self.two_zeros(&two, block);
        }
        let mut words = two.clone();
        words.swap(12, 14);
        words.swap(13, 15);
        self.kept("words swapped, the same sum", &words);
        let mut carried = plan(1, 0);
        carried.interfaces[0] = InterfaceEntry { input: u64::MAX, output: u64::MAX, ..carried.interfaces[0] };
        self.kept("many carries", &carried.to_bytes());
        self.sums_at_edges();
    }

    /// The running sum with a word of the input count, or of the packet count, is exactly at the edge of a carry.
    fn sums_at_edges(&mut self) {
        for (start, at) in [(0, 12), (BLOCK, BLOCK + 28)] {
            for edge in [65_535, 65_536, 65_537] {
                let mut bytes = plan(1, 1).to_bytes();
                let word = edge - u32::from(sum(&bytes[start..at]));
                bytes[at..at + 2].copy_from_slice(&(word as u16).to_be_bytes());
                bytes[at + 3] = 9;
                mend_all(&mut bytes);
                let met = running_sums(&bytes[start..start + 510]).filter(|sum| (65_535..=65_537).contains(sum));
                assert_eq!(met.collect::<Vec<u32>>(), [edge]);
                self.kept(&format!("block {} sum {edge} at {at}", start / BLOCK), &bytes);
            }
        }
    }

    /// Where the other words sum to 0xFFFF, both 0 and 0xFFFF are right check words, and 1 is not.
    fn two_zeros(&mut self, two: &[u8], block: usize) {
        let mut bytes = two.to_vec();
        let (start, check) = (block * BLOCK, block * BLOCK + 510);
        let free = start + if block == 0 { 18 } else { 4 + 30 };
        bytes[free..free + 2].fill(0);
        mend_all(&mut bytes);
        let word = [bytes[check], bytes[check + 1]];
        bytes[free..free + 2].copy_from_slice(&word);
        for (value, keeps) in [(0u16, true), (0xffff, true), (1, false), (0xfffe, false)] {
            bytes[check..check + 2].copy_from_slice(&value.to_be_bytes());
            self.either(keeps, Rule::Sum, &format!("block {block} check word {value}"), &bytes);
        }
    }

    /// A bit of each byte flipped, the sum mended after; and some with the sum left wrong.
    fn flips(&mut self, rng: &mut Rng) {
        let two = plan(2, 3).to_bytes();
        for at in 0..two.len() {
            let mut bytes = two.clone();
            bytes[at] ^= 1 << rng.below(8);
            if at % 8 == 0 || at >= 1016 {
                self.broken_by_sum(&format!("flip {at} not mended"), &bytes);
            }
            mend_all(&mut bytes);
            let _ = self.check(&format!("flip {at}"), &bytes);
        }
    }

    fn broken_by_sum(&mut self, label: &str, bytes: &[u8]) {
        assert!(self.check(label, bytes).is_err());
    }

    fn random(&mut self, rng: &mut Rng) {
        for number in 0..40 {
            let interfaces = 1 + rng.below(if number < 20 { 5 } else { 64 }) as usize;
            let plan = SheetPlan {
                prohibited: rng.one_in(2),
                interfaces: (0..interfaces).map(|_| random_interface(rng)).collect(),
                routes: (0..rng.below(6)).map(|_| random_route(rng, interfaces)).collect(),
            };
            let bytes = plan.to_bytes();
            let sheet = self.kept(&format!("random sheet {number}"), &bytes);
            self.read(&bytes, &plan);
            self.holder(&bytes, &sheet, plan.interfaces[rng.below(interfaces as u64) as usize].address);
            self.holder(&bytes, &sheet, rng.draw() as u32);
        }
        for number in 0..20 {
            let mut bytes: Vec<u8> = (0..BLOCK).map(|_| rng.draw() as u8).collect();
            let _ = self.check(&format!("random bytes {number}"), &bytes);
            bytes[..4].copy_from_slice(&[1, 1 + rng.below(Table::Interfaces.full() as u64) as u8, 0, 0]);
            mend_all(&mut bytes);
            let _ = self.check(&format!("random entries {number}"), &bytes);
        }
    }
}

/// First octets at the edges of a class and beyond, and whether each is in it.
fn octets(class: fn(u32) -> bool) -> impl Iterator<Item = (u32, bool)> {
    [0, 1, 2, 10, 126, 127, 128, 192, 223, 224, 232, 239, 240, 254, 255].into_iter().map(move |o| (o, class(o)))
}

/// The sums of the words so far, each before its carry.
fn running_sums(block: &[u8]) -> impl Iterator<Item = u32> + '_ {
    (0..block.len()).step_by(2).map(|at| u32::from(sum(&block[..at])) + u32::from(be16(block, at)))
}

fn renumbered(blocks: &[&[u8]], order: &[usize]) -> Vec<u8> {
    let mut bytes: Vec<u8> = order.iter().flat_map(|block| blocks[*block].to_vec()).collect();
    for (number, block) in bytes.chunks_mut(BLOCK).enumerate() {
        block[2..4].copy_from_slice(&(number as u16).to_be_bytes());
    }
    mend_all(&mut bytes);
    bytes
}

fn joined(fields: &[u64]) -> String {
    fields.iter().fold(" ->".to_string(), |line, field| format!("{line} {field}"))
}

fn interface_line(entry: &InterfaceEntry) -> String {
    let e = entry;
    joined(&[
        e.address.into(),
        e.length.into(),
        e.flags.into(),
        e.threshold.into(),
        e.zero.into(),
        e.input,
        e.output,
        e.mtu.into(),
        e.zeros.into(),
    ])
}

fn route_line(entry: &RouteEntry) -> String {
    let r = entry;
    joined(&[
        r.kind.into(),
        r.length.into(),
        r.flags.into(),
        r.zero.into(),
        r.source.into(),
        r.group.into(),
        r.upstream.into(),
        r.incoming.into(),
        r.protocol.into(),
        r.multicast.into(),
        r.zeros.into(),
        r.packets,
        r.forward,
        r.pruned,
        r.stopped,
    ])
}
