//! The cases of what the program `walk` prints. Area 1 holds an input. Command 2 runs the program on the first
//! bytes of it, whose number is at byte 4 (4 bytes). Written are the label, a newline, and what the program
//! writes.

use super::faults;
use super::situations::{all_codes, Situation};
use super::tape::{Area, Tape};
use super::trips::{
    header, line, loop_trip, random_trips, router, wide, wide_trip, worked_trip, yard_of, Trip, ENDINGS, GROUP,
    REFUSALS,
};
use crate::build::{ip, Header, InterfaceEntry, RouteEntry, SheetPlan};
use crate::bytes::be32;
use crate::program;
use crate::rng::Rng;
use crate::walk::SHEET;
use std::collections::BTreeSet;

const RUN: u8 = 2;
const INPUT: usize = 34_304;
/// The bytes before the yard.
const HEAD: usize = 36;

pub fn tape() -> Tape {
    let input = Area::new(1, INPUT);
    let mut cases = Cases { tape: Tape::default(), input, ends: BTreeSet::new(), codes: BTreeSet::new() };
    cases.worked_examples();
    cases.loops();
    cases.cuts();
    cases.heads();
    cases.places_of_arrival();
    cases.yards();
    cases.endings();
    cases.refusals();
    cases.first_drops();
    cases.codes_at_the_first();
    cases.codes_at_the_second();
    cases.every_octet();
    cases.random(&mut Rng::new(71));
    cases.table();
    cases.tape
}

struct Cases {
    tape: Tape,
    input: Area,
    /// The ends met, and the codes.
    ends: BTreeSet<String>,
    codes: BTreeSet<u8>,
}

/// The codes that a text shows.
fn codes(text: &str) -> Vec<u8> {
    let last_words = text.lines().skip(1).filter_map(|line| line.rsplit(' ').next());
    last_words.map(|word| word.parse().expect("a code")).collect()
}

fn input(trip: &Trip) -> Vec<u8> {
    program::input(trip.start(), &trip.yard)
}

impl Cases {
    /// Runs the program on the first so many bytes of the area as it stands.
    fn run_first(&mut self, label: &str, length: usize) -> String {
        let text = program::run(&self.input.bytes[..length]);
        self.tape.label(label);
        self.tape.fields(RUN, &[(4, 4, length as u64)]);
        self.tape.line(String::new());
        self.tape.stdout.push_str(&text);
        self.ends.extend(text.split(' ').next().map(str::to_string));
        self.codes.extend(codes(&text));
        text
    }

    fn run(&mut self, label: &str, input: &[u8]) -> String {
        self.tape.set(&mut self.input, input);
        self.run_first(label, input.len())
    }

    /// The first line is the end's word, the steps and the blocks; a line follows for each block.
    fn expect(&mut self, label: &str, trip: &Trip, end: &str, steps: u32, blocks: u32) -> String {
        let text = self.run(label, &input(trip));
        assert_first_line(label, &text, end, steps, blocks);
        text
    }

    fn worked_examples(&mut self) {
        let back = ip(198, 51, 100, 1);
        self.expect("P1", &worked_trip(0, 10), "reply", 2, 2);
        let looped = self.expect("P2", &worked_trip(back, 10), "reply", 10, 10);
        assert_eq!(codes(&looped), [0, 0, 9, 0, 9, 0, 9, 0, 9, 0]);
        let full = self.expect("P3", &worked_trip(back, 255), "reply", 28, 27);
        assert!(full.lines().last().is_some_and(|line| line.starts_with("27 out ") && line.ends_with(" code 129")));
        self.expect("P4", &worked_trip(0, 1), "reply", 1, 1);
        self.expect("P5", &worked_trip(0, 0), "8", 1, 0);
    }

    /// Packets that are full by the MTU of either router, or of none that counts; and an MTU that no sheet may have.
    fn loops(&mut self) {
        for (mtus, steps) in [
            ([[576, 576], [576, 576]], 11),
            ([[1500, 576], [1500, 1500]], 11),
            ([[1500, 1500], [1500, 576]], 12),
            ([[1500, 1000], [1500, 1500]], 19),
            ([[1500, 1500], [1500, 1000]], 20),
            ([[576, 1500], [576, 1500]], 28),
            ([[9000, 9000], [65_535, 65_535]], 28),
        ] {
            let text = self.expect(&format!("loop {mtus:?}"), &loop_trip(mtus, 255), "reply", steps, steps - 1);
            assert!(text.ends_with(" code 129\n"), "{text}");
        }
        self.expect("loop of 576, hops 10", &loop_trip([[576; 2]; 2], 10), "reply", 10, 10);
        self.expect("MTU 575", &loop_trip([[576, 576], [576, 575]], 10), "21", 0, 0);
    }

    /// P1's input cut, while the area has all of it. One sheet is a yard, whose router's upstream nobody holds.
    fn cuts(&mut self) {
        let whole = input(&worked_trip(0, 10));
        self.tape.set(&mut self.input, &whole);
        let places = (0..=40).chain([HEAD + 511, HEAD + 512, HEAD + SHEET - 1]);
        let later = [HEAD + SHEET + 1, HEAD + 1536, whole.len() - 1, whole.len() + 1];
        for length in places.chain(later) {
            let label = format!("P1, {length} bytes");
            assert_first_line(&label, &self.run_first(&label, length), "21", 0, 0);
        }
        let first = self.run_first("P1, one sheet", HEAD + SHEET);
        assert_first_line("P1, one sheet", &first, "103", 1, 1);
        assert_first_line("P1, whole", &self.run_first("P1, whole", whole.len()), "reply", 2, 2);
    }

    /// What the TTL and the seven bytes after it are is not seen.
    fn heads(&mut self) {
        let whole = input(&worked_trip(0, 10));
        let expected = program::run(&whole);
        for place in 8..16 {
            for value in [1, 0x80, 0xff] {
                let mut input = whole.clone();
                input[place] = value;
                assert_eq!(self.run(&format!("byte {place} is {value}"), &input), expected);
            }
        }
        let mut input = whole;
        input[8..16].copy_from_slice(&[64, 7, 6, 5, 4, 3, 2, 1]);
        assert_eq!(self.run("bytes 8 to 15", &input), expected);
    }

    /// Routers and interfaces of different numbers, shown by the address of the receiving interface.
    fn places_of_arrival(&mut self) {
        for (start, receiving) in [(1, 2), (1, 3), (2, 1), (2, 3), (3, 1), (0, 2)] {
            let trip = Trip { ttl: 200, ..wide_trip(4, start, receiving) };
            let steps = 4 - start as u32;
            let text = self.expect(&format!("router {start}, interface {receiving}"), &trip, "reply", steps, steps);
            assert!(text.contains(&format!("\n1 out 10.2{receiving}.{start}.1 in ")), "{text}");
            let to_all = Trip { yard: rp_yard(), destination: ip(224, 0, 0, 1), ..trip };
            let text = self.expect(&format!("RP {start}, interface {receiving}"), &to_all, "reply", 1, 1);
            assert!(text.contains(&format!("\n1 out 10.2{receiving}.{start}.1 in 10.21.{start}.1 ")), "{text}");
        }
    }

    /// 1 to 33 sheets, and parts of one, of a line of 32 routers and its first once more.
    fn yards(&mut self) {
        let mut trip = Trip { yard: line(32, 0), ..wide_trip(4, 0, 0) };
        trip.yard.extend(line(1, 0));
        trip.message = header(255).to_bytes();
        self.tape.set(&mut self.input, &input(&trip));
        for sheets in [1, 2, 3, 9, 10, 27, 28, 31, 32] {
            let label = format!("{sheets} sheets");
            let text = self.run_first(&label, HEAD + sheets * SHEET);
            match sheets as u32 {
                steps @ 0..=27 => assert_first_line(&label, &text, "103", steps, steps),
                _ => assert_first_line(&label, &text, "reply", 28, 27),
            }
            let label = format!("{sheets} sheets and a byte");
            assert_first_line(&label, &self.run_first(&label, HEAD + sheets * SHEET + 1), "21", 0, 0);
        }
        for length in [32 * SHEET - 1, 32 * SHEET + 512, 33 * SHEET - 1, 33 * SHEET, 33 * SHEET + 1, INPUT - HEAD] {
            let label = format!("a yard of {length}");
            assert_first_line(&label, &self.run_first(&label, HEAD + length), "21", 0, 0);
        }
        for routers in [1, 2, 31, 32] {
            let trip = Trip { yard: line(routers, 0), ..trip.clone() };
            let steps = (routers as u32).min(28);
            self.expect(&format!("a line of {routers}"), &trip, "reply", steps, steps.min(27));
        }
    }

    fn endings(&mut self) {
        for ending in &ENDINGS {
            for place in [0, 1] {
                let end = if ending.end == 101 { "reply".to_string() } else { ending.end.to_string() };
                let steps = ending.steps(place);
                let label = format!("router {place}: {}", ending.name);
                let text = self.expect(&label, &ending.trip(place), &end, steps, steps);
                assert_eq!(ending.end == 102, text.contains(" up 224.0.0.2 "), "{label}");
            }
        }
    }

    /// Those that an input can bring about: room and times are the program's own.
    fn refusals(&mut self) {
        for (number, make) in REFUSALS.iter().filter(|(number, _)| ![1, 22].contains(number)) {
            let mut trip = worked_trip(0, 10);
            make(&mut trip);
            self.expect(&format!("refusal {number}"), &trip, &number.to_string(), 0, 0);
        }
        for router in [3, 31, 32, 256, 257, 65_535] {
            let trip = Trip { router, ..worked_trip(0, 10) };
            self.expect(&format!("start {router}"), &trip, "23", 0, 0);
        }
        for bad in [HEAD, HEAD + 100, HEAD + SHEET + 1023] {
            let mut input = input(&worked_trip(0, 10));
            input[bad] ^= 4;
            let label = format!("byte {bad} of the yard");
            assert_first_line(&label, &self.run(&label, &input), "21", 0, 0);
        }
    }

    fn first_drops(&mut self) {
        let base = worked_trip(0, 10);
        for fault in &faults::HEADER {
            let mut trip = base.clone();
            (fault.make)(&mut trip.message);
            if trip.message.len() == base.message.len() {
                self.expect(fault.name, &trip, &fault.number.to_string(), 1, 0);
            }
        }
        for receiving in [2, 64, 256, 257, 65_535] {
            self.expect(&format!("interface {receiving}"), &Trip { receiving, ..base.clone() }, "4", 1, 0);
        }
        for destination in [0, ip(1, 2, 0, 192), ip(198, 51, 100, 2), ip(224, 0, 1, 0), u32::MAX] {
            self.expect(&format!("to {destination}"), &Trip { destination, ..base.clone() }, "14", 1, 0);
        }
        let link = Trip { destination: ip(224, 0, 0, 1), ..base.clone() };
        self.expect("to 224.0.0.1", &link, "reply", 2, 2);
        self.expect("router 1, to 224.0.0.1", &Trip { router: 1, ..link }, "18", 1, 0);
    }

    /// A router alone. NO_ROUTE is not shown to a Query, which then has not come to its last hop.
    fn codes_at_the_first(&mut self) {
        for code in all_codes().iter().filter(|code| code.number != 5) {
            let mut situation = Situation::new(1);
            (code.make)(&mut situation);
            let setup = situation.setup();
            let (yard, message, destination) = (setup.sheet, setup.message, setup.destination);
            let trip = Trip { yard, message, destination, ..worked_trip(0, 0) };
            let text = self.run(&format!("code {}", code.number), &input(&trip));
            assert_eq!(codes(&text), [code.number], "{text}");
        }
    }

    /// A router that gets a Request, to which WRONG_LAST_HOP is never shown.
    fn codes_at_the_second(&mut self) {
        for code in all_codes().iter().filter(|code| code.number != 6) {
            let mut situation = Situation::new(2);
            (code.make)(&mut situation);
            let second = situation.setup();
            let mut first = router(0, 0);
            first.routes = vec![RouteEntry::source_only(0, 0).by(1, second.destination, 1)];
            let client = ip(10, 20, 0, 50);
            let message = Header { client, group: be32(&second.message, 4), ..header(9) }.to_bytes();
            let yard = [first.to_bytes(), second.sheet].concat();
            let trip = Trip { yard, message, destination: first.interfaces[0].address, ..worked_trip(0, 0) };
            let text = self.run(&format!("code {}, second", code.number), &input(&trip));
            assert_eq!(codes(&text), [0, code.number], "{text}");
        }
    }

    /// Every octet from 0 to 255 is printed.
    fn every_octet(&mut self) {
        let mut octets = (0..=255).cycle();
        let mut printed = BTreeSet::new();
        for half in ["first", "second"] {
            let plans = plans_of_octets(&mut octets);
            let destination = plans[0].interfaces[0].address;
            let message = header(255).to_bytes();
            let trip = Trip { yard: yard_of(&plans), message, destination, ..worked_trip(0, 0) };
            let text = self.expect(&format!("octets, {half} half"), &trip, "reply", 27, 27);
            let addresses = text.split([' ', '\n']).filter(|word| word.contains('.'));
            printed.extend(addresses.flat_map(|address| address.split('.').map(str::to_string)));
        }
        assert_eq!(printed, (0..256).map(|octet| octet.to_string()).collect());
    }

    fn random(&mut self, rng: &mut Rng) {
        for number in 0..20 {
            for (trial, mut trip) in random_trips(rng, 3).into_iter().enumerate() {
                trip.ttl %= 256;
                self.run(&format!("random {number} {trial}"), &input(&trip));
            }
        }
    }

    /// No end and no code that the program can print is missing.
    fn table(&mut self) {
        let ends = ["reply", "102", "103", "21", "23", "24", "4", "6", "7", "8", "9", "10", "11", "12", "14", "18"];
        assert_eq!(self.ends, ends.map(str::to_string).into());
        assert_eq!(self.codes, (0..=10).chain([129, 131]).collect());
    }
}

fn assert_first_line(label: &str, text: &str, end: &str, steps: u32, blocks: u32) {
    let expected = format!("{end} steps {steps} blocks {blocks}");
    assert_eq!(text.lines().next(), Some(expected.as_str()), "{label}");
    assert_eq!(text.lines().count(), 1 + blocks as usize, "{label}");
}

/// Four routers, each of which takes a Query to a group of the link by any interface.
fn rp_yard() -> Vec<u8> {
    let mut plans = [0, 1, 2, 3].map(|number| wide(number, 4));
    for plan in &mut plans {
        plan.routes[0] = RouteEntry { flags: 1, ..RouteEntry::group(GROUP).by(1, ip(10, 9, 9, 9), 1) };
    }
    yard_of(&plans)
}

/// A line of 27 routers, the octets after the first of whose addresses are these in turn.
fn plans_of_octets(octets: &mut impl Iterator<Item = u8>) -> Vec<SheetPlan> {
    let mut first = [1, 9, 10, 99, 100, 126, 128, 199, 200, 223].into_iter().cycle();
    let mut octet = || octets.next().expect("they go round");
    let mut address = || ip(first.next().expect("these too"), octet(), octet(), octet());
    let mut plans: Vec<SheetPlan> = (0..27).map(|_| router(0, 0)).collect();
    for plan in &mut plans {
        plan.interfaces = vec![InterfaceEntry::new(address(), 24), InterfaceEntry::new(address(), 24)];
    }
    for number in 1..plans.len() {
        plans[number - 1].routes[0].upstream = plans[number].interfaces[0].address;
    }
    plans
}
