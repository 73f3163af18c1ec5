//! The cases of the walk. Areas 1 to 3 hold yard, message and output. Command 4 sets a router's time:
//! its number at byte 2 (2 bytes), the time at 4 (4). Command 5 walks: at byte 2 how many times there
//! are (2), at 4 the yard's length (4), at 8 the message's and the output's (2 each), at 12 start
//! router, receiving interface, destination and TTL (4 each). Lines: `label -> end steps blocks length
//! digest`, the digest of the output's whole area. At the end `end n met k`.

use super::plans::interface;
use super::tape::{digest, Area, Tape};
use super::trips::{
    header, line, line_plans, line_trip, loop_trip, random_trips, ring, router, worked_trip, yard_of, Trip, ENDINGS,
    REFUSALS,
};
use crate::build::{ip, mend_all, standard, Header, InterfaceEntry, SheetPlan};
use crate::engine::IP_AND_UDP;
use crate::message::{HEADER, MOST, STANDARD};
use crate::rng::Rng;
use crate::sheet::{Table, LEAST_MTU};
use crate::walk::{walk, Walked, SHEET};

const TIME: u8 = 4;
const WALK: u8 = 5;
const YARD: usize = 33 * 1024 + 512;
const MESSAGE: usize = 1600;
const OUTPUT: usize = 1600;
const TIMES: usize = 40;

/// What an interface has, whether a sheet may have it, and how an interface is made so.
type Change = (&'static str, bool, fn(&mut InterfaceEntry));

const MTUS_AND_ZEROS: [Change; 7] = [
    ("MTU 0", false, |interface| interface.mtu = 0),
    ("MTU 575", false, |interface| interface.mtu = 575),
    ("MTU 576", true, |interface| interface.mtu = 576),
    ("MTU 65535", true, |interface| interface.mtu = 65_535),
    ("zeros 0", true, |interface| interface.zeros = 0),
    ("zeros 1", false, |interface| interface.zeros = 1),
    ("zeros 256", false, |interface| interface.zeros = 256),
];

pub fn tape() -> Tape {
    let mut cases = Cases {
        tape: Tape::default(),
        yard: Area::new(1, YARD),
        message: Area::new(2, MESSAGE),
        output: Area::new(3, OUTPUT),
        times: Vec::new(),
        ends: [0; 256],
    };
    cases.tape.set(&mut cases.output, &[0xee; OUTPUT]);
    for number in 0..TIMES as u32 {
        cases.set_time(number, 65_536 * number);
    }
    cases.worked_examples();
    cases.refusals();
    cases.mtus_and_zeros();
    cases.refusals_in_pairs();
    cases.first_drops();
    cases.lines();
    cases.rings();
    cases.ends();
    cases.loops();
    cases.narrow_lines();
    cases.narrow_ends();
    cases.wide_lines();
    cases.repeated_addresses();
    cases.random(&mut Rng::new(61));
    cases.table();
    cases.tape
}

struct Cases {
    tape: Tape,
    yard: Area,
    message: Area,
    output: Area,
    times: Vec<u32>,
    ends: [u64; 256],
}

impl Cases {
    fn set_time(&mut self, number: u32, time: u32) {
        self.tape.fields(TIME, &[(2, 2, number.into()), (4, 4, time.into())]);
        self.times.push(time);
    }

    fn walk(&mut self, label: &str, trip: &Trip) -> Walked {
        self.tape.set(&mut self.yard, &trip.yard);
        self.tape.set(&mut self.message, &trip.message);
        let output = &mut self.output.bytes[..trip.output];
        let walked = walk(&trip.yard, &self.times[..trip.times], trip.start(), output);
        self.ends[walked.end as usize] += 1;
        self.tape.label(label);
        self.command(trip);
        let Walked { end, steps, blocks, length } = walked;
        self.tape.line(format!(" -> {end} {steps} {blocks} {length} {}", digest(&self.output.bytes)));
        walked
    }

    fn command(&mut self, trip: &Trip) {
        let fields = [
            (2, 2, trip.times as u64),
            (4, 4, trip.yard.len() as u64),
            (8, 2, trip.message.len() as u64),
            (10, 2, trip.output as u64),
            (12, 4, trip.router.into()),
            (16, 4, trip.receiving.into()),
            (20, 4, trip.destination.into()),
            (24, 4, trip.ttl.into()),
        ];
        self.tape.fields(WALK, &fields);
    }

    fn expect(&mut self, label: &str, trip: &Trip, end: u32, steps: u32) {
        let walked = self.walk(label, trip);
        assert_eq!((walked.end, walked.steps), (end, steps), "{label}");
    }

    /// P1 to P5, and every number of hops in P2's yard.
    fn worked_examples(&mut self) {
        let back = ip(198, 51, 100, 1);
        self.expect("P1", &worked_trip(0, 10), 101, 2);
        self.expect("P2", &worked_trip(back, 10), 101, 10);
        self.expect("P3", &worked_trip(back, 255), 101, 28);
        self.expect("P4", &worked_trip(0, 1), 101, 1);
        self.expect("P5", &worked_trip(0, 0), 8, 1);
        for hops in 1..=255 {
            self.expect(&format!("P2, hops {hops}"), &worked_trip(back, hops), 101, u32::from(hops).min(28));
        }
        let long = Trip { output: 1600, times: TIMES, ..worked_trip(back, 10) };
        self.expect("more times than routers", &long, 101, 10);
    }

    fn refusals(&mut self) {
        let base = worked_trip(0, 10);
        for output in [0, 1, 124, 1471] {
            self.expect(&format!("output {output}"), &Trip { output, ..base.clone() }, 1, 0);
        }
        self.bad_yards(&base);
        for times in [0, 1] {
            self.expect(&format!("times {times}"), &Trip { times, ..base.clone() }, 22, 0);
        }
        for router in [2, 3, 31, 32, 256, 65_536, u32::MAX] {
            self.expect(&format!("start {router}"), &Trip { router, ..base.clone() }, 23, 0);
        }
        for length in [1, 2, 19, 20, 21, 72, 1472, 1473] {
            let mut message = Header { kind: 2, ..header(9) }.with(&[standard(1)]);
            message.resize(length, 0);
            self.expect(&format!("type 2, length {length}"), &Trip { message, ..base.clone() }, 24, 0);
        }
    }

    fn bad_yards(&mut self, base: &Trip) {
        let whole = line(32, 0);
        for length in [0, 1, 512, 1023, 1025, 1536, 2047, 32 * 1024 - 1, 32 * 1024 + 1, 32 * 1024 + 512, 33 * 1024] {
            let mut yard = whole.clone();
            yard.extend(&whole[..SHEET]);
            yard.truncate(length);
            let trip = Trip { yard, times: TIMES, ..base.clone() };
            self.expect(&format!("yard of {length}"), &trip, 21, 0);
        }
        for routers in [1, 2, 16, 31, 32] {
            for bad in [0, routers / 2, routers - 1] {
                for at in [0, 100, 511, 512 + 5, 1023] {
                    let mut trip = line_trip(routers, 0, 3);
                    trip.yard[bad * SHEET + at] ^= 1;
                    self.expect(&format!("{routers} routers, {bad} bad at {at}"), &trip, 21, 0);
                }
            }
        }
        let mut repeated = base.yard.clone();
        repeated[512 + 3] = 0;
        mend_all(&mut repeated);
        self.expect("block number 0 twice", &Trip { yard: repeated, ..base.clone() }, 21, 0);
    }

    /// An MTU, or the bytes behind it, right and wrong, anywhere in a yard whose first router answers alone.
    fn mtus_and_zeros(&mut self) {
        for (routers, bad, interface) in [(1, 0, 0), (2, 0, 1), (2, 1, 0), (32, 0, 0), (32, 16, 1), (32, 31, 1)] {
            for (name, valid, change) in MTUS_AND_ZEROS {
                let mut plans = line_plans(routers, 0);
                change(&mut plans[bad].interfaces[interface]);
                let trip = Trip { yard: yard_of(&plans), ..line_trip(routers, 0, 1) };
                self.one_step_or_21(&format!("{routers} routers, {bad} interface {interface} {name}"), &trip, valid);
            }
        }
        for number in [17, 18, 35] {
            for (name, valid, change) in MTUS_AND_ZEROS {
                let mut crowded = crowded();
                change(&mut crowded.interfaces[number]);
                let trip = Trip { yard: yard_of(&[router(0, 0), crowded]), ..line_trip(2, 0, 1) };
                self.one_step_or_21(&format!("36 interfaces, {number} {name}"), &trip, valid);
            }
        }
    }

    fn one_step_or_21(&mut self, label: &str, trip: &Trip, valid: bool) {
        let (end, steps) = if valid { (101, 1) } else { (21, 0) };
        self.expect(label, trip, end, steps);
    }

    /// Each two refusals together: the earlier is answered.
    fn refusals_in_pairs(&mut self) {
        for (place, first) in REFUSALS.iter().enumerate() {
            for second in &REFUSALS[place..] {
                let mut trip = worked_trip(0, 10);
                (second.1)(&mut trip);
                (first.1)(&mut trip);
                self.expect(&format!("refusals {} {}", first.0, second.0), &trip, first.0, 0);
            }
            let mut trip = worked_trip(0, 0);
            (first.1)(&mut trip);
            self.expect(&format!("refusal {}, hops 0", first.0), &trip, first.0, 0);
        }
    }

    /// The first router's drops.
    fn first_drops(&mut self) {
        let base = worked_trip(0, 10);
        for fault in &super::faults::HEADER {
            let mut trip = base.clone();
            (fault.make)(&mut trip.message);
            self.expect(fault.name, &trip, fault.number, 1);
        }
        for receiving in [2, 64, 65_536, u32::MAX] {
            self.expect(&format!("interface {receiving}"), &Trip { receiving, ..base.clone() }, 4, 1);
        }
        for destination in [0, ip(198, 51, 100, 2), ip(224, 0, 1, 0), u32::MAX] {
            self.expect(&format!("to {destination}"), &Trip { destination, ..base.clone() }, 14, 1);
        }
        for last in [0, 1, 255] {
            let trip = Trip { destination: ip(224, 0, 0, last), ..base.clone() };
            self.expect(&format!("to 224.0.0.{last}"), &trip, 101, 2);
            let stray = Trip { router: 1, ..trip };
            self.expect(&format!("router 1, to 224.0.0.{last}"), &stray, 18, 1);
        }
        for ttl in [1, 255, 256, u32::MAX] {
            self.expect(&format!("TTL {ttl}"), &Trip { ttl, ..base.clone() }, 101, 2);
        }
    }

    /// 1 to 32 routers in a line, from each end and from the middle, by several hops.
    fn lines(&mut self) {
        for routers in 1..=32 {
            for hops in [1, 2, 5, 26, 27, 28, 29, 255] {
                let steps = (routers as u32).min(u32::from(hops)).min(28);
                self.expect(&format!("line of {routers}, hops {hops}"), &line_trip(routers, 0, hops), 101, steps);
            }
        }
        for start in [1, 7, 15, 31] {
            let trip = line_trip(32, start, 255);
            self.expect(&format!("line of 32 from {start}"), &trip, 101, (32 - start as u32).min(28));
        }
    }

    /// The last router of a line leads back to the first: 1 is a router that names itself.
    fn rings(&mut self) {
        for routers in [1, 2, 3, 5, 8, 13, 27, 28, 29, 31, 32] {
            for hops in [1, 3, 13, 27, 28, 255] {
                let mut trip = line_trip(routers, 0, hops);
                trip.yard = ring(routers);
                let steps = u32::from(hops).min(28);
                self.expect(&format!("ring of {routers}, hops {hops}"), &trip, 101, steps);
            }
        }
    }

    /// Each way in which the first or the middle router of three may end a walk.
    fn ends(&mut self) {
        for ending in &ENDINGS {
            for place in [0, 1] {
                let label = format!("router {place}: {}", ending.name);
                self.expect(&label, &ending.trip(place), ending.end, ending.steps(place));
            }
        }
    }

    /// Two routers in a loop, by their incoming interfaces' MTUs: the first step that passes its router's room ends the walk. The
    /// interfaces that only receive have others.
    fn loops(&mut self) {
        let mtus = [576, 619, 620, 1000, 1499, 1500, 1504, 65_535];
        for (first, second) in mtus.into_iter().flat_map(|first| mtus.map(|second| (first, second))) {
            for hops in [10, 11, 12, 255] {
                let others = if first == 576 { 65_535 } else { 576 };
                let trip = loop_trip([[others, first], [others, second]], hops);
                let full = (1..=hops.into()).find(|step| passes(*step, [second, first][*step % 2]));
                let steps = full.unwrap_or(hops.into());
                let blocks = steps - usize::from(full.is_some());
                let expected = (101, steps as u32, blocks as u32, (HEADER + STANDARD * blocks) as u32);
                let Walked { end, steps, blocks, length } =
                    self.walk(&format!("loop {first} {second}, hops {hops}"), &trip);
                assert_eq!((end, steps, blocks, length), expected);
            }
        }
    }

    /// One router of a line has an interface of the least MTU: where it is the incoming one, and enough blocks came, the walk ends.
    fn narrow_lines(&mut self) {
        for place in [0, 1, 5, 8, 9, 10, 11, 15, 26, 27, 28, 31] {
            for (interface, name) in ["receiving", "incoming"].into_iter().enumerate() {
                let mut plans = line_plans(32, 0);
                plans[place].interfaces[interface].mtu = LEAST_MTU;
                let trip = Trip { yard: yard_of(&plans), ..line_trip(32, 0, 255) };
                let ends = name == "incoming" && passes(place + 1, LEAST_MTU);
                let steps = if ends { place + 1 } else { 28 }.min(28);
                self.expect(&format!("narrow {name} at {place}"), &trip, 101, steps as u32);
            }
        }
    }

    /// The receiving interface counts where there is no incoming one, and there alone.
    fn narrow_ends(&mut self) {
        for ending in &ENDINGS {
            let link = usize::from(!["no route", "unknown incoming"].contains(&ending.name));
            for (routers, interface) in [10, 11, 12].into_iter().flat_map(|routers| [(routers, 0), (routers, 1)]) {
                let full = interface == link && passes(routers, LEAST_MTU);
                let end = if full { 101 } else { ending.end };
                let label = format!("{}, narrow {interface} at the end of {routers}", ending.name);
                let walked = self.walk(&label, &ending.narrow_trip(routers, interface));
                let blocks = routers - usize::from(full);
                assert_eq!((walked.end, walked.steps, walked.blocks), (end, routers as u32, blocks as u32), "{label}");
            }
        }
    }

    /// Routers with as many interfaces as a yard's sheet can have beside routes; one of the last router's has the least MTU.
    fn wide_lines(&mut self) {
        let routers = 12;
        for (incoming, narrow) in [(1, 1), (1, 17), (16, 16), (17, 16), (17, 17), (17, 0)] {
            let mut plans = line_plans(routers, 0);
            for plan in &mut plans {
                plan.interfaces.extend((2..Table::Interfaces.full()).map(interface));
                plan.routes[0].incoming = incoming as u16;
            }
            plans[routers - 1].interfaces[narrow].mtu = LEAST_MTU;
            let trip = Trip { yard: yard_of(&plans), ..line_trip(routers, 0, 255) };
            let walked = self.walk(&format!("18 interfaces, by {incoming}, narrow {narrow}"), &trip);
            let blocks = routers - usize::from(incoming == narrow);
            assert_eq!((walked.end, walked.steps, walked.blocks), (101, routers as u32, blocks as u32));
        }
    }

    /// The lowest router, then its lowest interface, holds an address.
    fn repeated_addresses(&mut self) {
        for copies in [&[1][..], &[2], &[1, 2], &[3, 1], &[0, 3], &[0, 1, 2, 3], &[4, 2]] {
            let wanted = ip(10, 50, 0, 1);
            let mut plans: Vec<SheetPlan> = (0..5).map(|number| router(number, 0)).collect();
            plans[0].routes[0].upstream = wanted;
            for copy in copies {
                plans[*copy].interfaces.push(InterfaceEntry { threshold: 7, ..InterfaceEntry::new(wanted, 24) });
                plans[*copy].interfaces.push(InterfaceEntry { threshold: 8, ..InterfaceEntry::new(wanted, 30) });
            }
            let yard = yard_of(&plans);
            for hops in [2, 4, 255] {
                self.walk(
                    &format!("address on {copies:?}, hops {hops}"),
                    &Trip { yard: yard.clone(), ..line_trip(5, 0, hops) },
                );
            }
        }
        for last in [0, 17, 18, 34, 35] {
            let yard = yard_of(&[router(0, ip(10, 7, last, 1)), crowded()]);
            self.expect(&format!("36 interfaces, to {last}"), &Trip { yard, ..line_trip(2, 0, 9) }, 101, 2);
        }
        let yard = yard_of(&[router(0, ip(10, 7, 36, 1)), crowded()]);
        self.expect("36 interfaces, to nobody", &Trip { yard, ..line_trip(2, 0, 9) }, 103, 1);
    }

    fn random(&mut self, rng: &mut Rng) {
        for number in 0..100 {
            for (trial, trip) in random_trips(rng, 5).iter().enumerate() {
                self.walk(&format!("random {number} {trial}"), trip);
            }
        }
    }

    fn table(&mut self) {
        for (end, met) in self.ends.into_iter().enumerate().filter(|(_, met)| *met > 0) {
            self.tape.line(format!("end {end} met {met}"));
        }
        assert!([1, 21, 22, 23, 24, 101, 102, 103].into_iter().all(|end| self.ends[end] > 0));
    }
}

/// As many interfaces as a yard's sheet can have, which leave no block for routes.
fn crowded() -> SheetPlan {
    SheetPlan { prohibited: false, interfaces: (0..36).map(interface).collect(), routes: Vec::new() }
}

/// Whether the message of a walk, with so many blocks, passes the room of a link with this MTU.
fn passes(blocks: usize, mtu: u16) -> bool {
    HEADER + STANDARD * blocks > MOST.min(usize::from(mtu) - IP_AND_UDP)
}
