//! The cases of the entries that C calls, each by place. Areas 1 to 5 hold message, tables (a sheet or a yard),
//! recent list, output, and what is handed (a clock's out, a step's record or a walk's answer). Numbers stand at
//! these bytes of a command, each with its size:
//!
//! - 6 sets a router's time: its number at 2 (2), the time at 4 (4).
//! - 7 starts a clock: the out's length at 2 (2), the reading at 8 (8). `label -> number r y time digest`, where r, y
//!   and time are what area 5 then has, and the digest is of all of it.
//! - 8 advances one: the out's length at 2 (2), r, y and the reading from 8 on (8 each). The line is a start's.
//! - 9 converts a UNIX time: seconds and nanoseconds from 8 on (8 each). `label -> units`.
//! - 10 asks for the arrival time of a y at 8 (8). `label -> time`.
//! - 11 runs a step: the lengths of message, sheet, recent list, output and record from 2 on (2 each), destination,
//!   receiving interface, TTL and time from 12 on (4 each). `label -> number digests`, of areas 3, 4 and 5.
//! - 12 walks: the lengths of message at 2 (2), yard at 4 (4), output and answer from 8 on (2 each), start router,
//!   receiving interface, destination and TTL from 12 on (4 each), the number of times at 28 (2). `label -> number
//!   digests`, of areas 4 and 5.
//!
//! Every entry has cases from which it is told where each argument went: with another argument of the same type in
//! the place of any the line would be another.

use super::engine::{bases, Setup};
use super::faults;
use super::places::{assert_told, exchanged, exchanges, fillings, Places};
use super::plans::accepting;
use super::situations::{all_codes, Situation};
use super::tape::{digest, noise, Area, Tape};
use super::trips::{header, line, line_trip, loop_trip, ring, wide_trip, worked_trip, Trip, ENDINGS, REFUSALS};
use crate::build::{augmented, ip, standard, Header};
use crate::bytes::be64;
use crate::clock::{arrival, LIMIT};
use crate::engine::{step, Arrival};
use crate::entries::{clock_advance, clock_start, clock_unix, walk};
use crate::message::MOST;
use crate::recent::LENGTH;
use crate::sheet::LEAST_MTU;
use crate::walk::{Start, SHEET};
use std::collections::BTreeSet;

const TIME: u8 = 6;
const START: u8 = 7;
const ADVANCE: u8 = 8;
const UNIX: u8 = 9;
const ARRIVAL: u8 = 10;
const STEP: u8 = 11;
const WALK: u8 = 12;

const MESSAGE: usize = 1600;
const TABLES: usize = 34_304;
const RECENT: usize = 200;
const OUTPUT: usize = 1600;
const HANDED: usize = 40;
const TIMES: u32 = 40;
/// The last second and the last nanosecond that are converted.
const LAST_SECOND: u64 = 2_085_978_495;
const LAST_NANOSECOND: u64 = 999_999_999;

pub fn tape() -> Tape {
    let mut cases = Cases { tape: Tape::default(), lent: Lent::new(), met: BTreeSet::new() };
    cases.times();
    cases.starts();
    cases.places_of_an_advance();
    cases.advances();
    cases.refused_advances();
    cases.places_of_a_unix_time();
    cases.unix_times();
    cases.arrivals();
    cases.places_of_a_step();
    cases.steps();
    cases.entered_and_seen();
    cases.full();
    cases.rooms();
    cases.codes();
    cases.drops();
    cases.places_of_a_walk();
    cases.worked_examples();
    cases.walks();
    cases.refusals();
    cases.other_refusals();
    cases.first_drops();
    cases.table();
    cases.tape
}

struct Cases {
    tape: Tape,
    lent: Lent,
    /// The commands, and the numbers that each was answered by.
    met: BTreeSet<(u8, u32)>,
}

/// All that entries are lent.
#[derive(Clone)]
struct Lent {
    message: Area,
    tables: Area,
    recent: Area,
    output: Area,
    handed: Area,
    times: Vec<u32>,
}

impl Lent {
    fn new() -> Lent {
        Lent {
            message: Area::new(1, MESSAGE),
            tables: Area::new(2, TABLES),
            recent: Area::new(3, RECENT),
            output: Area::new(4, OUTPUT),
            handed: Area::new(5, HANDED),
            times: Vec::new(),
        }
    }

    fn clock_line(&self, number: u32) -> String {
        let handed = &self.handed.bytes;
        let [r, y, time] = [0, 8, 16].map(|at| be64(handed, at));
        format!(" -> {number} {r} {y} {time} {}", digest(handed))
    }

    fn advance(&mut self, [r, y, reading]: [u64; 3], out: usize) -> (u32, String) {
        let number = clock_advance(r, y, reading, &mut self.handed.bytes[..out]);
        (number, self.clock_line(number))
    }

    fn step(&mut self, setup: &Setup, places: Places<3>) -> (u32, String) {
        let slices = [&self.message.bytes[..setup.message.len()], &self.tables.bytes[..setup.sheet.len()]];
        let [message, sheet] = places.read.map(|place| slices[place]);
        let numbers = [setup.destination, setup.receiving, setup.ttl, setup.time];
        let [destination, receiving, ttl, time] = places.numbers.map(|place| numbers[place]);
        let written = [
            &mut self.recent.bytes[..setup.recent.len()],
            &mut self.output.bytes[..setup.output],
            &mut self.handed.bytes[..setup.record],
        ];
        let [recent, output, record] = exchanged(written, places.written);
        let number = step(Arrival { message, destination, receiving, ttl, time }, sheet, recent, output, record);
        let [recent, output, record] = [&self.recent, &self.output, &self.handed].map(|area| digest(&area.bytes));
        (number, format!(" -> {number} {recent} {output} {record}"))
    }

    fn walk(&mut self, trip: &Trip, answer: usize, places: Places<2>) -> (u32, String) {
        let slices = [&self.tables.bytes[..trip.yard.len()], &self.message.bytes[..trip.message.len()]];
        let [yard, message] = places.read.map(|place| slices[place]);
        let numbers = [trip.router, trip.receiving, trip.destination, trip.ttl];
        let [router, receiving, destination, ttl] = places.numbers.map(|place| numbers[place]);
        let start = Start { message, router, receiving, destination, ttl };
        let written = [&mut self.output.bytes[..trip.output], &mut self.handed.bytes[..answer]];
        let [output, answer] = exchanged(written, places.written);
        let number = walk(yard, &self.times[..trip.times], start, output, answer).end;
        let [output, answer] = [&self.output, &self.handed].map(|area| digest(&area.bytes));
        (number, format!(" -> {number} {output} {answer}"))
    }
}

// Calls: the areas made ready, the command, the line.
impl Cases {
    /// What is written by a call is noise before it.
    fn make_noise(&mut self) {
        self.tape.set(&mut self.lent.output, &noise::<OUTPUT>(3));
        self.tape.set(&mut self.lent.handed, &noise::<HANDED>(101));
    }

    fn answered(&mut self, operation: u8, answer: (u32, String)) -> (u32, String) {
        self.met.insert((operation, answer.0));
        self.tape.line(answer.1.clone());
        answer
    }

    fn start(&mut self, reading: u64, out: usize) -> u32 {
        self.make_noise();
        self.tape.label(&format!("start {reading}, out {out}"));
        self.tape.fields(START, &[(2, 2, out as u64), (8, 8, reading)]);
        let number = clock_start(reading, &mut self.lent.handed.bytes[..out]);
        self.answered(START, (number, self.lent.clock_line(number))).0
    }

    fn advance(&mut self, numbers: [u64; 3], out: usize) -> (u32, String) {
        self.make_noise();
        let [r, y, reading] = numbers;
        self.tape.label(&format!("advance {r} {y} {reading}, out {out}"));
        self.tape.fields(ADVANCE, &[(2, 2, out as u64), (8, 8, r), (16, 8, y), (24, 8, reading)]);
        let answer = self.lent.advance(numbers, out);
        self.answered(ADVANCE, answer)
    }

    fn unix(&mut self, [seconds, nanoseconds]: [u64; 2]) -> u64 {
        self.tape.label(&format!("unix {seconds} {nanoseconds}"));
        self.tape.numbers(UNIX, &[seconds, nanoseconds]);
        let units = clock_unix(seconds, nanoseconds);
        self.answered(UNIX, (u32::from(units == 0), format!(" -> {units}")));
        units
    }

    fn arrival(&mut self, y: u64) -> u32 {
        self.tape.label(&format!("arrival {y}"));
        self.tape.numbers(ARRIVAL, &[y]);
        self.tape.line(format!(" -> {}", arrival(y)));
        arrival(y)
    }

    fn lend_step(&mut self, setup: &Setup) {
        self.make_noise();
        self.tape.set(&mut self.lent.message, &setup.message);
        self.tape.set(&mut self.lent.tables, &setup.sheet);
        let rest = &noise::<RECENT>(53)[setup.recent.len()..];
        self.tape.set(&mut self.lent.recent, &[&setup.recent, rest].concat());
    }

    fn lend_walk(&mut self, trip: &Trip) {
        self.make_noise();
        self.tape.set(&mut self.lent.message, &trip.message);
        self.tape.set(&mut self.lent.tables, &trip.yard);
    }

    fn step(&mut self, label: &str, setup: &Setup) -> (u32, String) {
        self.lend_step(setup);
        self.tape.label(label);
        let fields = [
            (2, 2, setup.message.len() as u64),
            (4, 2, setup.sheet.len() as u64),
            (6, 2, setup.recent.len() as u64),
            (8, 2, setup.output as u64),
            (10, 2, setup.record as u64),
            (12, 4, setup.destination.into()),
            (16, 4, setup.receiving.into()),
            (20, 4, setup.ttl.into()),
            (24, 4, setup.time.into()),
        ];
        self.tape.fields(STEP, &fields);
        let answer = self.lent.step(setup, Places::right());
        self.answered(STEP, answer)
    }

    fn walk(&mut self, label: &str, trip: &Trip, answer: usize) -> (u32, String) {
        self.lend_walk(trip);
        self.tape.label(label);
        let fields = [
            (2, 2, trip.message.len() as u64),
            (4, 4, trip.yard.len() as u64),
            (8, 2, trip.output as u64),
            (10, 2, answer as u64),
            (12, 4, trip.router.into()),
            (16, 4, trip.receiving.into()),
            (20, 4, trip.destination.into()),
            (24, 4, trip.ttl.into()),
            (28, 2, trip.times as u64),
        ];
        self.tape.fields(WALK, &fields);
        let answer = self.lent.walk(trip, answer, Places::right());
        self.answered(WALK, answer)
    }

    fn expect_step(&mut self, number: u32, label: &str, setup: &Setup) {
        assert_eq!(self.step(label, setup).0, number, "{label}");
    }

    fn expect_walk(&mut self, end: u32, label: &str, trip: &Trip) {
        assert_eq!(self.walk(label, trip, 16).0, end, "{label}");
    }
}

// The clock.
impl Cases {
    /// Times that the program `walk` would not have, each another.
    fn times(&mut self) {
        for number in 0..TIMES {
            let time = 0x1234_5677_u32.wrapping_mul(2 * number + 1);
            assert!(!time.is_multiple_of(65_536) && !self.lent.times.contains(&time));
            self.tape.fields(TIME, &[(2, 2, number.into()), (4, 4, time.into())]);
            self.lent.times.push(time);
        }
    }

    fn starts(&mut self) {
        for reading in [0, 1, 1000, 0x0123_4567_89ab, LIMIT - 1, LIMIT] {
            for out in [24, 25, 40] {
                assert_eq!(self.start(reading, out), 0);
            }
        }
        for reading in [LIMIT + 1, 1 << 63, u64::MAX] {
            assert_eq!(self.start(reading, 24), 31);
            assert_eq!(self.start(reading, 23), 1);
        }
        for out in [0, 1, 8, 16, 23] {
            assert_eq!(self.start(1000, out), 1);
        }
    }

    fn places_of_an_advance(&mut self) {
        for numbers in [[1000, 1010, 1004], [0x0102_0304_0506, 0x0203_0405_0607, 0x0113_1415_1617]] {
            self.make_noise();
            let before = self.lent.clone();
            let (number, right) = self.advance(numbers, 24);
            assert_eq!(number, 0);
            assert_told(&right, fillings(), |places| before.clone().advance(places.map(|place| numbers[place]), 24).1);
        }
    }

    /// P6, and clocks at the edges: r, y and the reading, and the time issued.
    fn advances(&mut self) {
        let p6 = [
            ([1000, 1000, 1010], 1010),
            ([1010, 1010, 1000], 1011),
            ([1000, 1011, 1004], 1013),
            ([1004, 1013, 1016], 1019),
            ([1016, 1019, 1024], 1024),
        ];
        let others = [
            ([0, 0, 0], 1),
            ([5, 9, 5], 10),
            ([5, 9, 6], 10),
            ([5, 9, 7], 10),
            ([5, 9, 9], 11),
            ([5, 9, 0], 10),
            ([7, 7, LIMIT], LIMIT),
            ([LIMIT - 2, LIMIT - 2, LIMIT - 2], LIMIT - 1),
            ([3, LIMIT - 2, 7], LIMIT),
            ([0, LIMIT - 2, LIMIT], LIMIT),
            ([LIMIT - 1, LIMIT - 1, 0], LIMIT),
            ([LIMIT - 1, LIMIT - 1, LIMIT - 1], LIMIT),
            ([LIMIT - 1, LIMIT - 1, LIMIT], LIMIT),
        ];
        for ((numbers, time), out) in p6.into_iter().chain(others).zip([24, 25, 40].into_iter().cycle()) {
            assert_eq!(self.advance(numbers, out).0, 0);
            assert_eq!([8, 16].map(|at| be64(&self.lent.handed.bytes, at)), [time; 2]);
        }
    }

    /// Each with room and without.
    fn refused_advances(&mut self) {
        let refused = [
            (33, [1010, 1000, 1020]),
            (33, [1000, LIMIT + 1, 1020]),
            (33, [u64::MAX, u64::MAX, 1020]),
            (33, [1010, 1000, LIMIT + 1]),
            (33, [LIMIT + 1, LIMIT, 1020]),
            (31, [1000, 1010, LIMIT + 1]),
            (31, [1000, 1010, u64::MAX]),
            (31, [1000, LIMIT, 0]),
            (31, [1000, LIMIT, 1000]),
            (31, [0, LIMIT, LIMIT]),
            (31, [LIMIT, LIMIT, LIMIT]),
            (31, [LIMIT, LIMIT, LIMIT + 1]),
        ];
        for (number, numbers) in refused {
            assert_eq!(self.advance(numbers, 24).0, number);
            assert_eq!(self.advance(numbers, 23).0, 1);
        }
        for out in [0, 8, 16, 23] {
            assert_eq!(self.advance([1000, 1010, 1004], out).0, 1);
        }
    }

    /// Seconds that could be nanoseconds, and the other way round.
    fn places_of_a_unix_time(&mut self) {
        let numbers = [123_456_789, 987_654_321];
        let right = self.unix(numbers).to_string();
        assert_told(&right, fillings(), |places| {
            let [seconds, nanoseconds] = places.map(|place: usize| numbers[place]);
            clock_unix(seconds, nanoseconds).to_string()
        });
    }

    fn unix_times(&mut self) {
        for numbers in [[0, 0], [0, 15_258], [0, 15_259], [0, LAST_NANOSECOND], [1, 2], [LAST_SECOND, 3]] {
            assert_ne!(self.unix(numbers), 0);
        }
        assert_eq!(self.unix([LAST_SECOND, LAST_NANOSECOND]), LIMIT);
        for refused in [LAST_SECOND + 1, 1 << 32, 1 << 48, u64::MAX] {
            assert_eq!(self.unix([refused, 0]), 0);
        }
        for refused in [LAST_NANOSECOND + 1, 1 << 57, u64::MAX] {
            assert_eq!(self.unix([0, refused]), 0);
        }
    }

    fn arrivals(&mut self) {
        assert_eq!(self.arrival(clock_unix(0, 0)), 2_122_317_824);
        for y in [0, 1, u64::from(u32::MAX), 1 << 32, (1 << 32) + 7, LIMIT, 0x0123_4567_89ab_cdef, u64::MAX] {
            self.arrival(y);
        }
    }
}

// The step.
impl Cases {
    /// A Request, whose TTL matters; the time is one that is no interface, and one that is.
    fn places_of_a_step(&mut self) {
        for time in [0x0a0b_0c0d, 1] {
            let plan = accepting();
            let destination = plan.interfaces[1].address;
            let setup = Setup { destination, receiving: 2, time, ..Setup::new(faults::request(), &plan) };
            self.lend_step(&setup);
            let before = self.lent.clone();
            let (number, right) = self.step(&format!("places, time {time}"), &setup);
            assert_eq!(number, 100);
            let run = |places| before.clone().step(&setup, places).1;
            assert_told(&right, fillings(), |read| run(Places { read, ..Places::right() }));
            assert_told(&right, fillings(), |numbers| run(Places { numbers, ..Places::right() }));
            assert_told(&right, exchanges(), |written| run(Places { written, ..Places::right() }));
        }
    }

    /// Accepted Queries and Requests, each with its own numbers and lengths.
    fn steps(&mut self) {
        let plan = accepting();
        let lengths = [(1472, 16), (1473, 17), (1600, 40)];
        for (word, message) in [("query", faults::query()), ("request", faults::request())] {
            for (receiving, (output, record)) in (0..).zip(lengths) {
                let destination = plan.interfaces[2 - receiving as usize].address;
                let time = 0x1122_3344 << receiving;
                let base = Setup::new(message.clone(), &plan);
                let setup = Setup { output, record, destination, receiving, time, ..base };
                self.expect_step(100, &format!("{word} on {receiving}"), &setup);
            }
            let last = Header { hops: if word == "query" { 1 } else { 3 }, ..faults::header(message[0]) };
            let message = [&last.to_bytes(), &message[20..]].concat();
            self.expect_step(101, &format!("{word}, last hop"), &Setup::new(message, &plan));
        }
    }

    fn entered_and_seen(&mut self) {
        let entered = Setup::new(faults::query(), &accepting());
        self.expect_step(100, "entered", &entered);
        let recent = self.lent.recent.bytes[..LENGTH].to_vec();
        self.expect_step(17, "seen", &Setup { recent, ttl: 3, ..entered });
    }

    /// Requests at the end of the room.
    fn full(&mut self) {
        for (length, answer, code) in [(1420, 100, 0), (1424, 101, 0x81)] {
            let blocks = [standard(1), augmented(length - 72, 2)];
            let message = Header { hops: 255, ..faults::header(2) }.with(&blocks);
            self.expect_step(answer, &format!("request of {length}"), &Setup::new(message, &accepting()));
            let shown = if answer == 100 { length + 51 } else { 71 };
            assert_eq!(self.lent.output.bytes[shown], code);
        }
    }

    /// Whose MTU counts, by an interface of another number for each.
    fn rooms(&mut self) {
        for (incoming, narrow, full) in [(1, 1, true), (1, 0, false), (2, 2, true), (2, 1, false), (u16::MAX, 0, true)]
        {
            let mut plan = accepting();
            let upstream = if incoming == u16::MAX { 0 } else { ip(10, 7, 1, 2) };
            plan.routes[0] = plan.routes[0].by(incoming, upstream, 1);
            plan.interfaces[narrow].mtu = LEAST_MTU;
            for (length, full) in [(496, false), (500, full), (1420, full), (1424, true), (MOST, true)] {
                let message = Header { hops: 255, ..faults::header(2) }.with(&[standard(1), augmented(length - 72, 2)]);
                let label = format!("by {incoming}, narrow {narrow}, {length}");
                assert!(self.step(&label, &Setup::new(message, &plan)).0 >= 100, "{label}");
                assert_eq!(self.lent.output.bytes[71] == 0x81, full, "{label}");
            }
        }
    }

    /// Each code, to a Query and to a Request.
    fn codes(&mut self) {
        for (kind, word) in [(1, "query"), (2, "request")] {
            for code in all_codes() {
                let mut situation = Situation::new(kind);
                (code.make)(&mut situation);
                if situation.is_possible() {
                    let label = format!("{word}: code {}", code.number);
                    assert!(self.step(&label, &situation.setup()).0 >= 100);
                }
            }
        }
    }

    /// A few faults of each number.
    fn drops(&mut self) {
        for (name, base, faults) in bases() {
            for fault in faults.iter().filter(|fault| fault.paired) {
                let mut setup = base.clone();
                fault.make(&mut setup);
                self.expect_step(fault.number, &format!("{name}: {}", fault.name), &setup);
            }
        }
    }
}

// The walk.
impl Cases {
    /// The TTL alone cannot be told, since a walk takes no Request and a Query's is not looked at; no other argument
    /// may be it.
    fn places_of_a_walk(&mut self) {
        for (start, receiving, ttl) in [(1, 2, 3), (2, 1, 0), (2, 3, 1), (1, 3, 64)] {
            let trip = Trip { ttl, times: 6, ..wide_trip(4, start, receiving) };
            self.lend_walk(&trip);
            let before = self.lent.clone();
            let (end, right) = self.walk(&format!("places {start} {receiving} {ttl}"), &trip, 16);
            assert_eq!(end, 101);
            let run = |places| before.clone().walk(&trip, 16, places).1;
            let seen = |numbers: &[usize; 4]| numbers[..3] != [0, 1, 2];
            assert_told(&right, fillings(), |read| run(Places { read, ..Places::right() }));
            assert_told(&right, fillings().into_iter().filter(seen).collect(), |numbers| {
                run(Places { numbers, ..Places::right() })
            });
            assert_told(&right, exchanges(), |written| run(Places { written, ..Places::right() }));
        }
    }

    fn worked_examples(&mut self) {
        let back = ip(198, 51, 100, 1);
        let examples = [(0, 10, 101), (back, 10, 101), (back, 255, 101), (0, 1, 101), (0, 0, 8)];
        for (number, (upstream, hops, end)) in (1..).zip(examples) {
            self.expect_walk(end, &format!("P{number}"), &worked_trip(upstream, hops));
        }
    }

    /// Every end, longer buffers, more times than routers, and 32 routers.
    fn walks(&mut self) {
        for ending in &ENDINGS {
            for place in [0, 1] {
                self.expect_walk(ending.end, &format!("router {place}: {}", ending.name), &ending.trip(place));
            }
        }
        for (output, answer, times) in [(1473, 16, 2), (1472, 17, 3), (1600, 40, 40)] {
            let trip = Trip { output, times, ..worked_trip(0, 10) };
            let (end, _) = self.walk(&format!("lent {output} {answer} {times}"), &trip, answer);
            assert_eq!(end, 101);
        }
        for start in [0, 1, 2, 30] {
            self.expect_walk(101, &format!("line of 32 from {start}"), &line_trip(32, start, 255));
        }
        let round = Trip { yard: ring(31), ..line_trip(31, 5, 255) };
        self.expect_walk(101, "ring of 31", &round);
        for (mtus, end) in [
            ([[576; 2]; 2], 101),
            ([[1500, 1000], [1500, 1500]], 101),
            ([[1500, 1500], [1500, 576]], 101),
            ([[575, 1500], [1500, 1500]], 21),
            ([[1500, 1500], [1500, 0]], 21),
        ] {
            self.expect_walk(end, &format!("loop {mtus:?}"), &loop_trip(mtus, 255));
        }
    }

    /// Each refusal, alone and with each later one.
    fn refusals(&mut self) {
        for (place, first) in REFUSALS.iter().enumerate() {
            for second in &REFUSALS[place..] {
                let mut trip = worked_trip(0, 10);
                (second.1)(&mut trip);
                (first.1)(&mut trip);
                self.expect_walk(first.0, &format!("refusals {} {}", first.0, second.0), &trip);
                let (end, _) = self.walk(&format!("answer 15, refusals {} {}", first.0, second.0), &trip, 15);
                assert_eq!(end, 1);
            }
        }
    }

    /// More ways to each.
    fn other_refusals(&mut self) {
        let base = worked_trip(0, 10);
        for (output, answer) in [(0, 16), (1471, 40), (1472, 0), (1472, 15), (1600, 15), (0, 0)] {
            let trip = Trip { output, ..base.clone() };
            assert_eq!(self.walk(&format!("lent {output} {answer}"), &trip, answer).0, 1);
        }
        for (yard, name) in [(Vec::new(), "no yard"), (base.yard[..SHEET - 1].to_vec(), "part of a sheet")] {
            self.expect_walk(21, name, &Trip { yard, ..base.clone() });
        }
        let yard = [line(32, 0), line(1, 0)].concat();
        self.expect_walk(21, "33 sheets", &Trip { yard, times: 40, ..base.clone() });
        for router in [3, 256, 65_536, u32::MAX] {
            self.expect_walk(23, &format!("start {router}"), &Trip { router, ..base.clone() });
        }
        let request = Header { kind: 2, ..header(9) }.with(&[standard(1)]);
        for length in [1, 19, 20, 72] {
            let trip = Trip { message: request[..length].to_vec(), ttl: 255, ..base.clone() };
            self.expect_walk(24, &format!("type 2, length {length}"), &trip);
        }
    }

    fn first_drops(&mut self) {
        let base = worked_trip(0, 10);
        for name in
            ["19 bytes", "type 3", "length 21", "hops 0", "group 240", "source 127", "pair", "port 0", "no bytes"]
        {
            let fault = faults::HEADER.iter().find(|fault| fault.name == name).expect("a fault's name");
            let mut trip = base.clone();
            (fault.make)(&mut trip.message);
            self.expect_walk(fault.number, name, &trip);
        }
        let longer = Trip { message: [&base.message, &[0][..]].concat(), ..base.clone() };
        self.expect_walk(13, "one byte more", &longer);
        for receiving in [2, 65_536, u32::MAX] {
            self.expect_walk(4, &format!("interface {receiving}"), &Trip { receiving, ..base.clone() });
        }
        self.expect_walk(14, "to nobody here", &Trip { destination: ip(198, 51, 100, 2), ..base.clone() });
        let stray = Trip { router: 1, destination: ip(224, 0, 0, 1), ..base };
        self.expect_walk(18, "not the last hop", &stray);
    }

    /// Every number that an entry can give was met.
    fn table(&mut self) {
        let step = (1..=18).chain([100, 101]);
        let first_drops = (4..=14).chain([18]);
        let walk = [1, 21, 22, 23, 24, 101, 102, 103].into_iter().chain(first_drops);
        let all = [(START, vec![0, 1, 31]), (ADVANCE, vec![0, 1, 31, 33]), (UNIX, vec![0, 1])];
        let all = all.into_iter().chain([(STEP, step.collect()), (WALK, walk.collect())]);
        let expected: BTreeSet<(u8, u32)> =
            all.flat_map(|(entry, numbers)| numbers.into_iter().map(move |number| (entry, number))).collect();
        assert_eq!(self.met, expected);
    }
}
