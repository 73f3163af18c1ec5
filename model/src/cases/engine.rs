//! The cases of the engine's step. Areas 1 to 5 hold message, sheet, recent list, output and record.
//! Command 6 runs a step: at byte 2 the place of the code in what is sent (2 bytes), at 4 the
//! message's length (4), at 8 those of sheet, recent list, output and record (2 each), at 16
//! destination, receiving interface, TTL and time (4 each). Lines: `label -> answer digests`, or
//! `label -> answer code digests` if something was sent; the digests are of the whole areas of output,
//! record and recent list. At the end `answer n met k` and `code n met k`.

use super::faults::{self, Fault};
use super::plans::{accepting, plan};
use super::rooms::{self, Case};
use super::situations::{all_codes, Scope, Situation};
use super::tape::{digest, Area, Tape};
use crate::build::{augmented, ip, mend_all, standard, Header, RouteEntry, SheetPlan};
use crate::bytes::{be16, be32, mask};
use crate::engine::{step, Arrival};
use crate::message::{blocks, BlockType, STANDARD};
use crate::recent::{Entry, Recent};
use crate::rng::Rng;
use crate::sheet::{Table, ENTRIES, LEAST_MTU};
use std::net::Ipv4Addr;

const STEP: u8 = 6;
const MESSAGE: usize = 65_600;
const SHEET: usize = 8704;
const RECENT: usize = 512;
const OUTPUT: usize = 1600;
const RECORD: usize = 64;

pub fn tape() -> Tape {
    let mut cases = Cases {
        tape: Tape::default(),
        message: Area::new(1, MESSAGE),
        sheet: Area::new(2, SHEET),
        recent: Area::new(3, RECENT),
        output: Area::new(4, OUTPUT),
        record: Area::new(5, RECORD),
        answers: [0; 256],
        codes: [0; 256],
    };
    cases.tape.set(&mut cases.output, &[0xee; OUTPUT]);
    cases.tape.set(&mut cases.record, &[0xdd; RECORD]);
    cases.tape.set(&mut cases.recent, &[0xcc; RECENT]);
    cases.faults();
    cases.fault_pairs();
    cases.codes();
    cases.fills();
    cases.hops();
    cases.no_room();
    cases.rooms();
    cases.drops_before_room();
    cases.no_block_before();
    cases.recent_lists();
    cases.arrivals();
    cases.large_sheets(&mut Rng::new(51));
    cases.random(&mut Rng::new(52));
    cases.scopes();
    cases.table();
    cases.tape
}

/// All that a step is handed.
#[derive(Clone)]
pub struct Setup {
    pub message: Vec<u8>,
    pub sheet: Vec<u8>,
    pub recent: Vec<u8>,
    pub output: usize,
    pub record: usize,
    pub destination: u32,
    pub receiving: u32,
    pub ttl: u32,
    pub time: u32,
}

impl Setup {
    /// A message to interface 0 of a router, with an empty recent list and buffers just long enough.
    pub fn new(message: Vec<u8>, sheet: &SheetPlan) -> Setup {
        Setup {
            message,
            sheet: sheet.to_bytes(),
            recent: Recent::default().to_bytes(),
            output: 1472,
            record: 16,
            destination: sheet.interfaces[0].address,
            receiving: 0,
            ttl: 255,
            time: 0x0102_0304,
        }
    }
}

struct Cases {
    tape: Tape,
    message: Area,
    sheet: Area,
    recent: Area,
    output: Area,
    record: Area,
    answers: [u64; 256],
    codes: [u64; 256],
}

/// What a step answered, and the code in what it sent.
#[derive(Clone, Copy, Debug, PartialEq, Eq)]
struct Answer {
    number: u32,
    code: Option<u8>,
}

impl Cases {
    fn run(&mut self, label: &str, setup: &Setup) -> Answer {
        self.tape.set(&mut self.message, &setup.message);
        self.tape.set(&mut self.sheet, &setup.sheet);
        self.tape.set(&mut self.recent, &setup.recent);
        let arrival = Arrival {
            message: &setup.message,
            destination: setup.destination,
            receiving: setup.receiving,
            ttl: setup.ttl,
            time: setup.time,
        };
        let number = step(
            arrival,
            &setup.sheet,
            &mut self.recent.bytes[..setup.recent.len()],
            &mut self.output.bytes[..setup.output],
            &mut self.record.bytes[..setup.record],
        );
        let place = if number >= 100 { self.place_of_code() } else { 0 };
        let code = (number >= 100).then(|| self.output.bytes[place]);
        self.tape.label(label);
        self.command(setup, place);
        self.count(number, code);
        let shown = code.map_or(String::new(), |code| format!(" {code}"));
        let digests = [&self.output, &self.record, &self.recent].map(|area| digest(&area.bytes));
        self.tape.line(format!(" -> {number}{shown} {} {} {}", digests[0], digests[1], digests[2]));
        Answer { number, code }
    }

    fn command(&mut self, setup: &Setup, place: usize) {
        let fields = [
            (2, 2, place as u64),
            (4, 4, setup.message.len() as u64),
            (8, 2, setup.sheet.len() as u64),
            (10, 2, setup.recent.len() as u64),
            (12, 2, setup.output as u64),
            (14, 2, setup.record as u64),
            (16, 4, setup.destination.into()),
            (20, 4, setup.receiving.into()),
            (24, 4, setup.ttl.into()),
            (28, 4, setup.time.into()),
        ];
        self.tape.fields(STEP, &fields);
    }

    /// Where the last type 4 block of what was sent has its code.
    fn place_of_code(&self) -> usize {
        let length = usize::from(u16::from_be_bytes([self.record.bytes[0], self.record.bytes[1]]));
        let blocks = blocks(&self.output.bytes[..length]).expect("a message sent is well-formed");
        let last = blocks.iter().rfind(|block| block.kind == BlockType::Standard).expect("it has a type 4 block");
        last.at + last.length - 1
    }

    fn count(&mut self, number: u32, code: Option<u8>) {
        self.answers[number as usize] += 1;
        if let Some(code) = code {
            self.codes[usize::from(code)] += 1;
        }
    }

    fn expect(&mut self, number: u32, label: &str, setup: &Setup) {
        assert_eq!(self.run(label, setup).number, number, "{label}");
    }

    /// Each drop number by several faults, each alone.
    fn faults(&mut self) {
        for (name, base, faults) in bases() {
            self.expect(100, &format!("{name}: sent on"), &base);
            for fault in &faults {
                let mut setup = base.clone();
                fault.make(&mut setup);
                self.expect(fault.number, &format!("{name}: {}", fault.name), &setup);
            }
        }
    }

    /// A few faults of each number, each with each of another number: the lower number is answered.
    fn fault_pairs(&mut self) {
        for (name, base, faults) in bases() {
            let few: Vec<&Wrong> = faults.iter().filter(|fault| fault.paired).collect();
            for first in &few {
                for second in few.iter().filter(|second| second.number > first.number) {
                    let mut setup = base.clone();
                    second.make(&mut setup);
                    first.make(&mut setup);
                    self.expect(first.number, &format!("{name}: {}, {}", first.name, second.name), &setup);
                }
            }
        }
    }

    /// Each code alone and each two that can both apply: the earlier in the order is shown.
    fn codes(&mut self) {
        for kind in [1, 2] {
            let word = if kind == 1 { "query" } else { "request" };
            let codes: Vec<_> = all_codes().into_iter().filter(|code| kind == 1 || code.number != 6).collect();
            let none = Situation::new(kind);
            assert_eq!(self.run(&format!("{word}: code 0"), &none.setup()).code, Some(0));
            for (place, first) in codes.iter().enumerate() {
                for second in &codes[place..] {
                    let mut situation = none;
                    (second.make)(&mut situation);
                    (first.make)(&mut situation);
                    if situation.is_possible() {
                        let setup = situation.setup();
                        let label = format!("{word}: code {}, {}", first.number, second.number);
                        assert_eq!(self.run(&label, &setup).code, Some(first.number), "{label}");
                    }
                }
            }
        }
    }

    /// Step 4: every kind and length of route, upstream, incoming, and prohibition.
    fn fills(&mut self) {
        let (source, group) = (ip(203, 0, 113, 9), ip(232, 1, 1, 1));
        let prefix = |length: u8| source & mask(length);
        let mut routes = vec![RouteEntry::group(group), RouteEntry { flags: 1, ..RouteEntry::group(group) }];
        routes.extend([1, 8, 24, 31, 32].map(|length| RouteEntry::source_and_group(prefix(length), length, group)));
        routes.extend([0, 1, 24, 31, 32].map(|length| RouteEntry::source_only(prefix(length), length)));
        for route in routes {
            for (incoming, upstream) in
                [(1, 0), (1, ip(10, 7, 1, 2)), (1, u32::MAX), (2, ip(198, 51, 100, 1)), (u16::MAX, 0)]
            {
                for prohibited in [false, true] {
                    let route = RouteEntry { protocol: 0x1234, multicast: 0xabcd, packets: u64::MAX - 7, ..route };
                    let mut plan = plan(3, 0);
                    plan.routes = vec![route.by(incoming, upstream, 0b101)];
                    plan.prohibited = prohibited;
                    let what = if prohibited { "prohibited" } else { "fill" };
                    let label = format!("{what} {} {} {incoming} {upstream}", route.kind, route.length);
                    let message = if incoming == 2 { faults::request() } else { faults::query() };
                    self.run(&label, &Setup::new(message, &plan));
                }
            }
        }
    }

    /// Blocks against hops, with Augmented blocks between and after.
    fn hops(&mut self) {
        for count in 1..=26 {
            for hops in [count - 1, count, count + 1, count + 2, 255] {
                if hops == 0 {
                    continue;
                }
                let mut blocks = vec![standard(count as u8); count];
                if count % 3 == 1 && count < 24 {
                    blocks.insert(1, augmented(8 + 4 * (count % 5), 0x44));
                    blocks.push(augmented(8, 0x45));
                }
                let message = Header { hops: hops as u8, ..faults::header(2) }.with(&blocks);
                let label = format!("{count} blocks, hops {hops}");
                let expected = match hops {
                    _ if hops <= count => 16,
                    _ if hops == count + 1 => 101,
                    _ => 100,
                };
                self.expect(expected, &label, &Setup::new(message, &accepting()));
            }
        }
        for hops in [1, 2, 255] {
            let message = Header { hops, ..faults::header(1) }.to_bytes();
            let setup = Setup::new(message, &accepting());
            self.expect(if hops == 1 { 101 } else { 100 }, &format!("query, hops {hops}"), &setup);
        }
    }

    /// Requests at the end of the room: 1420 bytes fit, 1424 do not.
    fn no_room(&mut self) {
        let base = accepting();
        let header = Header { hops: 255, ..faults::header(2) };
        for count in 1..=27 {
            for length in [1416, 1420, 1424, 1428, 1472] {
                let used = 20 + 52 * count;
                if length < used || (length > used && length < used + 8) {
                    continue;
                }
                let mut blocks = vec![standard(0x30 + count as u8); count];
                if length > used {
                    blocks.insert(1 + count / 2, augmented(length - used, 0x81));
                }
                let setup = Setup::new(header.with(&blocks), &base);
                let answer = self.run(&format!("{count} blocks of {length}"), &setup);
                assert_eq!(answer.number, if length <= 1420 { 100 } else { 101 });
                assert_eq!(answer.code == Some(0x81), length > 1420);
            }
        }
        let tail = header.with(&[standard(1), standard(2), augmented(600, 3), augmented(712, 4)]);
        let hops_used = Header { hops: 3, ..header }.with(&[standard(1), standard(2), augmented(1312, 4)]);
        for (name, message, expected) in [("augmented after", tail, 101), ("hops nearly used", hops_used, 101)] {
            for (what, plan) in [
                ("", base.clone()),
                (", prohibited", SheetPlan { prohibited: true, ..base.clone() }),
                (", no route", SheetPlan { routes: Vec::new(), ..base.clone() }),
            ] {
                let answer = self.run(&format!("no room, {name}{what}"), &Setup::new(message.clone(), &plan));
                assert_eq!(answer, Answer { number: expected, code: Some(0x81) });
            }
        }
    }

    /// A full message goes home as it came; into any other a block is appended.
    fn rooms(&mut self) {
        for Case { label, setup, full } in rooms::all() {
            let answer = self.run(&label, &setup);
            let sent = usize::from(be16(&self.record.bytes, 0));
            assert_eq!(sent, setup.message.len() + if full { 0 } else { STANDARD }, "{label}");
            assert_eq!(answer.code == Some(0x81), full, "{label}");
        }
    }

    /// A message that would be full is dropped by the row that it meets.
    fn drops_before_room(&mut self) {
        let mut plan = accepting();
        plan.interfaces.iter_mut().for_each(|interface| interface.mtu = LEAST_MTU);
        let message = Header { hops: 3, ..faults::header(2) }.with(&[standard(1), standard(2), augmented(876, 3)]);
        let base = Setup::new(message, &plan);
        assert_eq!(self.run("full, and no drop", &base), Answer { number: 101, code: Some(0x81) });
        let wrongs: [SetupFault; 7] = [
            ("MTU 575", 3, false, |s| set_mtu(s, 1, LEAST_MTU - 1)),
            ("no such interface", 4, false, |s| s.receiving = 3),
            ("1473 bytes", 5, false, |s| resize(&mut s.message, 1473)),
            ("a byte more", 13, false, |s| s.message.push(0)),
            ("sent elsewhere", 14, false, |s| s.destination = ip(10, 7, 0, 2)),
            ("TTL 254", 15, false, |s| s.ttl = 254),
            ("hops 2", 16, false, |s| hops(s, 2)),
        ];
        for (name, number, _, make) in wrongs {
            let mut setup = base.clone();
            make(&mut setup);
            self.expect(number, &format!("full, and {name}"), &setup);
        }
    }

    /// No room and no type 4 block for 0x81: 13 comes before, for a Request without one or with another block first, and for a
    /// Query with blocks behind it, in whatever room.
    fn no_block_before(&mut self) {
        let (query, request) = (faults::header(1), Header { hops: 255, ..faults::header(2) });
        for length in [80, 548, 1420, 1424, 1472] {
            let rest = length - 72;
            for (what, message) in [
                ("augmented alone", request.with(&[augmented(rest + 52, 4)])),
                ("augmented first", request.with(&[augmented(rest, 4), standard(1)])),
                ("query and blocks", query.with(&[standard(1), augmented(rest, 4)])),
            ] {
                self.expect(13, &format!("{what}, {length} bytes"), &Setup::new(message, &accepting()));
            }
        }
    }

    /// 40 Queries one after another, each then seen; full lists at each place of next; Requests do not count.
    fn recent_lists(&mut self) {
        let base = Setup::new(faults::query(), &accepting());
        let mut recent = base.recent.clone();
        for id in 0..40 {
            let message = Header { id, ..faults::header(1) }.to_bytes();
            let setup = Setup { message, recent, ..base.clone() };
            self.expect(100, &format!("entered {id}"), &setup);
            recent = self.recent.bytes[..196].to_vec();
            self.expect(17, &format!("seen {id}"), &Setup { recent: recent.clone(), ..setup });
            let request = Header { id, ..faults::header(2) }.with(&[standard(1)]);
            self.expect(
                100,
                &format!("request {id}"),
                &Setup { message: request, recent: recent.clone(), ..base.clone() },
            );
        }
        for next in 0..32 {
            let mut full = Recent::default();
            (0..32).for_each(|id| full.enter(Entry { client: ip(10, 9, 9, 9), id }));
            let mut recent = full.to_bytes();
            recent[1] = next;
            self.expect(100, &format!("full list, next {next}"), &Setup { recent, ..base.clone() });
        }
    }

    /// Destinations, TTLs, times and longer buffers.
    fn arrivals(&mut self) {
        let plan = accepting();
        for (word, message) in [("query", faults::query()), ("request", faults::request())] {
            let base = Setup::new(message, &plan);
            let destinations = (0..3).map(|number| (plan.interfaces[number].address, 100));
            let link = [0, 1, 2, 128, 255].map(|last| (ip(224, 0, 0, last), 100));
            let others = [
                ip(223, 255, 255, 255),
                ip(224, 0, 1, 0),
                ip(225, 0, 0, 1),
                ip(10, 7, 0, 0),
                ip(10, 7, 0, 255),
                0,
                u32::MAX,
            ];
            for (destination, expected) in destinations.chain(link).chain(others.map(|other| (other, 14))) {
                self.expect(expected, &format!("{word} to {destination}"), &Setup { destination, ..base.clone() });
            }
            for ttl in [0, 1, 2, 64, 127, 128, 253, 254, 255, 256, 257, 511, 65_535, 65_791, u32::MAX] {
                let expected = if word == "query" || ttl == 255 { 100 } else { 15 };
                self.expect(expected, &format!("{word}, TTL {ttl}"), &Setup { ttl, ..base.clone() });
            }
            for (output, record) in [(1473, 16), (1472, 17), (1600, 64), (1500, 20)] {
                self.expect(100, &format!("{word}, lent {output} {record}"), &Setup { output, record, ..base.clone() });
            }
            for time in [0, 1, 65_536, u32::MAX] {
                self.expect(100, &format!("{word}, time {time}"), &Setup { time, ..base.clone() });
            }
            for receiving in 0..3 {
                self.run(&format!("{word} on {receiving}"), &Setup { receiving, ..base.clone() });
            }
        }
    }

    /// 64 interfaces, and 16 blocks.
    fn large_sheets(&mut self, rng: &mut Rng) {
        for (interfaces, routes) in [(64, 108), (63, 1), (19, 10), (1, 135)] {
            let plan = plan(interfaces, routes);
            for number in 0..12 {
                let receiving = rng.below(interfaces as u64) as u32;
                let wanted = plan.routes[rng.below(routes as u64) as usize];
                let group = if wanted.group == 0 { ip(233, 0, 0, 1) } else { wanted.group };
                let source = if wanted.source == 0 { ip(9, 9, 9, 9) } else { wanted.source };
                let header = Header { group, source, ..faults::header(1 + (number % 2) as u8) };
                let message = if number % 2 == 0 { header.to_bytes() } else { header.with(&[standard(8)]) };
                let label = format!("large {interfaces} {routes} {number}");
                self.run(&label, &Setup { receiving, ..Setup::new(message, &plan) });
            }
        }
    }

    fn random(&mut self, rng: &mut Rng) {
        for number in 0..1800 {
            let mut setup = Situation::random(rng).setup();
            setup.time = rng.draw() as u32;
            if rng.one_in(6) {
                setup.destination = ip(224, 0, 0, rng.draw() as u8);
            }
            if rng.one_in(10) {
                setup.receiving = rng.below(4) as u32;
            }
            self.run(&format!("random {number}"), &setup);
        }
    }

    /// Groups at the edges of 239.0.0.0/8, all ones, and each other first octet, at boundaries: no other code applies.
    fn scopes(&mut self) {
        let edges = [ip(238, 255, 255, 255), ip(239, 0, 0, 0), ip(239, 255, 255, 255), u32::MAX];
        for kind in [1, 2] {
            for (name, scoped) in
                [("receiving", Scope::Receiving), ("incoming", Scope::Incoming), ("both", Scope::Both)]
            {
                edges.into_iter().for_each(|group| self.scope(kind, name, scoped, group));
            }
        }
        (224..=238).for_each(|octet| self.scope(2, "both", Scope::Both, ip(octet, 1, 1, 1)));
    }

    fn scope(&mut self, kind: u8, name: &str, scoped: Scope, group: u32) {
        let route_kind = if group == u32::MAX { 3 } else { 1 };
        let situation = Situation { scoped, other_group: Some(group), route_kind, ..Situation::new(kind) };
        let word = if kind == 1 { "query" } else { "request" };
        let label = format!("{word}: boundary {name}, {}", Ipv4Addr::from(group));
        let expected = if group >> 24 == 239 { 4 } else { 0 };
        assert_eq!(self.run(&label, &situation.setup()), Answer { number: 100, code: Some(expected) }, "{label}");
    }

    fn table(&mut self) {
        for (word, table) in [("answer", self.answers), ("code", self.codes)] {
            for (number, met) in table.into_iter().enumerate().filter(|(_, met)| *met > 0) {
                self.tape.line(format!("{word} {number} met {met}"));
                assert!(met >= 20, "{word} {number} only {met} times");
            }
        }
        let answers = self.answers.iter().filter(|met| **met > 0).count();
        let codes = self.codes.iter().filter(|met| **met > 0).count();
        assert_eq!((answers, codes), (20, 13));
    }
}

/// A fault of a step's input.
pub struct Wrong {
    pub name: String,
    pub number: u32,
    /// Whether it is also tried together with others.
    pub paired: bool,
    how: How,
}

enum How {
    Message(fn(&mut Vec<u8>)),
    Setup(fn(&mut Setup)),
}

impl Wrong {
    pub fn make(&self, setup: &mut Setup) {
        match self.how {
            How::Message(make) => make(&mut setup.message),
            How::Setup(make) => make(setup),
        }
    }
}

/// An accepted Query and an accepted Request, each with the faults that it can have.
pub fn bases() -> [(&'static str, Setup, Vec<Wrong>); 2] {
    let plan = accepting();
    let both = || SETUP.iter().map(wrong).collect::<Vec<Wrong>>();
    let mut query = both();
    query.extend(faults::HEADER.iter().map(message_fault));
    query.extend(QUERY.iter().map(wrong));
    let mut request = both();
    request.extend(faults::HEADER.iter().chain(&faults::REQUEST).map(message_fault));
    request.extend(REQUEST.iter().map(wrong));
    [("query", Setup::new(faults::query(), &plan), query), ("request", Setup::new(faults::request(), &plan), request)]
}

type SetupFault = (&'static str, u32, bool, fn(&mut Setup));

fn wrong(fault: &SetupFault) -> Wrong {
    Wrong { name: fault.0.to_string(), number: fault.1, paired: fault.2, how: How::Setup(fault.3) }
}

fn message_fault(fault: &Fault) -> Wrong {
    const PAIRED: [&str; 13] = [
        "19 bytes",
        "1473 bytes",
        "type 3",
        "length 21",
        "hops 0",
        "group 240",
        "source 127",
        "pair",
        "client 224",
        "port 0",
        "one byte more",
        "no block",
        "first block of type 5",
    ];
    let paired = PAIRED.contains(&fault.name);
    Wrong { name: fault.name.to_string(), number: fault.number, paired, how: How::Message(fault.make) }
}

fn resize(bytes: &mut Vec<u8>, length: usize) {
    bytes.resize(length, 0);
}

/// Changes a byte of the sheet, the sums mended after.
fn mended(setup: &mut Setup, at: usize, value: u8) {
    if setup.sheet.len() > at {
        setup.sheet[at] = value;
        mend_all(&mut setup.sheet);
    }
}

/// Gives an interface of the first block an MTU, the sums mended after.
fn set_mtu(setup: &mut Setup, number: usize, mtu: u16) {
    let at = mtu_at(number);
    for (at, byte) in (at..).zip(mtu.to_be_bytes()) {
        mended(setup, at, byte);
    }
}

/// Where an interface of the first block has its MTU.
const fn mtu_at(number: usize) -> usize {
    ENTRIES + Table::Interfaces.entry_size() * number + 24
}

fn set_recent(setup: &mut Setup, at: usize, value: u8) {
    if setup.recent.len() > at {
        setup.recent[at] = value;
    }
}

/// Faults that a Query and a Request can both have.
const SETUP: [SetupFault; 49] = [
    ("output 1471", 1, true, |s| s.output = 1471),
    ("output 0", 1, false, |s| s.output = 0),
    ("output 1420", 1, false, |s| s.output = 1420),
    ("record 15", 1, true, |s| s.record = 15),
    ("record 0", 1, false, |s| s.record = 0),
    ("both short", 1, false, |s| (s.output, s.record) = (72, 8)),
    ("list of 195", 2, true, |s| resize(&mut s.recent, 195)),
    ("list of 197", 2, false, |s| resize(&mut s.recent, 197)),
    ("list of 452", 2, false, |s| resize(&mut s.recent, 452)),
    ("no list", 2, false, |s| resize(&mut s.recent, 0)),
    ("used 33", 2, true, |s| set_recent(s, 0, 33)),
    ("used 1, next 0", 2, false, |s| set_recent(s, 0, 1)),
    ("next 1, used 0", 2, false, |s| set_recent(s, 1, 1)),
    ("list byte 2", 2, false, |s| set_recent(s, 2, 1)),
    ("list byte 3", 2, false, |s| set_recent(s, 3, 1)),
    ("list byte 4", 2, false, |s| set_recent(s, 4, 1)),
    ("list byte 195", 2, false, |s| set_recent(s, 195, 255)),
    ("no sheet", 3, false, |s| resize(&mut s.sheet, 0)),
    ("sheet of 1023", 3, true, |s| resize(&mut s.sheet, 1023)),
    ("sheet of 1025", 3, false, |s| resize(&mut s.sheet, 1025)),
    ("sheet of 8704", 3, false, |s| resize(&mut s.sheet, 8704)),
    ("sheet sum", 3, true, |s| s.sheet[20] ^= 1),
    ("sheet block kind", 3, false, |s| mended(s, 0, 2)),
    ("sheet block number", 3, false, |s| mended(s, 515, 0)),
    ("sheet switches", 3, false, |s| mended(s, 509, 2)),
    ("sheet switches of block 1", 3, false, |s| mended(s, 1021, 1)),
    ("sheet interface flags", 3, false, |s| mended(s, 9, 4)),
    ("first MTU 575", 3, false, |s| set_mtu(s, 0, 575)),
    ("first MTU 0", 3, false, |s| set_mtu(s, 0, 0)),
    ("last MTU 575", 3, true, |s| set_mtu(s, 2, 575)),
    ("byte behind the MTU", 3, false, |s| mended(s, mtu_at(1) + 2, 1)),
    ("second byte behind the MTU", 3, false, |s| mended(s, mtu_at(1) + 3, 1)),
    ("sheet route map", 3, false, |s| mended(s, 512 + 4 + 39, 8)),
    ("interface 3", 4, true, |s| s.receiving = 3),
    ("interface 4", 4, false, |s| s.receiving = 4),
    ("interface 64", 4, false, |s| s.receiving = 64),
    ("interface 256", 4, false, |s| s.receiving = 256),
    ("interface 65535", 4, false, |s| s.receiving = 65_535),
    ("interface 65536", 4, true, |s| s.receiving = 65_536),
    ("interface 2^31", 4, false, |s| s.receiving = 1 << 31),
    ("interface 2^32 - 1", 4, false, |s| s.receiving = u32::MAX),
    ("to 10.7.0.2", 14, true, |s| s.destination = ip(10, 7, 0, 2)),
    ("to 10.7.3.1", 14, false, |s| s.destination = ip(10, 7, 3, 1)),
    ("to 0", 14, false, |s| s.destination = 0),
    ("to all ones", 14, false, |s| s.destination = u32::MAX),
    ("to 224.0.1.0", 14, true, |s| s.destination = ip(224, 0, 1, 0)),
    ("to 223.255.255.255", 14, false, |s| s.destination = ip(223, 255, 255, 255)),
    ("to 232.1.1.1", 14, false, |s| s.destination = ip(232, 1, 1, 1)),
    ("to 10.7.0.0", 14, false, |s| s.destination = ip(10, 7, 0, 0)),
];

/// Enters the message's client, and its id but for a change, in the list.
fn enter(setup: &mut Setup, id_change: u16) {
    if let (Some(mut recent), true) = (Recent::parse(&setup.recent), setup.message.len() >= 18) {
        let (client, id) = (be32(&setup.message, 12), be16(&setup.message, 16));
        recent.enter(Entry { client, id: id ^ id_change });
        setup.recent = recent.to_bytes();
    }
}

/// A Query to 224.0.0.x from a client that no interface serves.
fn stray(setup: &mut Setup, last: u8, client: [u8; 4]) {
    setup.destination = ip(224, 0, 0, last);
    if setup.message.len() >= 16 {
        setup.message[12..16].copy_from_slice(&client);
    }
}

/// Faults of Queries alone.
const QUERY: [SetupFault; 14] = [
    ("seen", 17, true, |s| enter(s, 0)),
    ("seen second", 17, true, |s| {
        enter(s, 1);
        enter(s, 0);
    }),
    ("seen in a full list", 17, false, |s| {
        (1..32).for_each(|change| enter(s, change));
        enter(s, 0);
    }),
    ("not the last hop", 18, true, |s| stray(s, 1, [10, 7, 9, 50])),
    ("not the last hop, to .0", 18, false, |s| stray(s, 0, [192, 0, 2, 1])),
    ("not the last hop, to .255", 18, false, |s| stray(s, 255, [192, 0, 2, 1])),
    ("client next subnet", 18, false, |s| stray(s, 2, [10, 7, 3, 0])),
    ("client of an interface out of the map", 18, false, |s| stray(s, 2, [10, 7, 2, 5])),
    ("interface not multicast", 18, false, |s| {
        stray(s, 1, [10, 7, 0, 50]);
        mended(s, 9, 0);
    }),
    ("no route", 18, true, |s| {
        s.destination = ip(224, 0, 0, 2);
        mended(s, 512 + 4 + 11, 99);
    }),
    ("empty map", 18, false, |s| {
        s.destination = ip(224, 0, 0, 2);
        mended(s, 512 + 4 + 39, 0);
    }),
    ("prohibited and not the last hop", 18, false, |s| {
        stray(s, 2, [10, 7, 9, 50]);
        mended(s, 509, 1);
    }),
    ("hops 1 and not the last hop", 18, false, |s| {
        stray(s, 2, [10, 7, 9, 50]);
        s.message[3] = 1;
    }),
    ("receiving 1 and not the last hop", 18, false, |s| {
        stray(s, 2, [10, 7, 9, 50]);
        s.receiving = 1;
    }),
];

fn hops(setup: &mut Setup, hops: u8) {
    if setup.message.len() > 3 {
        setup.message[3] = hops;
    }
}

/// Faults of Requests alone.
const REQUEST: [SetupFault; 8] = [
    ("TTL 254", 15, true, |s| s.ttl = 254),
    ("TTL 0", 15, false, |s| s.ttl = 0),
    ("TTL 256", 15, false, |s| s.ttl = 256),
    ("TTL 511", 15, true, |s| s.ttl = 511),
    ("TTL 2^32 - 1", 15, false, |s| s.ttl = u32::MAX),
    ("hops 2 of 2 blocks", 16, true, |s| hops(s, 2)),
    ("hops 1 of 2 blocks", 16, true, |s| hops(s, 1)),
    ("hops 2, TTL 255", 16, false, |s| {
        hops(s, 2);
        s.ttl = 255;
    }),
];
