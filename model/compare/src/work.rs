//! Pieces of work to measure: calls that every side answers on the same bytes, and differences of such calls.

use crate::cases::Step;
use crate::sides::Side;
use crate::yards::Walk;
use fast::alone;
use fast::engine::Arrival;
use fast::walk::Start;
use model::build::{ip, mend_all, standard, standard_with, Header, InterfaceEntry, RouteEntry, SheetPlan};
use model::recent::{Entry, Recent};
use model::reply::Fields;
use model::worked;
use std::hint::black_box;

const GROUP: u32 = ip(232, 1, 1, 1);
const SOURCE: u32 = ip(203, 0, 113, 9);
const HERE: u32 = ip(10, 7, 0, 1);
const ALL_SYSTEMS: u32 = ip(224, 0, 0, 1);

/// A call of an entry, with all that it is handed.
#[derive(Clone)]
pub enum Call {
    ClockStart(u64),
    ClockAdvance(u64, u64, u64),
    ClockUnix(u64, u64),
    ClockArrival(u64),
    Step(Step),
    Walk(Walk),
    CheckReply(Vec<u8>),
    /// Checked, and all its blocks asked for one by one, as a C caller does.
    ReadReply(Vec<u8>),
    Loss([Vec<u8>; 2]),
    /// A part of a step by itself, which `fast` alone can show.
    CheckSheet(Vec<u8>),
    ChooseRoute(Vec<u8>),
    CheckRecent([u8; 196]),
    SearchRecent([u8; 196]),
}

impl Call {
    pub fn is_of_the_clock(&self) -> bool {
        use Call::{ClockAdvance, ClockArrival, ClockStart, ClockUnix};
        matches!(self, ClockStart(_) | ClockAdvance(..) | ClockUnix(..) | ClockArrival(_))
    }

    /// So many turns of it, each with the same input, and the last answer.
    pub fn run(&self, side: &Side, turns: u64) -> u64 {
        let mut lent = Lent { output: [0; 1472], recent: [0; 196], small: [0; 24] };
        let out = &mut lent.small;
        match self {
            Call::ClockStart(reading) => repeat(turns, || (side.clock_start)(black_box(*reading), out).into()),
            Call::ClockAdvance(r, y, reading) => {
                repeat(turns, || (side.clock_advance)(*r, *y, black_box(*reading), out).into())
            }
            Call::ClockUnix(seconds, nanoseconds) => {
                repeat(turns, || (side.clock_unix)(black_box(*seconds), *nanoseconds))
            }
            Call::ClockArrival(y) => repeat(turns, || (side.clock_arrival)(black_box(*y)).into()),
            Call::Step(step) => lent.step(step, side, turns),
            Call::Walk(walk) => lent.walk(walk, side, turns),
            Call::CheckReply(reply) => repeat(turns, || (side.reply_check)(black_box(reply)).into()),
            Call::ReadReply(reply) => repeat(turns, || lent.read(black_box(reply), side)),
            Call::Loss([first, second]) => {
                repeat(turns, || (side.reply_loss)(black_box(first), second, &mut lent.output[..832]).into())
            }
            Call::CheckSheet(sheet) => repeat(turns, || alone::check_sheet(black_box(sheet)).is_some().into()),
            Call::ChooseRoute(sheet) => match alone::check_sheet(sheet) {
                Some(sheet) => repeat(turns, || alone::choose_route(&sheet, black_box(SOURCE), GROUP).into()),
                None => 0,
            },
            Call::CheckRecent(list) => repeat(turns, || alone::check_recent(black_box(list)).into()),
            Call::SearchRecent(list) => repeat(turns, || (!alone::search_recent(black_box(list), [0; 6])).into()),
        }
    }
}

/// What is lent to be written, always at the same place of a line of the cache, so that a copy into it takes the same steps.
#[repr(align(64))]
struct Lent {
    output: [u8; 1472],
    recent: [u8; 196],
    small: [u8; 24],
}

impl Lent {
    /// The one thing that a turn may leave changed is an empty recent list, whose first 10 bytes are put back after every
    /// step, by the same code for every side.
    fn step(&mut self, step: &Step, side: &Side, turns: u64) -> u64 {
        let (output, record) = (&mut self.output[..step.output], &mut self.small[..step.record]);
        let recent = &mut self.recent[..step.recent.len()];
        recent.copy_from_slice(&step.recent);
        repeat(turns, || {
            let message = black_box(&step.message[..]);
            let answer = (side.step)(message, step.arrival, &step.sheet, recent, output, record);
            if let (Some(now), Some(before)) = (recent.first_chunk_mut::<10>(), step.recent.first_chunk()) {
                *now = *before;
            }
            answer.into()
        })
    }

    fn walk(&mut self, walk: &Walk, side: &Side, turns: u64) -> u64 {
        let Walk { router, receiving, destination, ttl, .. } = *walk;
        let (output, answer) = (&mut self.output[..walk.output], &mut self.small[..walk.answer]);
        repeat(turns, || {
            let start = Start { message: black_box(&walk.message), router, receiving, destination, ttl };
            (side.walk)(&walk.yard, &walk.times, start, output, answer).into()
        })
    }

    /// The number of blocks.
    fn read(&mut self, reply: &[u8], side: &Side) -> u64 {
        if (side.reply_check)(reply) != 0 {
            return 0;
        }
        let (mut place, mut blocks) = (20, 0);
        loop {
            place = (side.reply_next)(reply, place, &mut self.output[..52]);
            if place == 0 {
                return blocks;
            }
            blocks += 1;
        }
    }
}

#[inline(always)]
fn repeat(turns: u64, mut turn: impl FnMut() -> u64) -> u64 {
    (0..turns).fold(0, |_, _| black_box(turn()))
}

/// A piece of work: a call, or calls less others. With each call the answer that is right.
pub struct Work {
    pub name: String,
    pub calls: Vec<(Call, u64)>,
    pub less: Vec<(Call, u64)>,
}

impl Work {
    fn new(name: impl Into<String>, call: Call, answer: u64) -> Work {
        Work { name: name.into(), calls: vec![(call, answer)], less: Vec::new() }
    }

    fn less(self, call: Call, answer: u64) -> Work {
        Work { less: [self.less, vec![(call, answer)]].concat(), ..self }
    }

    fn and(self, call: Call, answer: u64) -> Work {
        Work { calls: [self.calls, vec![(call, answer)]].concat(), ..self }
    }
}

// ---- what calls are handed ----------------------------------------------------------------------------

/// Routes of groups, the last of which is ours.
fn groups(count: usize) -> Vec<RouteEntry> {
    (0..count).rev().map(|n| RouteEntry::group(GROUP + n as u32).by(1, ip(10, 7, 1, 2), 1)).collect()
}

fn sheet(interfaces: usize, routes: Vec<RouteEntry>) -> Vec<u8> {
    let interfaces = (0..interfaces).map(|n| InterfaceEntry::new(HERE + ((n as u32) << 8), 24)).collect();
    SheetPlan { prohibited: false, interfaces, routes }.to_bytes()
}

/// A sheet of so many blocks: one of two interfaces, then full ones of routes.
fn blocks(count: usize) -> Vec<u8> {
    sheet(2, groups(9 * (count - 1)))
}

fn header(kind: u8) -> Header {
    let client = ip(10, 7, 0, 50);
    Header { kind, length: 20, hops: 255, group: GROUP, source: SOURCE, client, id: 1, port: 40_000 }
}

/// A Query, or a Request with so many blocks.
fn message(blocks: usize) -> Vec<u8> {
    header(if blocks == 0 { 1 } else { 2 }).with(&vec![standard(0); blocks])
}

/// A recent list of so many Queries, none of them ours.
fn recent(count: usize) -> Vec<u8> {
    let mut recent = Recent::default();
    (0..count).for_each(|n| recent.enter(Entry { client: ip(10, 7, 0, 100), id: n as u16 }));
    recent.to_bytes()
}

/// A step that is answered, if the message is.
fn step(message: Vec<u8>, sheet: Vec<u8>) -> Step {
    let arrival = Arrival { destination: HERE, receiving: 0, ttl: 255, time: 5 };
    Step { message, arrival, sheet, recent: recent(0), output: 1472, record: 16 }
}

fn arriving(step: Step, change: impl Fn(&mut Arrival)) -> Step {
    let mut arrival = step.arrival;
    change(&mut arrival);
    Step { arrival, ..step }
}

/// A Query of a client elsewhere, to a group of the link: dropped by 18 where no route leads to the client.
fn from_elsewhere(sheet: Vec<u8>) -> Step {
    let query = Header { client: ip(10, 9, 0, 50), ..header(1) }.to_bytes();
    arriving(step(query, sheet), |arrival| arrival.destination = ALL_SYSTEMS)
}

/// The sheet with a wrong sum in one block.
fn wrong_at(mut sheet: Vec<u8>, block: usize) -> Vec<u8> {
    sheet[512 * block + 511] ^= 1;
    sheet
}

// ---- the works ------------------------------------------------------------------------------------------

/// Dropped by 2 for the first bytes of a full list, which has nothing else to be checked, and handed no sheet.
fn by_2() -> Call {
    let mut list = recent(32);
    list[1] = 255;
    Call::Step(Step { recent: list, ..step(message(0), Vec::new()) })
}

/// A step with a full list that is dropped by 4, behind the sheet's check, less one that is dropped by 2, before it.
fn checking(name: &str, sheet: Vec<u8>) -> Work {
    let by_4 = arriving(Step { recent: recent(32), ..step(message(0), sheet) }, |arrival| arrival.receiving = 64);
    Work::new(format!("sheet check, {name}"), Call::Step(by_4), 4).less(by_2(), 2)
}

fn checks() -> Vec<Work> {
    let source = |n: usize| RouteEntry::source_and_group(ip(10, n as u8, 0, 0), 16, GROUP).by(1, ip(10, 7, 1, 2), 1);
    let mixed = |n: usize| match n % 3 {
        0 => source(n),
        1 => RouteEntry::group(GROUP).by(1, ip(10, 7, 1, 2), 1),
        _ => RouteEntry::source_only(ip(10, n as u8, 0, 0), 16).by(1, 0, 1),
    };
    vec![
        checking("1 block (17 interfaces)", sheet(17, Vec::new())),
        checking("1 block (18 interfaces)", sheet(18, Vec::new())),
        checking("2 blocks (2 interfaces, 9 routes)", blocks(2)),
        checking("2 blocks (18 interfaces, 9 routes)", sheet(18, groups(9))),
        checking("4 blocks (18 interfaces, 27 routes)", sheet(18, groups(27))),
        checking("16 blocks (2 interfaces, 135 routes)", blocks(16)),
        checking("16 blocks (54 interfaces, 117 routes)", sheet(54, groups(117))),
        checking("16 blocks (2 interfaces, 135 routes of all kinds)", sheet(2, (0..135).map(mixed).collect())),
    ]
}

fn steps() -> Vec<Work> {
    let mut works = Vec::new();
    for sheets in [2, 16] {
        for count in [0, 1, 10, 27] {
            let (what, answer) = match count {
                0 => ("Query".to_string(), 100),
                1 => ("1 block".to_string(), 100),
                27 => ("27 blocks (full)".to_string(), 101),
                _ => (format!("{count} blocks"), 100),
            };
            let call = Call::Step(step(message(count), blocks(sheets)));
            works.push(Work::new(format!("step: {what}, sheet of {sheets}"), call, answer));
        }
    }
    works
}

/// Rows 14 to 18 are tried behind the message's check (13), and 18 behind the choice: a Query dropped by 18 less one dropped by
/// 13 is what they cost, with the choice among these routes. Less the same on a sheet without routes, the choice is left,
/// beyond that of nothing. No route forwards anywhere, so that the last hop costs nothing either way.
fn choosing(name: &str, routes: Vec<RouteEntry>) -> Work {
    let by_18 = |routes: &[RouteEntry]| from_elsewhere(sheet(2, routes.to_vec()));
    let by_13 = |routes: &[RouteEntry]| {
        let mut step = by_18(routes);
        step.message.push(0);
        Call::Step(step)
    };
    let routes: Vec<_> = routes.into_iter().map(|route| RouteEntry { forward: 0, ..route }).collect();
    Work::new(format!("route choice, {name}"), Call::Step(by_18(&routes)), 18)
        .less(by_13(&routes), 13)
        .less(Call::Step(by_18(&[])), 18)
        .and(by_13(&[]), 13)
}

fn choices() -> Vec<Work> {
    let ours = |n: usize| RouteEntry::source_and_group(SOURCE >> 8 << 8, 24 + (n / 45) as u8, GROUP);
    let beside = |n: usize| RouteEntry::source_and_group(SOURCE >> 8 << 8 ^ 1 << 8, 24 + (n / 45) as u8, GROUP);
    let mut works: Vec<_> =
        [1, 9, 45, 135].map(|count| choosing(&format!("{count} routes of groups, ours last"), groups(count))).into();
    for count in [9, 135] {
        let of = |route: &dyn Fn(usize) -> RouteEntry| (0..count).map(route).collect();
        works.push(choosing(&format!("{count} routes of our source and group"), of(&ours)));
        works.push(choosing(&format!("{count} routes of our group and another source"), of(&beside)));
    }
    works
}

/// The check of a full list, of which only the first bytes are checked: a step that is dropped by 2 for them less one that is
/// dropped by 2 for a list without a byte. Of other lists what more they cost comes to it, in steps that are dropped by 3
/// for a sheet without a byte. The search: rows 14 to 18 as in [`choosing`], without routes, less the same with an empty list.
fn lists() -> Vec<Work> {
    let without_sheet = |recent| Call::Step(Step { recent, ..step(message(0), Vec::new()) });
    let by_18 = |count| Step { recent: recent(count), ..from_elsewhere(sheet(2, Vec::new())) };
    let by_13 = |count| {
        let mut step = by_18(count);
        step.message.push(0);
        Call::Step(step)
    };
    let mut works = Vec::new();
    for (name, count) in [("empty", 0), ("half full", 16), ("full", 32)] {
        let full = Work::new(format!("recent list, {name}: checked"), by_2(), 2).less(without_sheet(Vec::new()), 2);
        works.push(full.and(without_sheet(recent(count)), 3).less(without_sheet(recent(32)), 3));
    }
    for (name, count) in [("half full", 16), ("full", 32)] {
        let work =
            Work::new(format!("recent list, {name}: searched, beyond an empty one"), Call::Step(by_18(count)), 18);
        works.push(work.less(by_13(count), 13).less(Call::Step(by_18(0)), 18).and(by_13(0), 13));
    }
    works
}

fn dropped(number: u64, what: &str, sheets: usize, step: Step) -> Work {
    Work::new(format!("dropped by {number} ({what}), sheet of {sheets}"), Call::Step(step), number)
}

/// Drops that a sheet of 16 blocks is beside too.
fn early_drops() -> Vec<Work> {
    let mut works = Vec::new();
    for sheets in [2, 16] {
        let right = step(message(0), blocks(sheets));
        works.push(dropped(1, "output of 1471", sheets, Step { output: 1471, ..right.clone() }));
        let mut list = recent(0);
        list[195] = 1;
        works.push(dropped(2, "last byte of the list", sheets, Step { recent: list, ..right }));
        for (what, block) in [("first block", 0), ("last block", sheets - 1)] {
            works.push(dropped(3, what, sheets, step(message(0), wrong_at(blocks(sheets), block))));
        }
    }
    works
}

/// Drops 4 to 18.
fn late_drops() -> Vec<Work> {
    let query = |header: Header| step(header.to_bytes(), blocks(2));
    let with = |message: Vec<u8>| step(message, blocks(2));
    let right = header(1);
    let request = || with(message(10));
    let mut garbage: Vec<u8> = (0..1472_u32).map(|n| ((n * n) >> 3) as u8).collect();
    garbage[0] = 0x47;
    let mut seen = Recent::default();
    seen.enter(Entry { client: right.client, id: right.id });
    let list = [
        (4, "no such interface", arriving(query(right), |arrival| arrival.receiving = 64)),
        (5, "19 bytes", with(message(0)[..19].to_vec())),
        (6, "a Reply", with(Header { kind: 3, ..right }.with(&[standard(0)]))),
        (6, "1472 bytes of garbage", with(garbage)),
        (7, "header length", query(Header { length: 21, ..right })),
        (8, "hops 0", query(Header { hops: 0, ..right })),
        (9, "group", query(Header { group: HERE, ..right })),
        (10, "source", query(Header { source: ip(127, 0, 0, 1), ..right })),
        (11, "neither group nor source", query(Header { group: u32::MAX, source: u32::MAX, ..right })),
        (12, "port 0", query(Header { port: 0, ..right })),
        (13, "a byte behind a Query", with([message(0), vec![0]].concat())),
        (13, "a byte behind 27 blocks", with([message(27), vec![0]].concat())),
        (14, "sent elsewhere", arriving(query(right), |arrival| arrival.destination = ip(10, 9, 9, 9))),
        (15, "TTL 254, 10 blocks", arriving(request(), |arrival| arrival.ttl = 254)),
        (16, "10 blocks, 10 hops", with(Header { hops: 10, ..header(2) }.with(&vec![standard(0); 10]))),
        (17, "seen before", Step { recent: seen.to_bytes(), ..query(right) }),
        (18, "not the last hop", from_elsewhere(blocks(2))),
    ];
    list.map(|(number, what, step)| dropped(number, what, 2, step)).into()
}

/// A Reply of as many blocks as there can be, with these counts.
fn reply(count: u64) -> Vec<u8> {
    let fields = Fields { input: count, output: 2 * count, ..Fields::default() };
    header(3).with(&vec![standard_with(fields); 27])
}

fn replies() -> Vec<Work> {
    vec![
        Work::new("a Reply of 27 blocks checked", Call::CheckReply(reply(5)), 0),
        Work::new("a Reply of 27 blocks read whole", Call::ReadReply(reply(5)), 27),
        Work::new("the loss of two Replies of 27 blocks", Call::Loss([reply(5), reply(9)]), 0),
    ]
}

fn clocks() -> Vec<Work> {
    let second = 1 << 16;
    let now = 3_900_000_000 << 16;
    vec![
        Work::new("clock: start", Call::ClockStart(now), 0),
        Work::new("clock: advance", Call::ClockAdvance(now, now + 9, now + second), 0),
        Work::new("clock: advance, the reading stood", Call::ClockAdvance(now, now + 9, now), 0),
        Work::new("clock: UNIX time", Call::ClockUnix(0, 999_999_999), (2_208_988_800 << 16) + 65_535),
        Work::new("clock: arrival", Call::ClockArrival((7 << 32) + 5), 5),
    ]
}

/// Routers in a ring: each sends on to the next, and the last to the first.
fn ring(routers: u8) -> Vec<u8> {
    let router = |number: u8| {
        let interfaces = [0, 1].map(|net| InterfaceEntry::new(ip(10, number, net, 1), 24)).to_vec();
        let routes = vec![RouteEntry::group(GROUP).by(1, ip(10, (number + 1) % routers, 0, 1), 1)];
        SheetPlan { prohibited: false, interfaces, routes }.to_bytes()
    };
    (0..routers).flat_map(router).collect()
}

fn walking(name: &str, yard: Vec<u8>, message: Vec<u8>, destination: u32, end: u64) -> Work {
    let (times, ttl, output, answer) = (vec![5; 32], 64, 1472, 16);
    let walk = Walk { yard, times, message, router: 0, receiving: 0, destination, ttl, output, answer };
    Work::new(format!("walk: {name}"), Call::Walk(walk), end)
}

fn walks() -> Vec<Work> {
    let to_the_ring = Header { client: ip(10, 0, 0, 50), ..header(1) }.to_bytes();
    let ringing = |name: &str, yard, end| walking(name, yard, to_the_ring.clone(), ip(10, 0, 0, 1), end);
    let of_two = |name: &str, upstream, hops| {
        walking(name, worked::yard(upstream), worked::query(hops), worked::DESTINATION, 101)
    };
    let mut bad = ring(32);
    bad[4] = 0; // the first address
    mend_all(&mut bad);
    vec![
        of_two("P1, 2 steps", 0, 10),
        of_two("P3, 28 steps", ip(198, 51, 100, 1), 255),
        ringing("ring of 32, 28 steps", ring(32), 101),
        ringing("32 routers, the first sheet bad", bad, 21),
        ringing("32 routers, the last sheet bad", wrong_at(ring(32), 63), 21),
    ]
}

/// What every side does.
pub fn all() -> Vec<Work> {
    let works = [checks(), steps(), choices(), lists(), early_drops(), late_drops(), walks(), replies(), clocks()];
    works.into_iter().flatten().collect()
}

/// Parts of a step that `fast` shows by themselves: the differences of calls above should come near them.
pub fn parts() -> Vec<Work> {
    let list = |count| recent(count).try_into().expect("196 bytes");
    let mut works = Vec::new();
    for (name, sheet) in
        [("1 block (17 interfaces)", sheet(17, Vec::new())), ("2 blocks", blocks(2)), ("16 blocks", blocks(16))]
    {
        works.push(Work::new(format!("sheet check, {name}"), Call::CheckSheet(sheet), 1));
    }
    for count in [1, 9, 45, 135] {
        works.push(Work::new(format!("route choice, {count} routes"), Call::ChooseRoute(sheet(2, groups(count))), 1));
    }
    for (name, count) in [("empty", 0), ("half full", 16), ("full", 32)] {
        works.push(Work::new(format!("recent list, {name}: checked"), Call::CheckRecent(list(count)), 1));
        works.push(Work::new(format!("recent list, {name}: searched"), Call::SearchRecent(list(count)), 1));
    }
    works
}
