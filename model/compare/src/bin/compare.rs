//! Compares the library's entries, and the package `fast`, with the model on random cases:
//!
//!     compare clock|engine|walk|reply CASES SEED [exact]
//!     compare seeds CASES SEED FOLDER
//!
//! Every lent buffer has noise in it and guard bytes round it; number, buffers and guards must come out
//! the same. `exact` leaves the guards out, for a tool that watches the heap. Prints how often each
//! number, each forwarding code and each verdict on a link was met. Exit status 1 at the first difference, which is printed.
//! `seeds` writes cases as inputs of the fuzz target instead.

use compare::cases::{Router, Step};
use compare::lent::{Guard, Lent};
use compare::replies::{self, Replies};
use compare::sides::{Side, FAST, LIBRARY, MODEL};
use compare::yards::{self, Walk};
use fast::walk::Start;
use model::bytes::be32;
use model::clock::LIMIT;
use model::engine::{REPLIED, SENT_ON};
use model::message::{blocks, BlockType};
use model::reply::read;
use model::rng::Rng;
use std::collections::BTreeMap;
use std::path::Path;
use std::process::exit;
use std::{fs, io};

/// What is compared with the model.
const COMPARED: [Side; 2] = [LIBRARY, FAST];

/// How often each thing was met.
#[derive(Default)]
struct Met(BTreeMap<(&'static str, u64), u64>);

impl Met {
    fn count(&mut self, what: &'static str, number: u64) {
        *self.0.entry((what, number)).or_default() += 1;
    }

    fn print(&self) {
        for ((what, number), times) in &self.0 {
            println!("{what} {number} met {times}");
        }
    }
}

/// What the model answers to a call, and what it leaves of what was lent. The library and `fast` must do the same.
fn compared<Lends: Clone + PartialEq>(
    lends: &Lends,
    call: impl Fn(&Side, &mut Lends) -> u64,
    told: impl Fn() -> String,
) -> (u64, Lends) {
    let mut left = lends.clone();
    let expected = call(&MODEL, &mut left);
    for side in COMPARED {
        let mut lent = lends.clone();
        let number = call(&side, &mut lent);
        if number != expected || lent != left {
            let how = if number == expected { "the lent bytes differ" } else { "the numbers differ" };
            println!("difference: {}: {} answers {number}, the model {expected}; {how}", told(), side.name);
            exit(1);
        }
    }
    (expected, left)
}

// ---- clock ----------------------------------------------------------------------------------------

/// Numbers at and round the edges of the clock's range, and others.
fn time(rng: &mut Rng) -> u64 {
    match rng.below(5) {
        0 => rng.pick(&[0, 1, LIMIT - 2, LIMIT - 1, LIMIT, LIMIT + 1, u64::MAX]),
        1 => rng.below(3000),
        2 => LIMIT - rng.below(3000),
        3 => rng.below(LIMIT + 1),
        _ => rng.draw(),
    }
}

/// A clock's r and y, and a reading. Half of the leads are small, and half of the readings fell, stood or rose by a little.
fn clock_numbers(rng: &mut Rng) -> [u64; 3] {
    let (a, b) = (time(rng), time(rng));
    let (r, y) = match rng.below(4) {
        0 => (a, b),
        1 => (a.min(b), a.max(b)),
        2 => (a.saturating_sub(rng.below(12)), a),
        _ => {
            let y = LIMIT - rng.below(4);
            (y - rng.below(12), y)
        }
    };
    let reading = if rng.one_in(2) { time(rng) } else { r.saturating_add(rng.below(7)).saturating_sub(3) };
    [r, y, reading]
}

fn clock_case(rng: &mut Rng, guard: Guard, met: &mut Met) {
    let [r, y, reading] = clock_numbers(rng);
    let length = if rng.one_in(8) { rng.below(50) as usize } else { 24 };
    let start = rng.one_in(4);
    let call = |side: &Side, out: &mut Lent| match start {
        true => u64::from((side.clock_start)(reading, out.slice())),
        false => u64::from((side.clock_advance)(r, y, reading, out.slice())),
    };
    let told = || format!("start {start} r {r} y {y} reading {reading} room {length}");
    let (number, _) = compared(&Lent::noise(length, guard, rng), call, told);
    met.count(if start { "start" } else { "advance" }, number);

    let any = [rng.draw(), rng.draw()];
    let seconds = rng.pick(&[0, 1, 2_085_978_494, 2_085_978_495, 2_085_978_496, any[0], any[0] % 2_085_978_496]);
    let nanoseconds = rng.pick(&[0, 999_999_999, 1_000_000_000, any[1], any[1] % 1_000_000_000]);
    let unix = |side: &Side, (): &mut ()| (side.clock_unix)(seconds, nanoseconds);
    let (units, ()) = compared(&(), unix, || format!("unix {seconds} {nanoseconds}"));
    met.count("unix refused", u64::from(units == 0));
    compared(&(), |side, ()| u64::from((side.clock_arrival)(y)), || format!("arrival {y}"));
}

// ---- engine ---------------------------------------------------------------------------------------

/// The code in the last type 4 block of what was sent.
fn code_sent(output: &[u8], record: &[u8]) -> u64 {
    let length = usize::from(record[0]) * 256 + usize::from(record[1]);
    let sent = blocks(&output[..length]).expect("a message sent is well-formed");
    let last = sent.iter().rfind(|block| block.kind == BlockType::Standard).expect("it has a type 4 block");
    u64::from(output[last.at + 51])
}

fn engine_case(step: &Step, rng: &mut Rng, guard: Guard, met: &mut Met) {
    let lends = [
        Lent::of(&step.message, guard, rng),
        Lent::of(&step.sheet, guard, rng),
        Lent::of(&step.recent, guard, rng),
        Lent::noise(step.output, guard, rng),
        Lent::noise(step.record, guard, rng),
    ];
    let call = |side: &Side, lends: &mut [Lent; 5]| {
        let [message, sheet, recent, output, record] = lends.each_mut().map(Lent::slice);
        u64::from((side.step)(message, step.arrival, sheet, recent, output, record))
    };
    let (number, mut left) = compared(&lends, call, || format!("{step:?}"));
    met.count("answer", number);
    if number >= u64::from(SENT_ON) {
        let [.., output, record] = left.each_mut().map(Lent::slice);
        met.count("code", code_sent(output, record));
    }
}

/// Several messages to one router, and so on.
fn engine_cases(cases: u64, rng: &mut Rng, guard: Guard, met: &mut Met) {
    let mut done = 0;
    while done < cases {
        let router = Router::random(rng);
        for _ in 0..8.min(cases - done) {
            engine_case(&router.step(rng), rng, guard, met);
            done += 1;
        }
    }
}

// ---- walk -----------------------------------------------------------------------------------------

fn walk_case(walk: &Walk, rng: &mut Rng, guard: Guard, met: &mut Met) {
    let lends = [
        Lent::of(&walk.yard, guard, rng),
        Lent::of(&walk.message, guard, rng),
        Lent::noise(walk.output, guard, rng),
        Lent::noise(walk.answer, guard, rng),
    ];
    let times = walk.times.clone().into_boxed_slice();
    let call = |side: &Side, lends: &mut [Lent; 4]| {
        let [yard, message, output, answer] = lends.each_mut().map(Lent::slice);
        let Walk { router, receiving, destination, ttl, .. } = *walk;
        u64::from((side.walk)(yard, &times, Start { message, router, receiving, destination, ttl }, output, answer))
    };
    let (end, mut left) = compared(&lends, call, || format!("{walk:?}"));
    met.count("end", end);
    if end >= u64::from(REPLIED) {
        met.count("steps", u64::from(be32(left[3].slice(), 4)));
    }
    if *times != walk.times[..] {
        println!("difference: {walk:?}: the times were changed");
        exit(1);
    }
}

// ---- reply ----------------------------------------------------------------------------------------

/// Both Replies checked, and of the first the block at a place and all from 20 on.
fn reader_case(replies: &Replies, rng: &mut Rng, guard: Guard, met: &mut Met) {
    let told = || format!("{replies:?}");
    for reply in [&replies.first, &replies.second] {
        let lent = Lent::of(reply, guard, rng);
        met.count("check", compared(&lent, |side, reply| u64::from((side.reply_check)(reply.slice())), told).0);
    }
    let lends = [Lent::of(&replies.first, guard, rng), Lent::noise(replies.block, guard, rng)];
    let next = |place: u32| {
        let call = |side: &Side, lends: &mut [Lent; 2]| {
            let [reply, block] = lends.each_mut().map(Lent::slice);
            u64::from((side.reply_next)(reply, place, block))
        };
        compared(&lends, call, || format!("next at {place}: {replies:?}")).0 as u32
    };
    met.count("next", u64::from(next(replies.place) != 0));
    let (mut place, mut blocks) = (next(20), 0);
    while place != 0 {
        (place, blocks) = (next(place), blocks + 1);
    }
    met.count("blocks read", blocks);
}

fn loss_case(replies: &Replies, rng: &mut Rng, guard: Guard, met: &mut Met) {
    let lends = [
        Lent::of(&replies.first, guard, rng),
        Lent::of(&replies.second, guard, rng),
        Lent::noise(replies.links, guard, rng),
    ];
    let call = |side: &Side, lends: &mut [Lent; 3]| {
        let [first, second, links] = lends.each_mut().map(Lent::slice);
        u64::from((side.reply_loss)(first, second, links))
    };
    let (number, mut left) = compared(&lends, call, || format!("{replies:?}"));
    met.count("loss", number);
    if number == 0 {
        let links = read(&replies.first).map_or(0, |blocks| blocks.len() - 1);
        left[2].slice().chunks(32).take(links).for_each(|link| met.count("verdict", link[0].into()));
    }
}

fn reply_case(replies: &Replies, rng: &mut Rng, guard: Guard, met: &mut Met) {
    reader_case(replies, rng, guard, met);
    loss_case(replies, rng, guard, met);
    let Replies { later, earlier, .. } = *replies;
    let difference = |side: &Side, (): &mut ()| u64::from((side.arrival_difference)(later, earlier) as u32);
    compared(&(), difference, || format!("difference {later} {earlier}"));
}

// ---- the fuzz target's inputs ---------------------------------------------------------------------

/// Its entry, numbers of 4 bytes, lengths of 2, then the slices.
fn seed(entry: u8, numbers: &[u32], lengths: &[usize], slices: &[&[u8]]) -> Vec<u8> {
    let mut bytes = vec![entry, 1];
    bytes.extend(numbers.iter().flat_map(|number| number.to_be_bytes()));
    bytes.extend(lengths.iter().flat_map(|length| (*length as u16).to_be_bytes()));
    slices.iter().for_each(|slice| bytes.extend(*slice));
    bytes
}

fn write_seeds(cases: u64, rng: &mut Rng, folder: &Path) -> io::Result<()> {
    for number in 0..cases {
        let Step { message, arrival, sheet, recent, output, record } = Router::random(rng).step(rng);
        let numbers = [arrival.destination, arrival.receiving, arrival.ttl, arrival.time];
        let lengths = [output, record, message.len(), recent.len()];
        if message.len() <= 2000 {
            fs::write(folder.join(format!("step{number}")), seed(0, &numbers, &lengths, &[&message, &recent, &sheet]))?;
        }
        let walk = yards::random(rng);
        let numbers = [walk.router, walk.receiving, walk.destination, walk.ttl];
        let lengths = [walk.output, walk.answer, walk.message.len(), walk.times.len()];
        let times: Vec<u8> = walk.times.iter().flat_map(|time| time.to_ne_bytes()).collect();
        fs::write(
            folder.join(format!("walk{number}")),
            seed(1, &numbers, &lengths, &[&walk.message, &times, &walk.yard]),
        )?;
        let numbers: Vec<u8> = clock_numbers(rng).into_iter().flat_map(u64::to_be_bytes).collect();
        fs::write(folder.join(format!("clock{number}")), seed(2, &[], &[], &[&[24], &numbers]))?;
        let Replies { first, second, place, block, links, later, earlier } = replies::random(rng);
        if first.len() <= 2000 {
            let lengths = [block, links, first.len()];
            fs::write(
                folder.join(format!("reply{number}")),
                seed(3, &[later, earlier, place], &lengths, &[&first, &second]),
            )?;
        }
    }
    Ok(())
}

fn main() {
    let words: Vec<String> = std::env::args().skip(1).collect();
    let number = |at: usize| words.get(at).and_then(|word| word.parse::<u64>().ok());
    let (Some(what), Some(cases), Some(seed)) = (words.first(), number(1), number(2)) else {
        eprintln!("usage: compare clock|engine|walk|reply CASES SEED [exact]");
        exit(2);
    };
    let guard = Guard(if words.get(3).is_some_and(|word| word == "exact") { 0 } else { 64 });
    let mut rng = Rng::new(seed);
    let mut met = Met::default();
    match what.as_str() {
        "clock" => (0..cases).for_each(|_| clock_case(&mut rng, guard, &mut met)),
        "engine" => engine_cases(cases, &mut rng, guard, &mut met),
        "walk" => (0..cases).for_each(|_| walk_case(&yards::random(&mut rng), &mut rng, guard, &mut met)),
        "reply" => (0..cases).for_each(|_| reply_case(&replies::random(&mut rng), &mut rng, guard, &mut met)),
        "seeds" => {
            let folder = words.get(3).map_or(Path::new("."), Path::new);
            if let Err(error) = write_seeds(cases, &mut rng, folder) {
                eprintln!("compare: {}: {error}", folder.display());
                exit(2);
            }
            return;
        }
        _ => {
            eprintln!("compare: {what} is none of clock, engine, walk, reply and seeds");
            exit(2);
        }
    }
    met.print();
    println!("{what}: {cases} cases, seed {seed}, library and fast compared with the model, no difference");
}
