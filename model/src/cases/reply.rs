//! The cases of Replies: the reader, the loss between two, and the entries that C calls for both. Area 1 holds the first
//! Reply, area 2 the second, area 3 what is written. Numbers stand at these bytes of a command, 4 bytes each:
//!
//! - 4 checks: the first Reply's length at 4. `label -> number`.
//! - 5 asks for the next block: the first Reply's length at 4, the place at 8, how much of area 3 is lent at 12. `label ->
//!   answer digest`, of all of area 3.
//! - 6 asks for the loss: the first Reply's length at 4, the second's at 8, how much of area 3 is lent at 12. `label ->
//!   number digest`.
//! - 7 asks for the difference of two arrival times: the later at 4, the earlier at 8. `label -> difference`, as the unsigned
//!   number of its 32 bits.
//! - 8 reads the first Reply whole, its length at 4. `label -> number`; of one that is read then a line for each block that is
//!   handed out, ` block time incoming outgoing upstream input output total routing multicast ttl s mask code`, and behind the
//!   last ` none none none`, for three calls more.
//! - 9 asks for the loss's links: the first Reply's length at 4, the second's at 8. `label -> number`; of a path then a line
//!   for each link, ` link sent received lost`, ` link not counted`, ` link fallen` or ` link surplus`.

use super::faults::{self, header, Fault};
use super::places::{assert_told, fillings};
use super::tape::{digest, noise, Area, Tape};
use crate::build::{augmented, ip, standard, standard_with};
use crate::entries::{reply_check, reply_loss, reply_next};
use crate::message::{HEADER, STANDARD};
use crate::reply::{arrival_difference, loss, read, Fields, Link};
use crate::rng::Rng;
use std::collections::BTreeSet;

const CHECK: u8 = 4;
const NEXT: u8 = 5;
const LOSS: u8 = 6;
const DIFFERENCE: u8 = 7;
const READ: u8 = 8;
const LINKS: u8 = 9;

/// Room for a length that would pass if it were cut to 16 bits.
const FIRST: usize = 65_600;
const SECOND: usize = 1600;
const WRITTEN: usize = 900;
/// The least that links are lent.
const LENT: usize = 832;
/// The most type 4 blocks that a Reply has.
const MOST: usize = 27;
/// All ones, and the largest count.
const NONE: u64 = u64::MAX;
const LAST: u64 = u64::MAX - 1;

pub fn tape() -> Tape {
    let mut cases = Cases {
        tape: Tape::default(),
        first: Area::new(1, FIRST),
        second: Area::new(2, SECOND),
        written: Area::new(3, WRITTEN),
        met: BTreeSet::new(),
    };
    cases.faults();
    cases.pairs_of_faults();
    cases.lengths();
    cases.truncations();
    cases.heads();
    cases.small_blocks();
    cases.fields();
    cases.many_blocks();
    cases.places();
    cases.blocks_inside_blocks();
    cases.lent_for_a_block();
    cases.refused_blocks();
    cases.places_of_a_loss();
    cases.counts_of_links();
    cases.edges_of_links();
    cases.counts_that_play_no_part();
    cases.augmented_on_a_path();
    cases.paths_that_differ();
    cases.what_may_differ();
    cases.lent_for_links();
    cases.refused_losses();
    cases.differences(&mut Rng::new(61));
    cases.random_replies(&mut Rng::new(62));
    cases.random_losses(&mut Rng::new(63));
    cases.table();
    cases.tape
}

struct Cases {
    tape: Tape,
    first: Area,
    second: Area,
    written: Area,
    /// The commands, and the numbers that each was answered by.
    met: BTreeSet<(u8, u32)>,
}

/// A Reply that keeps every rule, with blocks of both types.
fn reply() -> Vec<u8> {
    let mut reply = faults::request();
    reply[0] = 3;
    reply
}

/// It, and zeros up to the end of its area.
fn long() -> Vec<u8> {
    let mut reply = reply();
    reply.resize(FIRST, 0);
    reply
}

fn broken(fault: &Fault) -> Vec<u8> {
    let mut reply = reply();
    (fault.make)(&mut reply);
    reply
}

/// A few faults of each number, in the order that the numbers are tried.
fn few_faults() -> Vec<Fault> {
    let names = [
        "19 bytes",
        "1473 bytes",
        "type 2",
        "type 255",
        "length 21",
        "length 276",
        "no block",
        "one byte more",
        "a byte short",
        "first block of type 5",
    ];
    let named = |name| faults::of_a_reply().find(|fault| fault.name == name).expect("a fault's name");
    names.map(named).into()
}

/// Where the blocks of [`mixed`] start, the last of which has no type 4 block behind it.
const STARTS: [u32; 7] = [20, 72, 80, 132, 144, 152, 204];

/// Blocks of both types: an Augmented one alone, two together, and a last one.
fn mixed() -> Vec<u8> {
    header(3).with(&[
        standard(0xb1),
        augmented(8, 0xb2),
        standard(0xb3),
        augmented(12, 0xb4),
        augmented(8, 4),
        standard(0xb5),
        augmented(8, 5),
    ])
}

/// The fields of a path's block, each block another.
fn block(place: usize) -> Fields {
    let place = place as u32;
    Fields {
        time: 0x1020_3040 + place,
        incoming: ip(198, 51, 100, 1) + place,
        outgoing: ip(192, 0, 2, 1) + (place << 8),
        upstream: ip(203, 0, 113, 1) + (place << 16),
        input: 1000 + u64::from(place),
        output: 5000 + u64::from(place),
        total: 9000 + u64::from(place),
        protocol: 100 + place as u16,
        multicast: 200 + place as u16,
        ttl: 10 + place as u8,
        s: place % 2 == 1,
        mask: 24 + place as u8,
        code: place as u8,
    }
}

fn path(blocks: usize) -> Vec<Fields> {
    (0..blocks).map(block).collect()
}

fn of(blocks: &[Fields]) -> Vec<u8> {
    header(3).with(&blocks.iter().copied().map(standard_with).collect::<Vec<_>>())
}

/// The counts of a link: output at its beginning, input at its end, each in the first Reply and in the second.
type Counts = [[u64; 2]; 2];

/// Two Replies over a path of links with these counts.
fn over(links: &[Counts]) -> [Vec<u8>; 2] {
    [0, 1].map(|which| {
        let mut blocks = path(links.len() + 1);
        for (place, [output, input]) in links.iter().enumerate() {
            blocks[place].input = input[which];
            blocks[place + 1].output = output[which];
        }
        of(&blocks)
    })
}

/// Three blocks whose counts rise, so that both links are counted and each link's numbers are its own.
fn rising() -> [Vec<u8>; 2] {
    over(&[[[0x0102, 0x0c0b], [0x0304, 0x0809]], [[0x1112, 0x1a1f], [0x1213, 0x1618]]])
}

// Calls: the areas made ready, the command, the line.
impl Cases {
    fn answered(&mut self, operation: u8, number: u32, rest: &str) -> u32 {
        self.met.insert((operation, number));
        self.tape.line(format!(" -> {number}{rest}"));
        number
    }

    fn check_first(&mut self, label: &str, length: usize) -> u32 {
        self.tape.label(label);
        self.tape.fields(CHECK, &[(4, 4, length as u64)]);
        let number = reply_check(&self.first.bytes[..length]);
        self.answered(CHECK, number, "")
    }

    fn check(&mut self, label: &str, reply: &[u8]) -> u32 {
        self.tape.set(&mut self.first, reply);
        self.check_first(label, reply.len())
    }

    fn read(&mut self, label: &str, reply: &[u8]) -> u32 {
        self.tape.set(&mut self.first, reply);
        self.tape.label(label);
        self.tape.fields(READ, &[(4, 4, reply.len() as u64)]);
        let blocks = match read(reply) {
            Ok(blocks) => blocks,
            Err(refusal) => return self.answered(READ, refusal.number(), ""),
        };
        self.answered(READ, 0, "");
        blocks.iter().for_each(|block| self.tape.line(block_line(block)));
        self.tape.line(" none none none".to_string());
        0
    }

    /// What is written by a call is noise before it.
    fn make_noise(&mut self) {
        self.tape.set(&mut self.written, &noise::<WRITTEN>(59));
    }

    /// Of the Reply that stands in area 1.
    fn next(&mut self, label: &str, length: usize, place: u32, lent: usize) -> u32 {
        self.make_noise();
        self.tape.label(label);
        self.tape.fields(NEXT, &[(4, 4, length as u64), (8, 4, place.into()), (12, 4, lent as u64)]);
        let behind = reply_next(&self.first.bytes[..length], place, &mut self.written.bytes[..lent]);
        self.met.insert((NEXT, behind.min(1)));
        self.tape.line(format!(" -> {behind} {}", digest(&self.written.bytes)));
        behind
    }

    fn lend(&mut self, [first, second]: [&[u8]; 2]) {
        self.tape.set(&mut self.first, first);
        self.tape.set(&mut self.second, second);
    }

    fn loss(&mut self, label: &str, replies: [&[u8]; 2], lent: usize) -> u32 {
        self.lend(replies);
        self.make_noise();
        self.tape.label(label);
        let [first, second] = replies.map(<[u8]>::len);
        self.tape.fields(LOSS, &[(4, 4, first as u64), (8, 4, second as u64), (12, 4, lent as u64)]);
        let number = reply_loss(replies[0], replies[1], &mut self.written.bytes[..lent]);
        let rest = format!(" {}", digest(&self.written.bytes));
        self.answered(LOSS, number, &rest)
    }

    fn links(&mut self, label: &str, replies: [&[u8]; 2]) -> u32 {
        self.lend(replies);
        self.tape.label(label);
        let [first, second] = replies.map(<[u8]>::len);
        self.tape.fields(LINKS, &[(4, 4, first as u64), (8, 4, second as u64)]);
        let links = match loss(replies[0], replies[1]) {
            Ok(links) => links,
            Err(refusal) => return self.answered(LINKS, refusal.number(), ""),
        };
        self.answered(LINKS, 0, "");
        links.iter().for_each(|link| self.tape.line(link_line(link)));
        0
    }

    /// By the entry, and by the links themselves.
    fn both(&mut self, label: &str, replies: [&[u8]; 2]) -> u32 {
        self.loss(label, replies, LENT);
        self.links("links", replies)
    }

    fn difference(&mut self, later: u32, earlier: u32) -> u32 {
        self.tape.label(&format!("{later} - {earlier}"));
        self.tape.fields(DIFFERENCE, &[(4, 4, later.into()), (8, 4, earlier.into())]);
        let difference = arrival_difference(later, earlier) as u32;
        self.tape.line(format!(" -> {difference}"));
        difference
    }
}

fn block_line(block: &Fields) -> String {
    let Fields { time, incoming, outgoing, upstream, input, output, total, protocol, multicast, ttl, s, mask, code } =
        block;
    let s = u8::from(*s);
    let counts = format!("{input} {output} {total}");
    format!(" block {time} {incoming} {outgoing} {upstream} {counts} {protocol} {multicast} {ttl} {s} {mask} {code}")
}

fn link_line(link: &Link) -> String {
    match link {
        Link::Counted { sent, received, lost } => format!(" link {sent} {received} {lost}"),
        Link::NotCounted => " link not counted".to_string(),
        Link::Fallen => " link fallen".to_string(),
        Link::Surplus => " link surplus".to_string(),
    }
}

// The reader.
impl Cases {
    /// Each alone, by check and by reader.
    fn faults(&mut self) {
        assert_eq!(self.check("reply", &reply()), 0);
        for fault in faults::of_a_reply() {
            assert_eq!(self.check(fault.name, &broken(&fault)), fault.number, "{}", fault.name);
            assert_eq!(self.read("read", &broken(&fault)), fault.number);
        }
    }

    fn pairs_of_faults(&mut self) {
        let faults = few_faults();
        for (place, first) in faults.iter().enumerate() {
            for second in faults[place..].iter().filter(|second| second.number != first.number) {
                let mut reply = broken(second);
                (first.make)(&mut reply);
                let label = format!("{}, {}", first.name, second.name);
                assert_eq!(self.check(&label, &reply), first.number, "{label}");
            }
        }
    }

    fn lengths(&mut self) {
        let full = header(3).with(&[standard(1), augmented(1400, 2)]);
        for (name, reply) in [("reply", full.clone()), ("request", [&[2], &full[1..]].concat())] {
            self.check(&format!("full {name}"), &reply);
            for length in [
                0, 1, 2, 3, 19, 20, 21, 22, 23, 24, 71, 72, 73, 74, 75, 76, 1424, 1471, 1473, 65_535, 65_536, 65_556,
                65_600,
            ] {
                self.check_first(&format!("first {length} of it"), length);
            }
        }
        for length in [1420, 1424, 1468, 1472, 1476] {
            let reply = header(3).with(&[standard(1), augmented(length - 72, 3)]);
            assert_eq!(self.check(&format!("reply of {length}"), &reply), if length > 1472 { 5 } else { 0 });
        }
        assert_eq!(self.read("long", &long()), 5);
        let small = vec![augmented(8, 4); 175];
        assert_eq!(self.read("175 small blocks", &header(3).with(&[standard(7), small.concat()])), 0);
    }

    /// Every length of a Reply with blocks of both types.
    fn truncations(&mut self) {
        let whole = mixed();
        assert_eq!(self.read("mixed", &whole), 0);
        for length in 0..whole.len() {
            self.check_first(&format!("cut to {length}"), length);
        }
    }

    /// Each block's type and length, of either type, made others.
    fn heads(&mut self) {
        let whole = mixed();
        for start in STARTS.map(|start| start as usize) {
            let (kind, length) = (whole[start], whole[start + 2]);
            for (at, value) in
                [(0, 9 - kind), (0, 6), (0, kind + 128), (1, 1), (2, 0), (2, length - 4), (2, length + 4)]
            {
                let mut reply = whole.clone();
                reply[start + at] = value;
                self.check(&format!("byte {} is {value}", start + at), &reply);
            }
        }
    }

    /// An Augmented block of each small length, between others.
    fn small_blocks(&mut self) {
        for length in 3..=16 {
            let reply = header(3).with(&[standard(1), augmented(length, 5), standard(2)]);
            let formed = length >= 8 && length % 4 == 0;
            assert_eq!(self.check(&format!("a block of {length}"), &reply) == 0, formed);
        }
    }

    /// Each field alone at its most, the fields that are always zero, and all in noise.
    fn fields(&mut self) {
        let none = Fields::default();
        let most = [
            Fields { time: u32::MAX, ..none },
            Fields { incoming: u32::MAX, ..none },
            Fields { outgoing: u32::MAX, ..none },
            Fields { upstream: u32::MAX, ..none },
            Fields { input: NONE, ..none },
            Fields { output: NONE, ..none },
            Fields { total: NONE, ..none },
            Fields { protocol: u16::MAX, ..none },
            Fields { multicast: u16::MAX, ..none },
            Fields { ttl: u8::MAX, ..none },
            Fields { s: true, ..none },
            Fields { mask: 127, ..none },
            Fields { code: u8::MAX, ..none },
        ];
        assert_eq!(self.read("each field at its most", &of(&most)), 0);
        let mut zeros = of(&[none, none]);
        (zeros[23], zeros[72 + 49]) = (255, 255);
        assert_eq!(self.read("zero fields", &zeros), 0);
        for place in [20, 72] {
            assert_ne!(self.next(&format!("zero fields at {place}"), zeros.len(), place, STANDARD), 0);
        }
        let mut reply = of(&[none; 4]);
        for (at, bytes) in reply[HEADER..].chunks_mut(STANDARD).enumerate() {
            bytes[3..].copy_from_slice(&noise::<49>(64 * at + 17));
        }
        assert_eq!(self.read("fields in noise", &reply), 0);
    }

    /// One block, as many as there can be, and with Augmented ones between and behind them.
    fn many_blocks(&mut self) {
        let whole: Vec<Vec<u8>> = path(MOST).into_iter().map(standard_with).collect();
        let small = augmented(8, 4);
        let replies = [
            ("1 block", header(3).with(&whole[..1])),
            ("27 blocks", header(3).with(&whole)),
            ("27 blocks and 48 bytes", header(3).with(&[whole.concat(), augmented(48, 4)])),
            ("27 blocks, 6 between", header(3).with(&[whole[..6].concat(), small.repeat(6), whole[6..].concat()])),
        ];
        for (name, reply) in replies {
            assert_eq!(self.read(name, &reply), 0);
            let mut place = 20;
            while place != 0 {
                place = self.next(&format!("next from {place}"), reply.len(), place, STANDARD);
            }
        }
    }

    /// The next block from every place, inside blocks and past the end too.
    fn places(&mut self) {
        let reply = mixed();
        self.check("mixed again", &reply);
        let last = reply.len() as u32;
        let far = [0, 20, 72, 132, last].into_iter().flat_map(|place| [65_536 + place, (1 << 31) + place]);
        let edge = [1, 4, 20, 32, 52, 72, 104, last].map(|back| 0_u32.wrapping_sub(back));
        for place in (0..=last + 4).chain(far).chain(edge) {
            let behind = self.next(&format!("next at {place}"), reply.len(), place, STANDARD);
            assert_eq!(behind != 0, STARTS[..6].contains(&place), "{place}");
        }
    }

    /// Bytes inside a block that look like blocks up to its end.
    fn blocks_inside_blocks(&mut self) {
        let (mut outer, mut last) = (augmented(60, 0), standard(7));
        outer[8..].copy_from_slice(&standard(9));
        last[44..].copy_from_slice(&augmented(8, 9));
        let reply = header(3).with(&[last.clone(), outer, last, augmented(8, 9)]);
        assert_eq!(self.read("blocks inside blocks", &reply), 0);
        for (place, behind) in [(20, 72), (64, 0), (72, 184), (80, 0), (132, 184), (176, 0), (184, 0)] {
            assert_eq!(self.next(&format!("next at {place}"), reply.len(), place, STANDARD), behind);
        }
    }

    fn lent_for_a_block(&mut self) {
        let reply = mixed();
        self.check("mixed", &reply);
        for lent in [0, 1, 51, 52, 53, 104, 900] {
            for place in [20, 72, STARTS[6]] {
                let behind = self.next(&format!("next at {place} into {lent}"), reply.len(), place, lent);
                assert_eq!(behind != 0, lent >= STANDARD && place != STARTS[6]);
            }
        }
        for length in [71, 72, 73, 80, 131, 132, 144, 151] {
            for place in [20, 72, 80] {
                self.next(&format!("next at {place} of {length}"), length, place, STANDARD);
            }
        }
    }

    /// A block that could be handed out, of a Reply that is not read.
    fn refused_blocks(&mut self) {
        for fault in faults::of_a_reply() {
            let reply = broken(&fault);
            self.tape.set(&mut self.first, &reply);
            let behind = self.next(fault.name, reply.len(), 20, STANDARD);
            assert_eq!(behind == 0, fault.number != 0, "{}", fault.name);
        }
        for length in [1473, 65_556, 65_600] {
            self.next(&format!("next of {length}"), length, 20, STANDARD);
        }
    }
}

// The loss.
impl Cases {
    fn places_of_a_loss(&mut self) {
        let replies = rising();
        let given = replies.each_ref().map(Vec::as_slice);
        assert_eq!(self.both("places", given), 0);
        let run = |places: [usize; 2]| format!("{:?}", loss(given[places[0]], given[places[1]]));
        assert_told(&run([0, 1]), fillings(), run);
    }

    /// As many links at a time as a Reply has.
    fn all_links(&mut self, name: &str, links: &[Counts]) {
        for (number, links) in links.chunks(MOST - 1).enumerate() {
            let [first, second] = over(links);
            assert_eq!(self.both(&format!("{name} {number}"), [&first, &second]), 0);
        }
    }

    /// Each count at the edges: 0, another, the largest, all ones.
    fn counts_of_links(&mut self) {
        let counts = [0, 7, LAST, NONE];
        let mut links = Vec::new();
        for number in 0..counts.len().pow(4) {
            let [a, b, c, d] = [1, 4, 16, 64].map(|place| counts[number / place % 4]);
            links.push([[a, b], [c, d]]);
        }
        self.all_links("counts", &links);
        for (name, counts) in [
            ("not counted", [[NONE, 4], [3, 2]]),
            ("fallen", [[4, 3], [1, 2]]),
            ("surplus", [[4, 5], [1, 3]]),
            ("counted", [[4, 6], [1, 2]]),
        ] {
            let [first, second] = over(&[counts]);
            self.both(&format!("one link, {name}"), [&first, &second]);
        }
    }

    /// Rises near each other, from 0 and up to the largest count; and falls by one.
    fn edges_of_links(&mut self) {
        let rises = [0, 1, 2, (1 << 32) - 1, 1 << 32, 1 << 63, LAST - 1, LAST];
        let mut links = Vec::new();
        for (sent, received) in rises.into_iter().flat_map(|sent| rises.map(|received| (sent, received))) {
            links.push([[0, sent], [0, received]]);
            links.push([[LAST - sent, LAST], [LAST - received, LAST]]);
        }
        for count in [1, 256, 1 << 32, 1 << 63, LAST] {
            links.push([[count, count - 1], [3, 3]]);
            links.push([[3, 3], [count, count - 1]]);
            links.push([[count, count - 1], [count, count - 1]]);
        }
        self.all_links("rises", &links);
    }

    /// Each count of each block changed, in either Reply. The first block's output, the last one's input and all totals tell of no
    /// link.
    fn counts_that_play_no_part(&mut self) {
        let replies = rising();
        for (place, (name, at)) in
            (0..3).flat_map(|place| [("input", 20), ("output", 28), ("total", 36)].map(|count| (place, count)))
        {
            for which in [0, 1] {
                for value in [0, NONE] {
                    let mut replies = replies.clone();
                    let at = HEADER + STANDARD * place + at;
                    replies[which][at..at + 8].copy_from_slice(&value.to_be_bytes());
                    let label = format!("{name} {place} of {which} is {value}");
                    assert_eq!(self.both(&label, replies.each_ref().map(Vec::as_slice)), 0);
                }
            }
        }
    }

    /// In one of the two only, at each place.
    fn augmented_on_a_path(&mut self) {
        let [first, second] = rising();
        for (place, length) in [(1, 8), (2, 12), (3, 52), (1, 52), (3, 1296)] {
            let at = HEADER + STANDARD * place;
            let [first_with, second_with] =
                [&first, &second].map(|reply| [&reply[..at], &augmented(length, 4), &reply[at..]].concat());
            let label = format!("{length} bytes behind {place}");
            assert_eq!(self.both(&label, [&first_with, &second]), 0);
            assert_eq!(self.both(&label, [&first, &second_with]), 0);
            assert_eq!(self.both(&label, [&first_with, &second_with]), 0);
        }
    }

    fn paths_that_differ(&mut self) {
        for (blocks, places, bytes) in
            [(3, vec![0, 1, 2], vec![12, 13, 14, 15, 16, 17, 18, 19]), (MOST, vec![0, 13, 26], vec![15, 19])]
        {
            let first = of(&path(blocks));
            for (place, byte) in places.iter().flat_map(|place| bytes.iter().map(move |byte| (place, byte))) {
                let mut second = first.clone();
                second[HEADER + STANDARD * place + byte] ^= 1 << (byte % 8);
                assert_eq!(self.both(&format!("byte {byte} of {place} in {blocks}"), [&first, &second]), 42);
            }
        }
        for (one, other) in [(1, 2), (2, 3), (1, MOST), (MOST - 1, MOST)] {
            let (one, other) = (of(&path(one)), of(&path(other)));
            assert_eq!(self.both("fewer blocks", [&one, &other]), 42);
            assert_eq!(self.both("more blocks", [&other, &one]), 42);
        }
        let mut turned = path(3);
        turned.swap(1, 2);
        assert_eq!(self.both("other order", [&of(&path(3)), &of(&turned)]), 42);
        let crossed: Vec<Fields> = path(3)
            .into_iter()
            .map(|block| Fields { outgoing: block.upstream, upstream: block.outgoing, ..block })
            .collect();
        assert_eq!(self.both("addresses crossed", [&of(&path(3)), &of(&crossed)]), 42);
        let mut as_augmented = of(&path(3));
        as_augmented[HEADER + 2 * STANDARD] = 5;
        assert_eq!(self.both("last one Augmented", [&of(&path(3)), &as_augmented]), 42);
        assert_eq!(self.both("last one Augmented, 2", [&as_augmented, &of(&path(2))]), 0);
    }

    /// All that is not compared, field by field.
    fn what_may_differ(&mut self) {
        let [first, second] = rising();
        let fields = [("zero", 3..4), ("time", 4..8), ("incoming", 8..12), ("protocols", 44..48), ("end", 48..52)];
        for (place, (name, bytes)) in (0..3).flat_map(|place| fields.clone().map(|field| (place, field))) {
            let mut second = second.clone();
            let start = HEADER + STANDARD * place;
            second[start..][bytes].iter_mut().for_each(|byte| *byte ^= 0x55);
            assert_eq!(self.loss(&format!("other {name} of {place}"), [&first, &second], LENT), 0);
        }
        for (name, bytes) in
            [("hops", 3..4), ("group", 4..8), ("source", 8..12), ("client", 12..16), ("id", 16..18), ("port", 18..20)]
        {
            let mut second = second.clone();
            second[bytes].iter_mut().for_each(|byte| *byte ^= 0x55);
            assert_eq!(self.loss(&format!("other {name}"), [&first, &second], LENT), 0);
        }
        let one = of(&path(1));
        assert_eq!(self.both("one block each", [&one, &one]), 0);
    }

    /// Room is tried first; what is not a link's stays.
    fn lent_for_links(&mut self) {
        let whole: Vec<Counts> = (0..MOST as u64 - 1).map(|n| [[n, 1000 * n], [n, 300 * n]]).collect();
        let (full, [first, second]) = (over(&whole), rising());
        let one = of(&path(1));
        for lent in [0, 1, 32, 64, 831, 832, 833, 864, 900] {
            let replies: [(&str, [&[u8]; 2]); 7] = [
                ("3 blocks", [&first, &second]),
                ("27 blocks", [&full[0], &full[1]]),
                ("1 block", [&one, &one]),
                ("no first", [&[], &second]),
                ("no second", [&first, &[]]),
                ("no Reply", [&[0; 72], &[0; 72]]),
                ("other path", [&first, &one]),
            ];
            for (name, replies) in replies {
                let number = self.loss(&format!("{name} into {lent}"), replies, lent);
                assert_eq!(number == 1, lent < LENT);
            }
        }
    }

    /// The first Reply's faults come before the second's, and both before a path that differs.
    fn refused_losses(&mut self) {
        let (good, other) = (reply(), of(&path(3)));
        assert_eq!(self.both("both read", [&good, &good]), 0);
        assert_eq!(self.both("long first", [&long(), &good]), 5);
        for fault in faults::of_a_reply() {
            let reply = broken(&fault);
            assert_eq!(self.loss(&format!("first {}", fault.name), [&reply, &good], LENT), fault.number);
            assert_eq!(self.loss(&format!("second {}", fault.name), [&good, &reply], LENT), fault.number);
        }
        for fault in few_faults() {
            let reply = broken(&fault);
            assert_eq!(self.both(&format!("other path, first {}", fault.name), [&reply, &other]), fault.number);
            assert_eq!(self.both(&format!("other path, second {}", fault.name), [&other, &reply]), fault.number);
            for second in few_faults().iter().filter(|second| second.number != fault.number) {
                let label = format!("{} and {}", fault.name, second.name);
                assert_eq!(self.loss(&label, [&reply, &broken(second)], LENT), fault.number);
            }
        }
    }
}

// Differences, and what is drawn.
impl Cases {
    fn differences(&mut self, rng: &mut Rng) {
        let half = 1 << 31;
        let edges = [0, 1, 2, half - 2, half - 1, half, half + 1, u32::MAX - 1, u32::MAX];
        for (later, earlier) in edges.into_iter().flat_map(|later| edges.map(|earlier| (later, earlier))) {
            let right = self.difference(later, earlier);
            let exact = i64::from(later) - i64::from(earlier);
            assert!((i64::from(right as i32) - exact) % (1 << 32) == 0);
        }
        for base in [0x1234_5678_u32, 0xfedc_ba98] {
            for apart in [0, 1, half - 1, half, half + 1, u32::MAX] {
                self.difference(base.wrapping_add(apart), base);
            }
        }
        for _ in 0..20 {
            self.difference(rng.draw() as u32, rng.draw() as u32);
        }
        let times = [1000, 3000];
        let run = |places: [usize; 2]| arrival_difference(times[places[0]], times[places[1]]).to_string();
        self.difference(times[0], times[1]);
        assert_told(&run([0, 1]), fillings(), run);
    }

    fn random_replies(&mut self, rng: &mut Rng) {
        for number in 0..40 {
            let mut reply = header(3).with(&random_blocks(rng));
            match rng.below(6) {
                0 => reply.truncate(rng.below(reply.len() as u64 + 1) as usize),
                1 => reply[rng.below(3) as usize] = rng.below(30) as u8,
                2 => reply[HEADER..HEADER + 3].fill(rng.draw() as u8),
                _ => {}
            }
            self.read(&format!("random {number}"), &reply);
            self.next("next", reply.len(), 20 + 52 * rng.below(3) as u32, STANDARD);
        }
    }

    fn random_losses(&mut self, rng: &mut Rng) {
        for number in 0..40 {
            let links: Vec<Counts> = (0..rng.below(4)).map(|_| random_counts(rng)).collect();
            let [first, mut second] = over(&links);
            if rng.one_in(4) {
                let at = rng.below(second.len() as u64) as usize;
                second[at] ^= 1 << rng.below(8);
            }
            self.both(&format!("random loss {number}"), [&first, &second]);
        }
    }

    /// Every number that an entry or the reader can give was met.
    fn table(&mut self) {
        let one = [0, 5, 41, 7, 13];
        let all = [
            (CHECK, one.to_vec()),
            (READ, one.to_vec()),
            (NEXT, vec![0, 1]),
            (LOSS, [&one[..], &[1, 42]].concat()),
            (LINKS, [&one[..], &[42]].concat()),
        ];
        let expected: BTreeSet<(u8, u32)> = all
            .into_iter()
            .flat_map(|(entry, numbers)| numbers.into_iter().map(move |number| (entry, number)))
            .collect();
        assert_eq!(self.met, expected);
    }
}

fn random_blocks(rng: &mut Rng) -> Vec<Vec<u8>> {
    let block = |rng: &mut Rng| match rng.below(8) {
        0..=4 => standard(rng.draw() as u8),
        5 | 6 => augmented(8 + 4 * rng.below(10) as usize, rng.draw() as u8),
        _ => augmented(3 + rng.below(20) as usize, rng.draw() as u8),
    };
    let others = (0..rng.below(5)).map(|_| block(rng)).collect();
    [vec![standard(rng.draw() as u8)], others].concat()
}

/// Counts that rise mostly, by numbers that are near each other.
fn random_counts(rng: &mut Rng) -> Counts {
    [0, 1].map(|_| {
        let first = rng.draw() >> rng.below(64);
        match rng.below(10) {
            0 => [first, NONE],
            1 => [first, rng.below(first.max(1))],
            _ => [first, first.saturating_add(rng.below(8))],
        }
    })
}
