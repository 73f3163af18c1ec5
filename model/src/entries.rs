//! What C is answered, and what is left in the bytes it lends (document 01, "Papers" and "Drop numbers"; document 02).
//! A step is [`crate::engine::step`] itself, an arrival time [`crate::clock::arrival`], and the difference of two
//! [`crate::reply::arrival_difference`].

use crate::clock::{self, Clock, Tick};
use crate::drops::Drop;
use crate::engine::REPLIED;
use crate::message::STANDARD;
use crate::reply::{self, Link, Refusal};
use crate::walk::{self, Start, Walked};

/// The least that a clock is lent: r, y and the time issued, 8 bytes each.
const OUT: usize = 24;
/// The least that a walk's answer is lent: end, steps, blocks and length, 4 bytes each.
const ANSWER: usize = 16;
/// A link as C gets it: verdict and zeros, sent, received and lost, 8 bytes each.
const LINK: usize = 32;
/// The least that links are lent: no Reply has more than 27 type 4 blocks.
const LINKS: usize = 26 * LINK;

pub fn clock_start(reading: u64, out: &mut [u8]) -> u32 {
    hand_over(Clock::start(reading), out)
}

pub fn clock_advance(r: u64, y: u64, reading: u64, out: &mut [u8]) -> u32 {
    hand_over(Clock { reading: r, issued: y }.advance(reading), out)
}

/// Room is tried before the clock's own refusals, and a refusal writes nothing.
fn hand_over(tick: Tick, out: &mut [u8]) -> u32 {
    if out.len() < OUT {
        return Drop::Room.number();
    }
    if tick.number == 0 {
        let numbers = [tick.clock.reading, tick.clock.issued, tick.time];
        out[..OUT].copy_from_slice(&numbers.map(u64::to_be_bytes).concat());
    }
    tick.number
}

/// The units, 0 where a UNIX time is refused: no accepted one is 0.
pub fn clock_unix(seconds: u64, nanoseconds: u64) -> u64 {
    clock::unix(seconds, nanoseconds).unwrap_or(0)
}

/// The walk, whose end is what C is answered. A short answer is refused as a short output is, before all else;
/// only a walk that sent something is told of in the answer.
pub fn walk(yard: &[u8], times: &[u32], start: Start, output: &mut [u8], answer: &mut [u8]) -> Walked {
    if answer.len() < ANSWER {
        return Walked::refused(Drop::Room.number());
    }
    let walked = walk::walk(yard, times, start, output);
    if walked.end >= REPLIED {
        let numbers = [walked.end, walked.steps, walked.blocks, walked.length];
        answer[..ANSWER].copy_from_slice(&numbers.map(u32::to_be_bytes).concat());
    }
    walked
}

pub fn reply_check(reply: &[u8]) -> u32 {
    reply::check(reply).map_or_else(Refusal::number, |_| 0)
}

/// The place behind the block that is handed out, or 0: no block ends there.
pub fn reply_next(reply: &[u8], place: u32, block: &mut [u8]) -> u32 {
    match (reply::next(reply, place), block.get_mut(..STANDARD)) {
        (Some((next, behind)), Some(block)) => {
            block.copy_from_slice(next);
            behind
        }
        _ => 0,
    }
}

/// Room is tried before the Replies.
pub fn reply_loss(first: &[u8], second: &[u8], links: &mut [u8]) -> u32 {
    if links.len() < LINKS {
        return Drop::Room.number();
    }
    match reply::loss(first, second) {
        Ok(found) => {
            let bytes = found.into_iter().flat_map(link_in_bytes).collect::<Vec<u8>>();
            links[..bytes.len()].copy_from_slice(&bytes);
            0
        }
        Err(refusal) => refusal.number(),
    }
}

fn link_in_bytes(link: Link) -> Vec<u8> {
    let (verdict, [sent, received, lost]) = match link {
        Link::Counted { sent, received, lost } => (0, [sent, received, lost]),
        Link::NotCounted => (1, [0; 3]),
        Link::Fallen => (2, [0; 3]),
        Link::Surplus => (3, [0; 3]),
    };
    [verdict << 56, sent, received, lost].map(u64::to_be_bytes).concat()
}

#[cfg(test)]
mod tests {
    use super::*;
    use crate::build::{standard, standard_with, Header};
    use crate::clock::LIMIT;
    use crate::reply::Fields;
    use crate::worked;

    #[test]
    fn a_clock_in_lent_bytes() {
        let mut out = [0xee; 30];
        assert_eq!(clock_advance(0x01_0203, 0x01_0207, 0x01_0205, &mut out), 0);
        let number = |last| [0, 0, 0, 0, 0, 1, 2, last];
        assert_eq!(out[..24], [number(5), number(8), number(8)].concat());
        assert_eq!(out[24..], [0xee; 6]);
    }

    #[test]
    fn room_comes_before_the_clocks_refusals() {
        let mut out = [0xee; 30];
        for length in [0, 23] {
            assert_eq!(clock_start(LIMIT + 1, &mut out[..length]), 1);
            assert_eq!(clock_advance(2, 1, LIMIT + 1, &mut out[..length]), 1);
        }
        assert_eq!(clock_start(LIMIT + 1, &mut out), 31);
        assert_eq!(clock_advance(2, 1, LIMIT + 1, &mut out), 33);
        assert_eq!(clock_advance(1, 2, LIMIT + 1, &mut out), 31);
        assert_eq!(clock_advance(1, LIMIT, 2, &mut out[..23]), 1);
        assert_eq!(clock_advance(1, LIMIT, 2, &mut out), 31);
        assert_eq!(out, [0xee; 30]);
    }

    #[test]
    fn a_unix_time_refused_is_0() {
        assert_eq!((clock_unix(0, 1_000_000_000), clock_unix(u64::MAX, 0)), (0, 0));
        assert_eq!(clock_unix(0, 0), 2_208_988_800 << 16);
    }

    /// The end and the answer of P1, or of a walk with another number of hops.
    fn walked(hops: u8, output: usize, answer: usize) -> (u32, Vec<u8>) {
        let (mut output, mut answer) = (vec![0; output], vec![0xee; answer]);
        let query = worked::query(hops);
        let walked = walk(&worked::yard(0), &[0, 1], worked::start(&query), &mut output, &mut answer);
        (walked.end, answer)
    }

    #[test]
    fn a_walk_in_lent_bytes() {
        let told = [0, 0, 0, 101, 0, 0, 0, 2, 0, 0, 0, 2, 0, 0, 0, 124, 0xee];
        assert_eq!(walked(10, 1472, 17), (101, told.to_vec()));
        assert_eq!(walked(0, 1472, 16), (8, vec![0xee; 16]));
        assert_eq!(walked(10, 1471, 16), (1, vec![0xee; 16]));
        assert_eq!(walked(10, 1472, 15), (1, vec![0xee; 15]));
    }

    const REPLY: Header = Header { kind: 3, length: 20, hops: 1, group: 0, source: 0, client: 0, id: 0, port: 0 };

    #[test]
    fn a_block_in_lent_bytes() {
        let reply = REPLY.with(&[standard(0xaa)]);
        let mut block = [0xee; 60];
        for (place, length) in [(0, 60), (19, 60), (21, 60), (72, 60), (20, 0), (20, 51)] {
            assert_eq!(reply_next(&reply, place, &mut block[..length]), 0);
        }
        assert_eq!(reply_next(&reply[..71], 20, &mut block), 0);
        assert_eq!(block, [0xee; 60]);
        assert_eq!(reply_next(&reply, 20, &mut block[..52]), 72);
        assert_eq!(reply_next(&reply, 20, &mut block), 72);
        assert_eq!(block[..], [&reply[20..], &[0xee; 8]].concat());
    }

    /// The number, and what is left of so many bytes lent.
    fn lost(first: &[Fields], second: &[Fields], lent: usize) -> (u32, Vec<u8>) {
        let [first, second] =
            [first, second].map(|blocks| REPLY.with(&blocks.iter().copied().map(standard_with).collect::<Vec<_>>()));
        let mut links = vec![0xee; lent];
        (reply_loss(&first, &second, &mut links), links)
    }

    #[test]
    fn links_in_lent_bytes() {
        let block = |input, output| Fields { input, output, ..Fields::default() };
        let first = [block(1, 0), block(0, 2), block(u64::MAX, 9), block(5, 0), block(0, 0)];
        let second = [block(0x0103, 0), block(8, 0x0109), block(0, 9), block(4, 0), block(0, 3)];
        let number = |high, low| [0, 0, 0, 0, 0, 0, high, low];
        let named = |verdict| [&[verdict][..], &[0; 31]].concat();
        let counted = [[0; 8], number(1, 7), number(1, 2), number(0, 5)].concat();
        let links = [counted, named(3), named(1), named(2), vec![0xee; 5 * LINK]].concat();
        assert_eq!(lost(&first, &second, 9 * LINK), (1, vec![0xee; 9 * LINK]));
        assert_eq!(lost(&first, &second, 833), (0, [links, vec![0xee; 833 - 9 * LINK]].concat()));
        assert_eq!(lost(&first[..1], &second[..1], 832), (0, vec![0xee; 832]));
        assert_eq!(lost(&first[..1], &second, 831), (1, vec![0xee; 831]));
        assert_eq!(lost(&first[..1], &second, 832), (42, vec![0xee; 832]));
        assert_eq!(lost(&[], &second, 832), (13, vec![0xee; 832]));
    }
}
