//! The reader of Replies, and the loss between two, over lent bytes.

use crate::bytes::{be64, le32, le64, put};
use crate::message::{augmented, blocks, is_standard, HEADER, MOST, REPLY, STANDARD, TYPE_AND_LENGTH};

const ROOM: u32 = 1;
const SIZE: u32 = 5;
const LENGTH: u32 = 7;
const BLOCKS: u32 = 13;
const NOT_A_REPLY: u32 = 41;
const PATHS: u32 = 42;
/// Type 3 and length 20.
const HEAD: u32 = u32::from_le_bytes([REPLY, 0, HEADER as u8, 0]);
const LINK: usize = 32;
/// As many links as a Reply can have.
const LINKS: usize = 26 * LINK;
const NOT_COUNTED: u64 = u64::MAX;

pub fn check(reply: &[u8]) -> u32 {
    count(reply).map_or_else(|number| number, |_| 0)
}

/// How many type 4 blocks there are, or the number by which the Reply is refused.
#[inline(always)]
fn count(reply: &[u8]) -> Result<usize, u32> {
    check_header(reply)?;
    blocks(reply).map(|(standards, _)| standards).ok_or(BLOCKS)
}

#[inline(always)]
fn check_header(reply: &[u8]) -> Result<(), u32> {
    if reply.len() < HEADER || reply.len() > MOST {
        return Err(SIZE);
    }
    if le32(reply, 0) & TYPE_AND_LENGTH == HEAD {
        return Ok(());
    }
    Err(if reply[0] == REPLY { LENGTH } else { NOT_A_REPLY })
}

/// The blocks before the place, those up to the next of type 4 and those behind it are gone through once.
pub fn next(reply: &[u8], place: u32, block: &mut [u8]) -> u32 {
    hand_out(reply, place as usize, block).unwrap_or(0)
}

#[inline(always)]
fn hand_out(reply: &[u8], place: usize, block: &mut [u8]) -> Option<u32> {
    let block = block.first_chunk_mut::<STANDARD>()?;
    check_header(reply).ok()?;
    let blocks = &reply[HEADER..];
    let left = reply.len().checked_sub(place)?;
    if !is_standard(blocks) {
        return None;
    }
    let mut rest = blocks;
    while rest.len() > left {
        rest = behind(rest)?;
    }
    if rest.len() != left {
        return None;
    }
    while !is_standard(rest) {
        rest = &rest[augmented(rest)?..];
    }
    let (found, mut rest) = rest.split_first_chunk::<STANDARD>()?;
    let end = reply.len() - rest.len();
    while !rest.is_empty() {
        rest = behind(rest)?;
    }
    *block = *found;
    Some(end as u32)
}

/// What is left behind the block that begins here.
#[inline(always)]
fn behind(rest: &[u8]) -> Option<&[u8]> {
    Some(if is_standard(rest) { &rest[STANDARD..] } else { &rest[augmented(rest)?..] })
}

/// The type 4 blocks of a Reply that was checked, Augmented ones among them.
#[derive(Clone)]
struct Standards<'a>(&'a [u8]);

impl<'a> Iterator for Standards<'a> {
    type Item = &'a [u8];

    #[inline(always)]
    fn next(&mut self) -> Option<&'a [u8]> {
        while !is_standard(self.0) {
            self.0 = &self.0[augmented(self.0)?..];
        }
        let (block, rest) = self.0.split_at(STANDARD);
        self.0 = rest;
        Some(block)
    }
}

pub fn loss(first: &[u8], second: &[u8], links: &mut [u8]) -> u32 {
    let Some(links) = links.first_chunk_mut::<LINKS>() else { return ROOM };
    compare(first, second, links).map_or_else(|number| number, |()| 0)
}

#[inline(always)]
fn compare(first: &[u8], second: &[u8], links: &mut [u8; LINKS]) -> Result<(), u32> {
    let standards = count(first)?;
    if count(second)? != standards {
        return Err(PATHS);
    }
    let (one, other) = (&first[HEADER..], &second[HEADER..]);
    let plain = STANDARD * standards;
    if one.len() == plain && other.len() == plain {
        write_links(one.chunks_exact(STANDARD).zip(other.chunks_exact(STANDARD)), links)
    } else {
        write_links(Standards(one).zip(Standards(other)), links)
    }
}

/// Nothing is written before all blocks are compared.
#[inline(always)]
fn write_links<'a>(
    mut blocks: impl Iterator<Item = (&'a [u8], &'a [u8])> + Clone,
    links: &mut [u8; LINKS],
) -> Result<(), u32> {
    // outgoing and upstream address are one word
    if blocks.clone().any(|(one, other)| le64(one, 12) != le64(other, 12)) {
        return Err(PATHS);
    }
    let counts = |(one, other): (&[u8], &[u8]), at| [be64(one, at), be64(other, at)];
    let Some(last) = blocks.next() else { return Ok(()) };
    let mut input = counts(last, 20);
    for (blocks, link) in blocks.zip(links.chunks_exact_mut(LINK)) {
        write(counts(blocks, 28), input, link);
        input = counts(blocks, 20);
    }
    Ok(())
}

/// A link by the counts in the first Reply and in the second.
#[inline(always)]
fn write(output: [u64; 2], input: [u64; 2], link: &mut [u8]) {
    let [sent, received] = [output, input].map(|[before, now]| now.wrapping_sub(before));
    let verdict = if output.contains(&NOT_COUNTED) || input.contains(&NOT_COUNTED) {
        1
    } else if output[1] < output[0] || input[1] < input[0] {
        2
    } else {
        3 * u64::from(received > sent)
    };
    let numbers = if verdict == 0 { [sent, received, sent - received] } else { [0; 3] };
    put(link, 0, verdict.to_le_bytes());
    for (place, number) in numbers.into_iter().enumerate() {
        put(link, 8 + 8 * place, number.to_be_bytes());
    }
}

pub fn arrival_difference(later: u32, earlier: u32) -> i32 {
    later.wrapping_sub(earlier) as i32
}

#[cfg(test)]
mod tests {
    use super::*;

    /// A Reply with a block of each type; the Standard ones' addresses and counts are all `filler`.
    fn reply(fillers: &[u8]) -> Vec<u8> {
        let mut reply = [&[3, 0, 20][..], &[0; 17]].concat();
        for filler in fillers {
            reply.extend([4, 0, 52]);
            reply.extend([*filler; 49]);
            reply.extend([5, 0, 8, 0, 0, 0, 0, 0]);
        }
        reply
    }

    #[test]
    fn refusals_in_order() {
        let good = reply(&[1]);
        let changed = |at: usize| {
            let mut reply = good.clone();
            reply[at] ^= 1;
            check(&reply)
        };
        assert_eq!([0, 1, 2, 20, 21, 72, 3, 75].map(changed), [41, 7, 7, 13, 13, 13, 0, 0]);
        assert_eq!([19, 20, 71, 72, 79, 80].map(|length| check(&good[..length])), [5, 13, 13, 0, 13, 0]);
        assert_eq!(check(&reply(&[1; 25])), 5);
    }

    #[test]
    fn a_block_from_where_one_starts() {
        let reply = reply(&[1, 2]);
        for place in 0..=u32::from(u8::MAX) {
            let mut block = [9; 53];
            let behind = next(&reply, place, &mut block);
            let (expected, filler) = match place {
                20 => (72, 1),
                72 | 80 => (132, 2),
                _ => (0, 9),
            };
            assert_eq!((behind, block[51], block[52]), (expected, filler, 9), "{place}");
        }
        assert_eq!([next(&reply, 20, &mut [0; 51]), next(&reply[..139], 20, &mut [0; 52])], [0, 0]);
    }

    #[test]
    fn links_by_name() {
        let number = |[output, input]: [[u64; 2]; 2]| {
            let mut link = [9; LINK];
            write(output, input, &mut link);
            (link[0], be64(&link, 8), be64(&link, 16), be64(&link, 24))
        };
        assert_eq!(number([[5, 9], [1, 4]]), (0, 4, 3, 1));
        assert_eq!(number([[5, 9], [1, 5]]), (0, 4, 4, 0));
        assert_eq!(number([[5, 9], [1, 6]]), (3, 0, 0, 0));
        assert_eq!([number([[5, 4], [1, 6]]).0, number([[5, 9], [1, 0]]).0], [2, 2]);
        assert_eq!([number([[5, 4], [u64::MAX, 6]]).0, number([[5, u64::MAX], [1, 0]]).0], [1, 1]);
    }

    #[test]
    fn a_path_and_others() {
        let lost = |first: &[u8], second: &[u8], lent: usize| loss(first, second, &mut vec![0; lent]);
        let path = reply(&[1, 2, 3]);
        let mut other = path.clone();
        other[20 + 120 + 19] = 0; // the last upstream address
        assert_eq!([lost(&path, &path, 831), lost(&path, &path, 832), lost(&path, &other, 832)], [1, 0, 42]);
        assert_eq!([lost(&path, &reply(&[1, 2]), 832), lost(&reply(&[]), &path[..9], 832)], [42, 13]);
    }
}
