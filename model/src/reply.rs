//! Replies as they are read, and the loss between two of them (document 02, M-100).

use crate::bytes::{be16, be32, be64};
use crate::message::{blocks, Block, BlockType, HEADER, MOST, REPLY};

/// A count that a router did not know.
const NOT_COUNTED: u64 = u64::MAX;

/// Why a Reply is not read, in the order tried; the last is of two that are.
#[derive(Clone, Copy, Debug, PartialEq, Eq)]
pub enum Refusal {
    Size = 5,
    NotReply = 41,
    Header = 7,
    Blocks = 13,
    Paths = 42,
}

impl Refusal {
    pub fn number(self) -> u32 {
        self as u32
    }
}

/// The fields of a Standard Response Block.
#[derive(Clone, Copy, Debug, Default, PartialEq, Eq)]
pub struct Fields {
    pub time: u32,
    pub incoming: u32,
    pub outgoing: u32,
    pub upstream: u32,
    pub input: u64,
    pub output: u64,
    pub total: u64,
    pub protocol: u16,
    pub multicast: u16,
    pub ttl: u8,
    pub s: bool,
    pub mask: u8,
    pub code: u8,
}

impl Fields {
    /// Of the 52 bytes of a block, the fields that are always zero left out.
    pub fn of(block: &[u8]) -> Fields {
        Fields {
            time: be32(block, 4),
            incoming: be32(block, 8),
            outgoing: be32(block, 12),
            upstream: be32(block, 16),
            input: be64(block, 20),
            output: be64(block, 28),
            total: be64(block, 36),
            protocol: be16(block, 44),
            multicast: be16(block, 46),
            ttl: block[48],
            s: block[50] >= 128,
            mask: block[50] % 128,
            code: block[51],
        }
    }
}

/// The blocks of both types, or why the Reply is not read. Of the header only type and length are looked at.
pub fn check(reply: &[u8]) -> Result<Vec<Block>, Refusal> {
    if reply.len() < HEADER || reply.len() > MOST {
        return Err(Refusal::Size);
    }
    if reply[0] != REPLY {
        return Err(Refusal::NotReply);
    }
    if usize::from(be16(reply, 1)) != HEADER {
        return Err(Refusal::Header);
    }
    blocks(reply).ok_or(Refusal::Blocks)
}

fn is_standard(block: &&Block) -> bool {
    block.kind == BlockType::Standard
}

fn bytes_of<'a>(reply: &'a [u8], block: &Block) -> &'a [u8] {
    &reply[block.at..block.at + block.length]
}

/// The type 4 blocks: what the reader hands out, one a call.
pub fn read(reply: &[u8]) -> Result<Vec<Fields>, Refusal> {
    let blocks = check(reply)?;
    Ok(blocks.iter().filter(is_standard).map(|block| Fields::of(bytes_of(reply, block))).collect())
}

/// The first type 4 block at or behind a place, and the place behind it. There is none behind the last, nor if no block starts
/// at the place.
pub fn next(reply: &[u8], place: u32) -> Option<(&[u8], u32)> {
    let blocks = check(reply).ok()?;
    let mut rest = blocks.iter().skip_while(|block| block.at as u64 != u64::from(place));
    let block = rest.find(is_standard)?;
    Some((bytes_of(reply, block), (block.at + block.length) as u32))
}

/// What two Replies tell of a link: packets sent into it, received from it and lost on it from the first to the second, or why
/// they do not tell.
#[derive(Clone, Copy, Debug, PartialEq, Eq)]
pub enum Link {
    Counted { sent: u64, received: u64, lost: u64 },
    NotCounted,
    Fallen,
    Surplus,
}

impl Link {
    /// By the output count at its beginning and the input count at its end, each as the first Reply has it and the second.
    fn of(output: [u64; 2], input: [u64; 2]) -> Link {
        if [output, input].concat().contains(&NOT_COUNTED) {
            return Link::NotCounted;
        }
        let rise = |[first, second]: [u64; 2]| second.checked_sub(first);
        match (rise(output), rise(input)) {
            (Some(sent), Some(received)) if received > sent => Link::Surplus,
            (Some(sent), Some(received)) => Link::Counted { sent, received, lost: sent - received },
            _ => Link::Fallen,
        }
    }
}

/// The links of a path, each between a block and the next one, which is nearer to the source. Two Replies are over one path if
/// they have as many blocks, with the same outgoing and upstream addresses.
pub fn loss(first: &[u8], second: &[u8]) -> Result<Vec<Link>, Refusal> {
    let (first, second) = (read(first)?, read(second)?);
    let path = |blocks: &[Fields]| blocks.iter().map(|block| (block.outgoing, block.upstream)).collect::<Vec<_>>();
    if path(&first) != path(&second) {
        return Err(Refusal::Paths);
    }
    let ends = first.iter().zip(&second);
    let beginnings = ends.clone().skip(1);
    let links = ends
        .zip(beginnings)
        .map(|(end, beginning)| Link::of([beginning.0.output, beginning.1.output], [end.0.input, end.1.input]));
    Ok(links.collect())
}

/// The shortest signed difference of two arrival times, which wrap at 2^32.
pub fn arrival_difference(later: u32, earlier: u32) -> i32 {
    later.wrapping_sub(earlier) as i32
}

#[cfg(test)]
mod tests {
    use super::*;
    use crate::build::{augmented, standard, standard_with, Header};

    const HEAD: Header =
        Header { kind: 3, length: 20, hops: 9, group: 0xe801_0101, source: 1, client: 0x0a00_0001, id: 0, port: 1 };

    /// The number of a refusal, or 0.
    fn number<T>(result: Result<T, Refusal>) -> u32 {
        result.map_or_else(Refusal::number, |_| 0)
    }

    #[test]
    fn lengths() {
        let full = HEAD.with(&[standard(0), augmented(1400, 0)]);
        assert_eq!((full.len(), number(check(&full))), (1472, 0));
        let longer = [full.clone(), vec![0]].concat();
        assert_eq!([&[], &full[..19], &full[..20], &longer].map(|reply| number(check(reply))), [5, 5, 13, 5]);
    }

    #[test]
    fn the_earlier_refusal_wins() {
        let without_blocks = HEAD.to_bytes();
        let bad_length = Header { length: 21, ..HEAD }.to_bytes();
        let bad_type = Header { kind: 2, length: 21, ..HEAD }.to_bytes();
        let short = bad_type[..19].to_vec();
        assert_eq!([short, bad_type, bad_length, without_blocks].map(|reply| number(check(&reply))), [5, 41, 7, 13]);
        assert!([0, 1, 2, 4, 131, 255]
            .map(|kind| Header { kind, ..HEAD }.with(&[standard(0)]))
            .iter()
            .all(|reply| { check(reply) == Err(Refusal::NotReply) }));
    }

    #[test]
    fn the_rest_of_the_header_is_free() {
        let blocks = [standard(9), standard(8)];
        for header in [
            Header { hops: 0, ..HEAD },
            Header { hops: 1, ..HEAD },
            Header { group: 1, source: 0, client: 0, port: 0, ..HEAD },
            Header { group: u32::MAX, source: u32::MAX, ..HEAD },
        ] {
            assert_eq!(read(&header.with(&blocks)).map(|blocks| blocks.len()), Ok(2));
        }
    }

    #[test]
    fn every_field() {
        let mut block: Vec<u8> = (0..52).collect();
        block[..3].copy_from_slice(&[4, 0, 52]);
        block[50] = 128 + 24;
        let fields = Fields {
            time: 0x0405_0607,
            incoming: 0x0809_0a0b,
            outgoing: 0x0c0d_0e0f,
            upstream: 0x1011_1213,
            input: 0x1415_1617_1819_1a1b,
            output: 0x1c1d_1e1f_2021_2223,
            total: 0x2425_2627_2829_2a2b,
            protocol: 0x2c2d,
            multicast: 0x2e2f,
            ttl: 48,
            s: true,
            mask: 24,
            code: 51,
        };
        assert_eq!(read(&HEAD.with(&[block.clone()])), Ok(vec![fields]));
        (block[3], block[49]) = (0, 0);
        assert_eq!(standard_with(fields), block);
        block[50] = 127;
        assert_eq!(Fields::of(&block), Fields { s: false, mask: 127, ..fields });
    }

    #[test]
    fn one_block_a_call() {
        let (one, other) = (standard(0xaa), standard(0xbb));
        let reply = HEAD.with(&[one.clone(), augmented(8, 1), augmented(12, 2), other.clone(), augmented(8, 3)]);
        assert_eq!(reply.len(), 152);
        for place in (0..160).chain([u32::MAX, 65_536 + 20]) {
            let expected = match place {
                20 => Some((&one[..], 72)),
                72 | 80 | 92 => Some((&other[..], 144)),
                _ => None,
            };
            assert_eq!(next(&reply, place), expected, "{place}");
        }
        assert_eq!(next(&Header { kind: 2, ..HEAD }.with(&[one]), 20), None);
    }

    fn counting(input: u64, output: u64) -> Fields {
        Fields { input, output, outgoing: 7, upstream: 8, ..Fields::default() }
    }

    fn reply(blocks: &[Fields]) -> Vec<u8> {
        HEAD.with(&blocks.iter().map(|fields| standard_with(*fields)).collect::<Vec<_>>())
    }

    #[test]
    fn the_counts_of_a_link() {
        let first = reply(&[counting(100, 1), counting(200, 1000), counting(3, 2000)]);
        let second = reply(&[counting(107, 0), counting(220, 1010), counting(0, 2020)]);
        let expected =
            [Link::Counted { sent: 10, received: 7, lost: 3 }, Link::Counted { sent: 20, received: 20, lost: 0 }];
        assert_eq!(loss(&first, &second), Ok(expected.to_vec()));
        assert_eq!(loss(&second, &first), Ok(vec![Link::Fallen; 2]));
        assert_eq!(loss(&first[..72], &second[..72]), Ok(Vec::new()));
    }

    #[test]
    fn each_name_is_tried_on_all_counts_before_the_next() {
        let none = NOT_COUNTED;
        assert_eq!(Link::of([5, 4], [0, none]), Link::NotCounted);
        assert_eq!(Link::of([none, 4], [3, 2]), Link::NotCounted);
        assert_eq!(Link::of([none, none], [none, none]), Link::NotCounted);
        assert_eq!(Link::of([5, 4], [0, 1]), Link::Fallen);
        assert_eq!(Link::of([5, 9], [1, 0]), Link::Fallen);
        assert_eq!(Link::of([5, 9], [1, 6]), Link::Surplus);
        assert_eq!(Link::of([5, 5], [1, 2]), Link::Surplus);
        assert_eq!(Link::of([5, 9], [1, 5]), Link::Counted { sent: 4, received: 4, lost: 0 });
        assert_eq!(Link::of([5, 5], [1, 1]), Link::Counted { sent: 0, received: 0, lost: 0 });
        let most = none - 1;
        assert_eq!(Link::of([0, most], [most, most]), Link::Counted { sent: most, received: 0, lost: most });
    }

    #[test]
    fn paths_differ() {
        let path = [counting(1, 2), counting(3, 4), counting(5, 6)];
        let against = |other: &[Fields]| number(loss(&reply(&path), &reply(other)));
        assert_eq!([against(&path), against(&path[..2]), against(&[path[0]; 4])], [0, 42, 42]);
        for place in 0..3 {
            let with = |fields: Fields| {
                let mut other = path;
                other[place] = fields;
                against(&other)
            };
            assert_eq!(with(Fields { outgoing: 9, ..path[place] }), 42);
            assert_eq!(with(Fields { upstream: 9, ..path[place] }), 42);
            assert_eq!(with(Fields { time: 1, incoming: 1, total: 1, code: 1, ..path[place] }), 0);
        }
    }

    #[test]
    fn augmented_blocks_are_no_part_of_a_path() {
        let (one, other) = (standard(1), standard(2));
        let plain = HEAD.with(&[one.clone(), other.clone()]);
        let mixed = HEAD.with(&[one, augmented(8, 9), other, augmented(8, 9)]);
        assert_eq!(loss(&plain, &mixed), loss(&plain, &plain));
    }

    #[test]
    fn the_first_replys_refusals_come_before_the_seconds() {
        let good = HEAD.with(&[standard(0)]);
        let (short, typed) = (&good[..19], Header { kind: 1, ..HEAD }.to_bytes());
        assert_eq!(number(loss(&typed, short)), 41);
        assert_eq!(number(loss(short, &typed)), 5);
        assert_eq!(number(loss(&good, &typed)), 41);
        assert_eq!(number(loss(&HEAD.with(&[standard(0), standard(0)]), &good[..20])), 13);
    }

    #[test]
    fn differences_at_the_wrap_and_at_both_ends() {
        let half = 1 << 31;
        assert_eq!([arrival_difference(7, 7), arrival_difference(8, 7), arrival_difference(7, 8)], [0, 1, -1]);
        assert_eq!([arrival_difference(0, u32::MAX), arrival_difference(u32::MAX, 0)], [1, -1]);
        assert_eq!([arrival_difference(half, 0), arrival_difference(0, half)], [i32::MIN; 2]);
        assert_eq!([arrival_difference(half - 1, 0), arrival_difference(0, half - 1)], [i32::MAX, -i32::MAX]);
        assert_eq!([arrival_difference(half + 1, 0), arrival_difference(0, half + 1)], [-i32::MAX, i32::MAX]);
    }
}
