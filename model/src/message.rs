//! A message as it arrives (document 01, "Messages"; drop numbers 5 to 13): parsed, or the drop.

use crate::bytes::{be16, be32, is_multicast, is_unicast, ALL_ONES};
use crate::drops::Drop;

pub const HEADER: usize = 20;
/// The length of a Standard Response Block.
pub const STANDARD: usize = 52;
/// No message passes this.
pub const MOST: usize = 1472;

pub const QUERY: u8 = 1;
pub const REQUEST: u8 = 2;
pub const REPLY: u8 = 3;
pub const STANDARD_BLOCK: u8 = 4;
pub const AUGMENTED_BLOCK: u8 = 5;

#[derive(Clone, Copy, Debug, PartialEq, Eq)]
pub enum Type {
    Query,
    Request,
}

#[derive(Clone, Copy, Debug, PartialEq, Eq)]
pub enum BlockType {
    Standard,
    Augmented,
}

/// A block of a message: its type, and where its bytes are.
#[derive(Clone, Copy, Debug, PartialEq, Eq)]
pub struct Block {
    pub kind: BlockType,
    pub at: usize,
    pub length: usize,
}

/// A well-formed Query or Request. Group and source may be all ones.
#[derive(Clone, Debug, PartialEq, Eq)]
pub struct Message {
    pub kind: Type,
    pub hops: u8,
    pub group: u32,
    pub source: u32,
    pub client: u32,
    pub id: u16,
    pub port: u16,
    pub blocks: Vec<Block>,
}

impl Message {
    pub fn parse(bytes: &[u8]) -> Result<Message, Drop> {
        if bytes.len() < HEADER || bytes.len() > MOST {
            return Err(Drop::Size);
        }
        let kind = match bytes[0] {
            QUERY => Type::Query,
            REQUEST => Type::Request,
            _ => return Err(Drop::Type),
        };
        if usize::from(be16(bytes, 1)) != HEADER {
            return Err(Drop::Header);
        }
        let hops = bytes[3];
        if hops == 0 {
            return Err(Drop::Hops);
        }
        let group = be32(bytes, 4);
        if !is_multicast(group) && group != ALL_ONES {
            return Err(Drop::Group);
        }
        let source = be32(bytes, 8);
        if !is_unicast(source) && source != ALL_ONES {
            return Err(Drop::Source);
        }
        if group == ALL_ONES && source == ALL_ONES {
            return Err(Drop::Pair);
        }
        let (client, id, port) = (be32(bytes, 12), be16(bytes, 16), be16(bytes, 18));
        if !is_unicast(client) || port == 0 {
            return Err(Drop::Client);
        }
        let blocks = match kind {
            Type::Query if bytes.len() == HEADER => Vec::new(),
            Type::Query => return Err(Drop::Blocks),
            Type::Request => blocks(bytes).ok_or(Drop::Blocks)?,
        };
        Ok(Message { kind, hops, group, source, client, id, port, blocks })
    }

    fn standard(&self) -> impl DoubleEndedIterator<Item = &Block> {
        self.blocks.iter().filter(|block| block.kind == BlockType::Standard)
    }

    /// The number of type 4 blocks.
    pub fn count(&self) -> usize {
        self.standard().count()
    }

    /// The last type 4 block.
    pub fn last_standard(&self) -> Option<Block> {
        self.standard().next_back().copied()
    }
}

/// The blocks after the header of a Request or Reply: one or more that fill it, the first of type 4.
pub fn blocks(bytes: &[u8]) -> Option<Vec<Block>> {
    let mut blocks = Vec::new();
    let mut at = HEADER;
    while at < bytes.len() {
        let block = block_at(bytes, at)?;
        at += block.length;
        blocks.push(block);
    }
    let first: &Block = blocks.first()?;
    (first.kind == BlockType::Standard).then_some(blocks)
}

fn block_at(bytes: &[u8], at: usize) -> Option<Block> {
    let rest = &bytes[at..];
    if rest.len() < 3 {
        return None;
    }
    let length = usize::from(be16(rest, 1));
    let kind = match rest[0] {
        STANDARD_BLOCK if length == STANDARD => BlockType::Standard,
        AUGMENTED_BLOCK if length >= 8 && length % 4 == 0 => BlockType::Augmented,
        _ => return None,
    };
    (length <= rest.len()).then_some(Block { kind, at, length })
}

#[cfg(test)]
mod tests {
    use super::*;
    use crate::build::{augmented, standard, Header};

    fn header(kind: u8) -> Header {
        Header { kind, length: 20, hops: 1, group: 0xe801_0101, source: ALL_ONES, client: 0x0a00_0001, id: 0, port: 1 }
    }

    fn drop(bytes: &[u8]) -> u32 {
        Message::parse(bytes).map_or_else(Drop::number, |_| 0)
    }

    #[test]
    fn lengths() {
        let query = header(QUERY).to_bytes();
        assert_eq!([drop(&[]), drop(&query[..19]), drop(&query), drop(&[query, vec![0]].concat())], [5, 5, 0, 13]);
        let full = header(REQUEST).with(&[standard(0), augmented(1400, 0)]);
        assert_eq!((full.len(), drop(&full)), (1472, 0));
        assert_eq!(drop(&[full, vec![0]].concat()), 5);
    }

    #[test]
    fn blocks_fill_a_request() {
        let with = |blocks: &[Vec<u8>]| drop(&header(REQUEST).with(blocks));
        assert_eq!(with(&[]), 13);
        assert_eq!(with(&[standard(9), augmented(8, 7), standard(3)]), 0);
        assert_eq!(with(&[augmented(8, 7), standard(9)]), 13);
        assert_eq!(with(&[standard(9), augmented(10, 7)]), 13);
        assert_eq!(with(&[standard(9), augmented(4, 7)]), 13);
        assert_eq!(with(&[standard(9), vec![4, 0]]), 13);
        assert_eq!(with(&[standard(9), vec![5, 0, 0]]), 13);
        let whole = header(REQUEST).with(&[standard(9), augmented(12, 7), standard(3)]);
        let fitting: Vec<usize> = (20..=whole.len()).filter(|end| drop(&whole[..*end]) == 0).collect();
        assert_eq!(fitting, [72, 84, 136]);
    }
}
