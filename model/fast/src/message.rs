//! A message as it arrives: drop numbers 5 to 13, and what of it is needed later.

use crate::bytes::{be16, is_multicast, is_unicast, le16, le32, ALL_ONES};

pub const HEADER: usize = 20;
pub const STANDARD: usize = 52;
/// No message passes this.
pub const MOST: usize = 1472;
pub const REQUEST: u8 = 2;
pub const REPLY: u8 = 3;
const QUERY: u8 = 1;

/// Type 4, length 52 and zero, as a block begins that a router writes; of a block received the zero is not looked at.
pub const STANDARD_HEAD: u32 = u32::from_le_bytes([4, 0, STANDARD as u8, 0]);
/// What of the first 4 bytes is type and length, of a block as of a header.
pub const TYPE_AND_LENGTH: u32 = u32::from_le_bytes([!0, !0, !0, 0]);
const AUGMENTED: u8 = 5;

/// A well-formed message. A Query has no blocks.
#[derive(Clone, Copy)]
pub struct Message<'a> {
    pub header: &'a [u8; HEADER],
    pub standards: usize,
    /// Where the last type 4 block begins.
    pub last: usize,
}

impl Message<'_> {
    #[inline(always)]
    pub fn is_query(&self) -> bool {
        self.header[0] == QUERY
    }

    #[inline(always)]
    pub fn hops(&self) -> usize {
        usize::from(self.header[3])
    }
}

/// The message, or the number of the row that drops it.
#[inline]
pub fn check(bytes: &[u8]) -> Result<Message<'_>, u32> {
    let header = bytes.first_chunk::<HEADER>().ok_or(5_u32)?;
    if bytes.len() > MOST {
        return Err(5);
    }
    check_header(header)?;
    if header[0] == QUERY {
        return if bytes.len() == HEADER { Ok(Message { header, standards: 0, last: 0 }) } else { Err(13) };
    }
    let (standards, last) = blocks(bytes).ok_or(13_u32)?;
    Ok(Message { header, standards, last })
}

/// Rows 6 to 12.
#[inline(always)]
fn check_header(header: &[u8; HEADER]) -> Result<(), u32> {
    let (group, source) = (le32(header, 4), le32(header, 8));
    if header[0] != QUERY && header[0] != REQUEST {
        return Err(6);
    }
    if be16(header, 1) != HEADER as u16 {
        return Err(7);
    }
    if header[3] == 0 {
        return Err(8);
    }
    if !is_multicast(header[4]) && group != ALL_ONES {
        return Err(9);
    }
    if !is_unicast(header[8]) && source != ALL_ONES {
        return Err(10);
    }
    if group == ALL_ONES && source == ALL_ONES {
        return Err(11);
    }
    if !is_unicast(header[12]) || le16(header, 18) == 0 {
        return Err(12);
    }
    Ok(())
}

/// How many type 4 blocks a Request or Reply has, and where the last begins; None where its blocks do not fill it, or the first is of
/// another type.
#[inline(always)]
pub fn blocks(message: &[u8]) -> Option<(usize, usize)> {
    let mut rest = &message[HEADER..];
    let (mut standards, mut left_at_last) = (0, 0);
    while !rest.is_empty() {
        if is_standard(rest) {
            standards += 1;
            left_at_last = rest.len();
            rest = &rest[STANDARD..];
        } else if standards > 0 {
            rest = &rest[augmented(rest)?..];
        } else {
            return None;
        }
    }
    (standards > 0).then_some((standards, message.len() - left_at_last))
}

#[inline(always)]
pub fn is_standard(rest: &[u8]) -> bool {
    rest.len() >= STANDARD && le32(rest, 0) & TYPE_AND_LENGTH == STANDARD_HEAD
}

/// The length of the Augmented block that begins here. There are few of them.
#[inline(never)]
pub fn augmented(rest: &[u8]) -> Option<usize> {
    let head = rest.first_chunk::<3>()?;
    let length = usize::from(be16(head, 1));
    (head[0] == AUGMENTED && length >= 8 && length % 4 == 0 && length <= rest.len()).then_some(length)
}
