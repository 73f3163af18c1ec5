//! Single faults of messages, each with the drop number it leads to alone: what the cases of messages,
//! of Replies and of the engine break singly and in pairs.

use crate::build::{augmented, ip, standard, Header};

/// A Query that keeps every rule.
pub fn query() -> Vec<u8> {
    header(1).to_bytes()
}

/// A Request that does, with blocks of both types.
pub fn request() -> Vec<u8> {
    header(2).with(&[standard(0xa1), augmented(8, 0xa2), standard(0xa3)])
}

pub fn header(kind: u8) -> Header {
    Header {
        kind,
        length: 20,
        hops: 9,
        group: ip(232, 1, 1, 1),
        source: ip(203, 0, 113, 9),
        client: ip(10, 7, 0, 50),
        id: 4660,
        port: 40_000,
    }
}

/// What is wrong, the drop number, and how a message is made so.
pub struct Fault {
    pub name: &'static str,
    pub number: u32,
    pub make: fn(&mut Vec<u8>),
}

const fn fault(name: &'static str, number: u32, make: fn(&mut Vec<u8>)) -> Fault {
    Fault { name, number, make }
}

fn set<const N: usize>(message: &mut [u8], at: usize, bytes: [u8; N]) {
    if message.len() >= at + N {
        message[at..at + N].copy_from_slice(&bytes);
    }
}

/// Bytes after a message, as far as it goes up to 1472.
fn after(message: &mut Vec<u8>, bytes: &[u8]) {
    message.extend(bytes);
}

/// The faults of the header, which a Query and a Request can both have.
pub const HEADER: [Fault; 32] = [
    fault("type 0", 6, |m| set(m, 0, [0])),
    fault("type 3", 6, |m| set(m, 0, [3])),
    fault("type 4", 6, |m| set(m, 0, [4])),
    fault("type 255", 6, |m| set(m, 0, [255])),
    fault("length 0", 7, |m| set(m, 1, [0, 0])),
    fault("length 19", 7, |m| set(m, 1, [0, 19])),
    fault("length 21", 7, |m| set(m, 1, [0, 21])),
    fault("length 276", 7, |m| set(m, 1, [1, 20])),
    fault("hops 0", 8, |m| set(m, 3, [0])),
    fault("group 0", 9, |m| set(m, 4, [0, 0, 0, 0])),
    fault("group 223", 9, |m| set(m, 4, [223, 255, 255, 255])),
    fault("group 240", 9, |m| set(m, 4, [240, 0, 0, 0])),
    fault("group near all ones", 9, |m| set(m, 4, [255, 255, 255, 254])),
    fault("source 0", 10, |m| set(m, 8, [0, 0, 0, 0])),
    fault("source 0.1", 10, |m| set(m, 8, [0, 1, 1, 1])),
    fault("source 127", 10, |m| set(m, 8, [127, 0, 0, 1])),
    fault("source 224", 10, |m| set(m, 8, [224, 0, 0, 1])),
    fault("source near all ones", 10, |m| set(m, 8, [255, 255, 255, 254])),
    fault("pair", 11, |m| set(m, 4, [255; 8])),
    fault("client 0", 12, |m| set(m, 12, [0, 0, 0, 0])),
    fault("client 127", 12, |m| set(m, 12, [127, 255, 255, 255])),
    fault("client 224", 12, |m| set(m, 12, [224, 0, 0, 0])),
    fault("client 240", 12, |m| set(m, 12, [240, 1, 1, 1])),
    fault("client all ones", 12, |m| set(m, 12, [255; 4])),
    fault("port 0", 12, |m| set(m, 18, [0, 0])),
    fault("one byte more", 13, |m| after(m, &[0])),
    fault("a block of type 6", 13, |m| after(m, &[6, 0, 8, 0, 0, 0, 0, 0])),
    fault("a block of length 0", 13, |m| after(m, &[5, 0, 0, 0])),
    fault("a block past the end", 13, |m| after(m, &[5, 0, 12, 0, 0, 0, 0, 0])),
    fault("19 bytes", 5, |m| m.truncate(19)),
    fault("no bytes", 5, |m| m.truncate(0)),
    fault("1473 bytes", 5, |m| m.resize(1473, 0)),
];

/// Faults that only a Request can have.
pub const REQUEST: [Fault; 16] = [
    fault("no block", 13, |m| m.truncate(20)),
    fault("first block of type 5", 13, |m| set(m, 20, [5])),
    fault("first block of type 0", 13, |m| set(m, 20, [0])),
    fault("first block of type 1", 13, |m| set(m, 20, [1])),
    fault("standard of 51", 13, |m| set(m, 21, [0, 51])),
    fault("standard of 53", 13, |m| set(m, 21, [0, 53])),
    fault("standard of 60", 13, |m| set(m, 21, [0, 60])),
    fault("standard of 308", 13, |m| set(m, 21, [1, 52])),
    fault("standard of 0", 13, |m| set(m, 21, [0, 0])),
    fault("augmented of 4", 13, |m| set(m, 73, [0, 4])),
    fault("augmented of 7", 13, |m| set(m, 73, [0, 7])),
    fault("augmented of 9", 13, |m| set(m, 73, [0, 9])),
    fault("augmented of 0", 13, |m| set(m, 73, [0, 0])),
    fault("augmented of 264", 13, |m| set(m, 73, [1, 8])),
    fault("second block of type 3", 13, |m| set(m, 72, [3])),
    fault("a byte short", 13, |m| m.truncate(131)),
];

/// What a Reply, with the blocks of [`request`], can have wrong to its reader. Of the header it looks at type and length alone:
/// number 0 is no fault.
pub fn of_a_reply() -> impl Iterator<Item = Fault> {
    let others = [fault("type 1", 6, |m| set(m, 0, [1])), fault("type 2", 6, |m| set(m, 0, [2]))];
    let shared = HEADER.into_iter().chain(REQUEST).filter(|fault| fault.name != "type 3");
    shared.chain(others).map(|fault| match fault.number {
        6 => Fault { number: 41, ..fault },
        8..=12 => Fault { number: 0, ..fault },
        _ => fault,
    })
}
