//! Random Replies, two by two: over one path mostly, with counts that rise, and others that are alike but for one change.

use crate::cases::{odd_block, spoil_message};
use model::build::{augmented, standard_with, Header};
use model::reply::Fields;
use model::rng::Rng;

/// All that is handed to the reader and to the loss.
#[derive(Clone, Debug)]
pub struct Replies {
    pub first: Vec<u8>,
    pub second: Vec<u8>,
    /// Where a block is asked for.
    pub place: u32,
    pub block: usize,
    pub links: usize,
    pub later: u32,
    pub earlier: u32,
}

fn count(rng: &mut Rng) -> u64 {
    match rng.below(6) {
        0 => rng.below(4),
        1 => u64::MAX - rng.below(4),
        2 => rng.pick(&[(1 << 32) - 1, 1 << 32, 1 << 63, (1 << 63) - 1]),
        _ => rng.draw() >> rng.below(64),
    }
}

/// The count some time later: risen a little, mostly.
fn risen(count: u64, rng: &mut Rng) -> u64 {
    match rng.below(24) {
        0 => u64::MAX,
        1 => count.saturating_sub(1 + rng.below(3)),
        2 => rng.draw() >> rng.below(64),
        3 => count,
        _ => count.saturating_add(rng.below(16)),
    }
}

fn block(rng: &mut Rng) -> Fields {
    // few addresses, so that neighbours may be alike
    let address = |rng: &mut Rng| if rng.one_in(4) { rng.draw() as u32 } else { rng.below(3) as u32 };
    Fields {
        time: rng.draw() as u32,
        incoming: address(rng),
        outgoing: address(rng),
        upstream: address(rng),
        input: count(rng),
        output: count(rng),
        total: count(rng),
        protocol: rng.draw() as u16,
        multicast: rng.draw() as u16,
        ttl: rng.draw() as u8,
        s: rng.one_in(2),
        mask: rng.below(128) as u8,
        code: rng.draw() as u8,
    }
}

/// The same router some time later.
fn later(block: Fields, rng: &mut Rng) -> Fields {
    Fields { time: rng.draw() as u32, input: risen(block.input, rng), output: risen(block.output, rng), ..block }
}

/// Something else in one field of one block.
fn other(blocks: &mut [Fields], rng: &mut Rng) {
    let place = match rng.below(3) {
        0 => blocks.len() - 1,
        _ => rng.below(blocks.len() as u64) as usize,
    };
    let (block, bit) = (&mut blocks[place], 1 << rng.below(32));
    match rng.below(8) {
        0 => block.incoming ^= bit,
        1 | 2 => block.outgoing ^= bit,
        3 | 4 => block.upstream ^= bit,
        5 => (block.outgoing, block.upstream) = (block.upstream, block.outgoing),
        6 => block.total ^= u64::from(bit),
        _ => block.code ^= bit as u8,
    }
}

/// The header and the blocks, and Augmented ones behind some of them as far as there is room.
fn reply(blocks: &[Fields], rng: &mut Rng) -> Vec<u8> {
    let mut any = || rng.draw() as u32;
    let header = Header {
        kind: 3,
        length: 20,
        hops: any() as u8,
        group: any(),
        source: any(),
        client: any(),
        id: any() as u16,
        port: any() as u16,
    };
    let mut reply = header.to_bytes();
    let mut room = 1472 - 20 - 52 * blocks.len();
    let mixed = rng.one_in(2);
    for fields in blocks {
        let mut block = standard_with(*fields);
        (block[3], block[49]) = (rng.draw() as u8, rng.draw() as u8);
        reply.extend(block);
        while mixed && room >= 8 && rng.one_in(4) {
            let length = if rng.one_in(8) { room / 4 * 4 } else { 8 + 4 * rng.below(12) as usize };
            if length <= room {
                reply.extend(augmented(length, rng.pick(&[0, 3, 4, 5, 52, 255])));
                room -= length;
            }
        }
        if rng.one_in(200) {
            reply.extend(odd_block(rng));
        }
    }
    if rng.one_in(12) {
        spoil_message(&mut reply, rng);
    }
    reply
}

/// Where a block starts, near there, or anywhere.
fn place(reply: &[u8], rng: &mut Rng) -> u32 {
    let starts: Vec<u32> =
        model::reply::check(reply).unwrap_or_default().iter().map(|block| block.at as u32).chain([20]).collect();
    let start = rng.pick(&starts);
    match rng.below(10) {
        0 => rng.below(reply.len() as u64 + 3) as u32,
        1 => start.wrapping_add(rng.pick(&[1, 4, 8, 52, 65_536, 1 << 31, u32::MAX])),
        2 => rng.pick(&[0, reply.len() as u32, u32::MAX, u32::MAX - 51, 0_u32.wrapping_sub(reply.len() as u32)]),
        3 => rng.draw() as u32,
        _ => start,
    }
}

fn length(least: usize, rng: &mut Rng) -> usize {
    match rng.below(16) {
        0 => least - 1,
        1 => least + 1 + rng.below(100) as usize,
        2 => rng.below(least as u64) as usize,
        _ => least,
    }
}

pub fn random(rng: &mut Rng) -> Replies {
    let blocks: Vec<Fields> = match rng.below(4) {
        0 => (0..rng.pick(&[25, 26, 27])).map(|_| block(rng)).collect(),
        _ => (0..1 + rng.below(6)).map(|_| block(rng)).collect(),
    };
    let mut after: Vec<Fields> = blocks.iter().map(|block| later(*block, rng)).collect();
    match rng.below(16) {
        0 | 1 => other(&mut after, rng),
        2 => after.truncate(rng.below(after.len() as u64 + 1) as usize),
        3 => after.rotate_left(1),
        _ => {}
    }
    let (first, second) = (reply(&blocks, rng), reply(&after, rng));
    let times = [rng.draw() as u32, rng.draw() as u32];
    let apart = rng.pick(&[0, 1, u32::MAX, (1 << 31) - 1, 1 << 31, (1 << 31) + 1, times[1]]);
    Replies {
        place: place(&first, rng),
        first,
        second,
        block: length(52, rng),
        links: length(832, rng),
        later: times[0].wrapping_add(apart),
        earlier: times[0],
    }
}
