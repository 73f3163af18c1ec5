//! Random cases of the engine's step: a router, and messages to it, right ones and wrong ones.

use crate::tables::{address, group, plan, spoil, spoil_entry};
use fast::engine::Arrival;
use model::build::{augmented, ip, standard, Header, SheetPlan};
use model::bytes::ALL_ONES;
use model::engine::IP_AND_UDP;
use model::message::{MOST, STANDARD};
use model::recent::{Entry, Recent};
use model::rng::Rng;
use model::sheet::LEAST_MTU;

/// All that a step is handed.
#[derive(Clone, Debug)]
pub struct Step {
    pub message: Vec<u8>,
    pub arrival: Arrival,
    pub sheet: Vec<u8>,
    pub recent: Vec<u8>,
    pub output: usize,
    pub record: usize,
}

/// A router that several messages come to.
pub struct Router {
    plan: SheetPlan,
    sheet: Vec<u8>,
    recent: Recent,
}

impl Router {
    pub fn random(rng: &mut Rng) -> Router {
        let mut plan = plan(rng);
        let spoilt = rng.below(12);
        if spoilt == 0 {
            spoil_entry(&mut plan, rng);
        }
        let mut sheet = plan.to_bytes();
        if spoilt == 1 {
            spoil(&mut sheet, rng);
        }
        let mut recent = Recent::default();
        let entered = if rng.one_in(3) { 30 + rng.below(40) } else { rng.below(8) };
        for _ in 0..entered {
            recent.enter(Entry { client: address(rng), id: rng.below(4) as u16 });
        }
        Router { plan, sheet, recent }
    }

    /// A message to it, and how it arrives.
    pub fn step(&self, rng: &mut Rng) -> Step {
        let mut message = self.message(rng);
        if rng.one_in(6) {
            spoil_message(&mut message, rng);
        }
        let mut recent = self.recent.to_bytes();
        if rng.one_in(24) {
            spoil_recent(&mut recent, rng);
        }
        let lengths = |rng: &mut Rng, least: usize| match rng.below(24) {
            0 => least - 1,
            1 => least + 1 + rng.below(200) as usize,
            2 => rng.below(least as u64) as usize,
            _ => least,
        };
        Step {
            message,
            arrival: self.arrival(rng),
            sheet: self.sheet.clone(),
            recent,
            output: lengths(rng, 1472),
            record: lengths(rng, 16),
        }
    }

    fn arrival(&self, rng: &mut Rng) -> Arrival {
        let interfaces = self.plan.interfaces.len() as u64;
        let number = rng.below(interfaces);
        Arrival {
            destination: match rng.below(10) {
                0 => ip(224, 0, 0, rng.draw() as u8),
                1 => rng.pick(&[ip(223, 255, 255, 255), ip(224, 0, 1, 0), ip(224, 0, 0, 0), ALL_ONES, 0]),
                2 => address(rng),
                _ => self.plan.interfaces[rng.below(interfaces) as usize].address,
            },
            receiving: match rng.below(24) {
                0 => interfaces as u32,
                1 => rng.pick(&[64, 65_535, 65_536, 65_536 + number as u32, u32::MAX]),
                _ => number as u32,
            },
            ttl: if rng.one_in(10) { rng.pick(&[0, 1, 64, 254, 256, 511, 65_535, u32::MAX]) } else { 255 },
            time: rng.draw() as u32,
        }
    }

    fn header(&self, rng: &mut Rng) -> Header {
        let routes = &self.plan.routes;
        let aim = if routes.is_empty() { None } else { Some(rng.pick(routes)) };
        let host = rng.draw() as u32 & if rng.one_in(4) { 0xff } else { 3 };
        let source = match (rng.below(8), aim) {
            (0, _) => ALL_ONES,
            (1, _) | (_, None) => address(rng),
            (_, Some(route)) if route.kind != 2 => route.source | host,
            _ => address(rng),
        };
        let multicast = match (rng.below(8), aim) {
            (0, _) => ALL_ONES,
            (1, _) | (_, None) => group(rng),
            (_, Some(route)) if route.kind != 3 => route.group,
            _ => group(rng),
        };
        let interface = rng.pick(&self.plan.interfaces);
        Header {
            kind: 1 + rng.below(2) as u8,
            length: 20,
            hops: rng.pick(&[1, 1, 2, 3, 4, 9, 27, 28, 200, 255]),
            group: multicast,
            source,
            client: if rng.one_in(3) { address(rng) } else { interface.address ^ host },
            id: rng.below(4) as u16,
            port: if rng.one_in(30) { 0 } else { rng.draw() as u16 },
        }
    }

    /// A length that meets the room of one of its links, passes it or leaves some; or one at the ends of what messages may have.
    fn length_at_an_end(&self, rng: &mut Rng) -> usize {
        let mtu = usize::from(rng.pick(&self.plan.interfaces).mtu.max(LEAST_MTU)); // a wrong sheet may have less
        let room = MOST.min(mtu - IP_AND_UDP);
        match rng.below(5) {
            0 => rng.pick(&[1416, 1420, 1424, 1468, 1472, 1476]),
            1 | 2 => room - rng.below(120) as usize,
            _ => (room - STANDARD) / 4 * 4 + 4 * rng.below(3) as usize,
        }
    }

    fn message(&self, rng: &mut Rng) -> Vec<u8> {
        let header = self.header(rng);
        if header.kind == 1 {
            return header.to_bytes();
        }
        let full = rng.one_in(2);
        let room = if full { self.length_at_an_end(rng) } else { 20 + rng.below(400) as usize };
        let mut message = header.to_bytes();
        let standards = rng.pick(&[1, 1, 2, 3, 8, 26, 27]);
        let mut placed = 0;
        while message.len() + 52 <= room && placed < standards {
            message.extend(standard(rng.draw() as u8));
            placed += 1;
            if rng.one_in(4) && message.len() + 8 <= room {
                message.extend(augmented(8, rng.draw() as u8));
            }
            if rng.one_in(100) {
                message.extend(odd_block(rng));
            }
        }
        if message.len() + 8 <= room && (full || rng.one_in(3)) {
            message.extend(augmented((room - message.len()) / 4 * 4, rng.draw() as u8));
            if rng.one_in(8) {
                message.extend(standard(rng.draw() as u8));
            }
        }
        if rng.one_in(2) {
            let from = 20.min(message.len());
            noise_in_blocks(&mut message[from..], rng);
        }
        message
    }
}

/// A block whose length or type is none of its kind's, or just is.
pub fn odd_block(rng: &mut Rng) -> Vec<u8> {
    let length = rng.pick(&[3, 4, 5, 6, 7, 8, 9, 10, 11, 12, 48, 51, 52, 53, 56, 264, 308]);
    let mut block = augmented(length, 0);
    block[0] = rng.pick(&[0, 1, 2, 3, 4, 5, 5, 5, 6, 255]);
    block
}

/// What blocks hold beyond type and length is anything.
fn noise_in_blocks(blocks: &mut [u8], rng: &mut Rng) {
    let mut at = 0;
    while at + 3 <= blocks.len() {
        let length = usize::from(blocks[at + 1]) * 256 + usize::from(blocks[at + 2]);
        let end = (at + length).min(blocks.len());
        for byte in &mut blocks[at + 3..end] {
            *byte = rng.draw() as u8;
        }
        at += length.max(1);
    }
}

/// A change to a message that mostly breaks one rule of it.
pub fn spoil_message(message: &mut Vec<u8>, rng: &mut Rng) {
    let at = rng.below(message.len() as u64) as usize;
    match rng.below(9) {
        0 => message.truncate(at),
        1 => message.extend((0..rng.below(80)).map(|_| 0)),
        2 => message.resize(rng.pick(&[0, 1, 19, 20, 21, 1472, 1473, 65_556]), 0),
        3 => message[rng.below(4) as usize] = rng.below(6) as u8,
        4 => message[4 * (1 + rng.below(3) as usize)] = rng.pick(&[0, 1, 126, 127, 128, 223, 224, 239, 240, 255]),
        5 => message[4..12].fill(255),
        6 => message[at] ^= 1 << rng.below(8),
        7 if message.len() > 23 => message[20 + rng.below(3) as usize] = rng.draw() as u8,
        _ => message[at] = rng.draw() as u8,
    }
}

fn spoil_recent(recent: &mut Vec<u8>, rng: &mut Rng) {
    match rng.below(5) {
        0 => recent.resize(rng.pick(&[0, 195, 197, 452]), 0),
        1 => recent[0] = rng.pick(&[0, 1, 31, 32, 33, 255]),
        2 => recent[1] = rng.pick(&[0, 1, 31, 32, 255]),
        3 => recent[2 + rng.below(2) as usize] = rng.draw() as u8,
        _ => recent[rng.below(196) as usize] ^= 1 << rng.below(8),
    }
}
