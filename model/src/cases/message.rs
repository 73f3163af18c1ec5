//! The cases of messages. Area 1 holds a message. Command 2 checks its first bytes, whose number is at
//! byte 8, 8 bytes. Lines: `label -> number`, or `label -> 0 type hops group source client id port
//! count last`, where last is the place of the last type 4 block, or 0 if there is none.

use super::faults::{header, query, request, Fault, HEADER, REQUEST};
use super::tape::{Area, Tape};
use crate::build::{augmented, block, ip, standard, Header};
use crate::message::{Message, Type};
use crate::rng::Rng;

const CHECK: u8 = 2;
/// Room for a length that would pass if it were cut to 16 bits.
const AREA: usize = 65_600;

pub fn tape() -> Tape {
    let mut cases = Cases { tape: Tape::default(), message: Area::new(1, AREA) };
    cases.faults();
    cases.lengths();
    cases.addresses();
    cases.free_fields();
    cases.truncations();
    cases.second_blocks();
    cases.random(&mut Rng::new(31));
    cases.tape
}

struct Cases {
    tape: Tape,
    message: Area,
}

impl Cases {
    fn check(&mut self, label: &str, bytes: &[u8]) -> u32 {
        self.tape.set(&mut self.message, bytes);
        self.check_first(label, bytes.len())
    }

    fn check_first(&mut self, label: &str, length: usize) -> u32 {
        self.tape.label(label);
        self.tape.numbers(CHECK, &[length as u64]);
        match Message::parse(&self.message.bytes[..length]) {
            Err(drop) => {
                self.tape.line(format!(" -> {}", drop.number()));
                drop.number()
            }
            Ok(m) => {
                let kind = if m.kind == Type::Query { 1 } else { 2 };
                let last = m.last_standard().map_or(0, |block| block.at);
                let Message { hops, group, source, client, id, port, .. } = m;
                let count = m.count();
                self.tape.line(format!(" -> 0 {kind} {hops} {group} {source} {client} {id} {port} {count} {last}"));
                0
            }
        }
    }

    /// Each fault alone, and each two together: the earlier number wins.
    fn faults(&mut self) {
        assert_eq!(self.check("query", &query()), 0);
        assert_eq!(self.check("request", &request()), 0);
        for (name, base, faults) in [
            ("query", query(), HEADER.iter().collect::<Vec<&Fault>>()),
            ("request", request(), HEADER.iter().chain(&REQUEST).collect()),
        ] {
            for fault in &faults {
                let mut message = base.clone();
                (fault.make)(&mut message);
                assert_eq!(self.check(&format!("{name}: {}", fault.name), &message), fault.number, "{}", fault.name);
            }
            for first in &faults {
                for second in faults.iter().filter(|second| second.number > first.number) {
                    let mut message = base.clone();
                    (second.make)(&mut message);
                    (first.make)(&mut message);
                    let label = format!("{name}: {}, {}", first.name, second.name);
                    assert_eq!(self.check(&label, &message), first.number, "{label}");
                }
            }
        }
    }

    fn lengths(&mut self) {
        let full = header(2).with(&[standard(1), augmented(1400, 2)]);
        self.check("full request", &full);
        for length in [
            0, 1, 2, 3, 18, 19, 20, 21, 22, 23, 24, 71, 72, 73, 74, 75, 76, 80, 1420, 1424, 1471, 1472, 1473, 65_535,
            65_536, 65_556, 65_600,
        ] {
            self.check_first(&format!("first {length} of it"), length);
        }
        let lone = header(1).to_bytes();
        self.check("lone query", &lone);
        for length in [0, 1, 18, 19, 20, 21, 72, 1472, 1473, 65_536, 65_556] {
            self.check_first(&format!("first {length} of it"), length);
        }
        for length in [1420, 1424, 1472] {
            let whole = header(2).with(&[standard(1), augmented(length - 72, 3)]);
            assert_eq!(self.check(&format!("request of {length}"), &whole), 0);
        }
        let blocks = vec![standard(7); 27];
        assert_eq!(self.check("27 blocks", &header(2).with(&blocks)), 0);
        assert_eq!(self.check("27 blocks and 48 bytes", &header(2).with(&[blocks.concat(), augmented(48, 0)])), 0);
        let small = vec![augmented(8, 9); 175];
        assert_eq!(self.check("175 small blocks", &header(2).with(&[standard(7), small.concat()])), 0);
    }

    /// Every first octet in each of the three addresses.
    fn addresses(&mut self) {
        for octet in 0..=255 {
            let base = header(1);
            let address = ip(octet, 255, 255, 255);
            self.check(&format!("group {octet}"), &Header { group: address, ..base }.to_bytes());
            self.check(&format!("source {octet}"), &Header { source: address, ..base }.to_bytes());
            self.check(&format!("client {octet}"), &Header { client: ip(octet, 0, 0, 0), ..base }.to_bytes());
        }
    }

    /// What may be anything.
    fn free_fields(&mut self) {
        for (hops, id, port) in [(1, 0, 1), (255, 65_535, 65_535), (128, 256, 256), (2, 1, 255)] {
            self.check(&format!("free {hops} {id} {port}"), &Header { hops, id, port, ..header(1) }.to_bytes());
        }
        for filler in [0, 1, 127, 255] {
            let blocks = [standard(filler), augmented(12, filler), standard(!filler), augmented(8, filler)];
            assert_eq!(self.check(&format!("filler {filler}"), &header(2).with(&blocks)), 0);
        }
        for (group, source) in
            [(u32::MAX, ip(1, 2, 3, 4)), (ip(224, 0, 0, 0), u32::MAX), (ip(239, 255, 255, 255), 1 << 24)]
        {
            self.check(&format!("pair {group} {source}"), &Header { group, source, ..header(1) }.to_bytes());
        }
    }

    /// Every length of a Request with blocks of both types.
    fn truncations(&mut self) {
        let blocks = [
            standard(4),
            augmented(8, 5),
            standard(52),
            augmented(16, 0),
            augmented(12, 4),
            standard(0),
            augmented(8, 1),
        ];
        let whole = header(2).with(&blocks);
        self.check("mixed request", &whole);
        for length in 0..whole.len() {
            self.check_first(&format!("cut to {length}"), length);
        }
    }

    /// A second block of known and unknown types, the last one and with a third behind it.
    fn second_blocks(&mut self) {
        for (kind, length) in [(6, 52), (5, 52), (1, 52), (3, 52), (255, 52), (6, 8), (5, 8), (4, 8)] {
            let second = block(kind, length, 0);
            let expected = if kind == 5 { 0 } else { 13 };
            let label = format!("request: second block of type {kind} of {length}");
            assert_eq!(self.check(&label, &header(2).with(&[standard(1), second.clone()])), expected, "{label}");
            let label = format!("{label}, a third");
            assert_eq!(self.check(&label, &header(2).with(&[standard(1), second, standard(2)])), expected, "{label}");
        }
    }

    fn random(&mut self, rng: &mut Rng) {
        for number in 0..300 {
            let mut blocks = Vec::new();
            for _ in 0..rng.below(8) {
                let length = 8 + 4 * rng.below(10) as usize;
                blocks.push(match rng.below(8) {
                    0..=4 => standard(rng.draw() as u8),
                    5 | 6 => augmented(length, rng.draw() as u8),
                    _ => augmented(3 + rng.below(20) as usize, rng.draw() as u8),
                });
            }
            let mut message = header(2).with(&blocks);
            if rng.one_in(4) {
                message.truncate(rng.below(message.len() as u64 + 1) as usize);
            }
            self.check(&format!("random blocks {number}"), &message);
        }
        for number in 0..100 {
            let length = rng.below(120);
            let mut bytes: Vec<u8> = (0..length).map(|_| rng.draw() as u8).collect();
            self.check(&format!("random bytes {number}"), &bytes);
            let start = header(1 + rng.below(2) as u8).to_bytes();
            let kept = bytes.len().min(20);
            bytes[..kept].copy_from_slice(&start[..kept]);
            self.check(&format!("random after a header {number}"), &bytes);
        }
    }
}
