//! The cases of the recent list. Area 1 holds a list. Commands: 2 check (length at byte 8, 8 bytes),
//! 3 seen and 4 enter (client at byte 8, id at byte 16, 8 bytes each), which look at the first 196
//! bytes and do nothing if they are malformed. Lines: `label -> 0` or 1; `seen client id -> 0` or 1;
//! `enter client id -> used next digest`, the digest of the whole area.

use super::tape::{digest, Area, Tape};
use crate::build::ip;
use crate::recent::{Entry, Recent, LENGTH};
use crate::rng::Rng;

const CHECK: u8 = 2;
const SEEN: u8 = 3;
const ENTER: u8 = 4;
const AREA: usize = 512;

pub fn tape() -> Tape {
    let mut cases = Cases { tape: Tape::default(), list: Area::new(1, AREA) };
    cases.malformed();
    cases.forty();
    cases.every_next();
    cases.near_misses();
    cases.random(&mut Rng::new(41));
    cases.tape
}

struct Cases {
    tape: Tape,
    list: Area,
}

fn entry(number: u32) -> Entry {
    Entry { client: ip(10, 0, 0, 1) + number, id: 1000 + number as u16 }
}

/// A list of so many entries.
fn of(count: u32) -> Vec<u8> {
    let mut recent = Recent::default();
    (0..count).for_each(|number| recent.enter(entry(number)));
    recent.to_bytes()
}

impl Cases {
    fn check(&mut self, label: &str, bytes: &[u8]) -> bool {
        self.tape.set(&mut self.list, bytes);
        self.tape.label(label);
        self.tape.numbers(CHECK, &[bytes.len() as u64]);
        let formed = Recent::parse(bytes).is_some();
        self.tape.line(format!(" -> {}", u8::from(formed)));
        formed
    }

    fn list(&self) -> Recent {
        Recent::parse(&self.list.bytes[..LENGTH]).expect("well-formed")
    }

    fn asked(&mut self, operation: u8, word: &str, entry: Entry) {
        self.tape.label(&format!("{word} {} {}", entry.client, entry.id));
        self.tape.numbers(operation, &[entry.client.into(), entry.id.into()]);
    }

    fn seen(&mut self, entry: Entry) -> bool {
        self.asked(SEEN, "seen", entry);
        let seen = self.list().seen(entry);
        self.tape.line(format!(" -> {}", u8::from(seen)));
        seen
    }

    fn enter(&mut self, entry: Entry) {
        self.asked(ENTER, "enter", entry);
        let mut list = self.list();
        list.enter(entry);
        self.list.bytes[..LENGTH].copy_from_slice(&list.to_bytes());
        let bytes = &self.list.bytes;
        let line = format!(" -> {} {} {}", bytes[0], bytes[1], digest(bytes));
        self.tape.line(line);
    }

    fn changed(&mut self, label: &str, count: u32, changes: &[(usize, u8)]) -> bool {
        let mut bytes = of(count);
        for (at, value) in changes {
            bytes[*at] = *value;
        }
        self.check(label, &bytes)
    }

    fn malformed(&mut self) {
        for count in [0, 1, 2, 16, 31, 32, 33, 63, 64] {
            assert!(self.check(&format!("{count} entered"), &of(count)));
        }
        for length in [0, 1, 4, 192, 195, 196, 197, 200, 202, 452, 512] {
            let mut bytes = of(0);
            bytes.resize(length, 0);
            assert_eq!(self.check(&format!("length {length}"), &bytes), length == LENGTH);
        }
        for (count, used, next) in [
            (0, 0, 1),
            (0, 1, 0),
            (1, 1, 0),
            (1, 1, 2),
            (31, 31, 30),
            (31, 31, 0),
            (32, 33, 0),
            (32, 33, 1),
            (32, 255, 0),
            (32, 32, 32),
            (32, 32, 33),
            (32, 32, 255),
            (5, 5, 37),
            (0, 32, 40),
        ] {
            assert!(!self.changed(&format!("used {used} next {next}"), count, &[(0, used), (1, next)]));
        }
        assert!(self.changed("used 1 of zeros", 0, &[(0, 1), (1, 1)]));
        assert!(self.changed("used 32 of zeros", 0, &[(0, 32), (1, 0)]));
        for (at, value) in [(2, 1), (2, 255), (3, 1), (3, 128)] {
            assert!(!self.changed(&format!("byte {at} is {value}"), 7, &[(at, value)]));
            assert!(!self.changed(&format!("byte {at} is {value}, full"), 32, &[(at, value)]));
        }
        for count in [0, 1, 5, 31] {
            let end = 4 + 6 * count as usize;
            for at in [end, end + 1, end + 5, 194, 195] {
                assert!(!self.changed(&format!("{count} used, byte {at}"), count, &[(at, 1)]));
            }
            if count > 0 {
                assert!(self.changed(&format!("{count} used, byte {}", end - 1), count, &[(end - 1, 99)]));
            }
        }
        self.changed("fewer used than filled", 6, &[(0, 5), (1, 5)]);
    }

    /// 40 Queries entered one after another.
    fn forty(&mut self) {
        self.check("empty", &of(0));
        for number in 0..40 {
            assert!(!self.seen(entry(number)));
            self.enter(entry(number));
            assert!(self.seen(entry(number)));
            if number >= 32 {
                assert!(!self.seen(entry(number - 32)));
                assert!(self.seen(entry(number - 31)));
            }
        }
        for number in 0..41 {
            self.seen(entry(number));
        }
    }

    /// A full list at every place of next.
    fn every_next(&mut self) {
        for next in 0..32 {
            let mut bytes = of(32);
            bytes[1] = next;
            assert!(self.check(&format!("full, next {next}"), &bytes));
            self.enter(entry(100));
            self.seen(entry(u32::from(next)));
            self.seen(entry(100));
        }
    }

    /// Entries that differ in a single byte, and those of zeros.
    fn near_misses(&mut self) {
        self.check("three", &of(3));
        for bit in 0..32 {
            assert!(!self.seen(Entry { client: entry(1).client ^ 1 << bit, ..entry(40) }));
            assert!(!self.seen(Entry { client: entry(0).client ^ 8 << (bit % 29), id: entry(0).id }));
        }
        for bit in 0..16 {
            assert!(!self.seen(Entry { id: entry(1).id ^ 1 << bit, ..entry(1) }));
        }
        assert!(!self.seen(Entry { client: entry(0).client, id: entry(1).id }));
        assert!(!self.seen(Entry { client: 0, id: 0 }));
        self.enter(Entry { client: 0, id: 0 });
        assert!(self.seen(Entry { client: 0, id: 0 }));
        self.enter(Entry { client: u32::MAX, id: u16::MAX });
        self.seen(Entry { client: u32::MAX, id: u16::MAX });
        self.seen(Entry { client: u32::MAX, id: 0 });
        self.enter(entry(1));
        self.enter(entry(1));
    }

    fn random(&mut self, rng: &mut Rng) {
        self.check("empty", &of(0));
        for _ in 0..200 {
            let entry = Entry { client: ip(10, 0, 0, rng.below(8) as u8), id: rng.below(8) as u16 };
            if !self.seen(entry) {
                self.enter(entry);
            }
        }
        for number in 0..100 {
            let mut bytes = of(rng.below(40) as u32);
            let at = if rng.one_in(2) { rng.below(4) } else { rng.below(LENGTH as u64) } as usize;
            bytes[at] = rng.draw() as u8 >> rng.below(8);
            self.check(&format!("random change {number}"), &bytes);
        }
    }
}
