//! The recent list: which Queries were seen (document 01, "Drop numbers", the paragraph below the table).

use crate::bytes::{all_zero, be16, be32};

pub const LENGTH: usize = 196;
pub const MOST: usize = 32;
const ENTRY: usize = 6;
const ENTRIES: usize = 4;

#[derive(Clone, Copy, Debug, PartialEq, Eq)]
pub struct Entry {
    pub client: u32,
    pub id: u16,
}

/// Up to 32 Queries, and the place of the next one.
#[derive(Clone, Debug, Default, PartialEq, Eq)]
pub struct Recent {
    entries: Vec<Entry>,
    next: usize,
}

impl Recent {
    /// None if the bytes are malformed.
    pub fn parse(bytes: &[u8]) -> Option<Recent> {
        if bytes.len() != LENGTH {
            return None;
        }
        let (used, next) = (usize::from(bytes[0]), usize::from(bytes[1]));
        if used > MOST || next >= MOST || (used < MOST && next != used) || !all_zero(&bytes[2..ENTRIES]) {
            return None;
        }
        let (filled, unused) = bytes[ENTRIES..].split_at(used * ENTRY);
        let entries = filled.chunks(ENTRY).map(|entry| Entry { client: be32(entry, 0), id: be16(entry, 4) }).collect();
        all_zero(unused).then_some(Recent { entries, next })
    }

    pub fn to_bytes(&self) -> Vec<u8> {
        let mut bytes = vec![self.entries.len() as u8, self.next as u8, 0, 0];
        for entry in &self.entries {
            bytes.extend(entry.client.to_be_bytes());
            bytes.extend(entry.id.to_be_bytes());
        }
        bytes.resize(LENGTH, 0);
        bytes
    }

    pub fn seen(&self, entry: Entry) -> bool {
        self.entries.contains(&entry)
    }

    pub fn enter(&mut self, entry: Entry) {
        if self.entries.len() < MOST {
            self.entries.push(entry);
        } else {
            self.entries[self.next] = entry;
        }
        self.next = (self.next + 1) % MOST;
    }
}

#[cfg(test)]
mod tests {
    use super::*;

    fn entry(n: u32) -> Entry {
        Entry { client: 0x0a00_0000 + n, id: n as u16 }
    }

    #[test]
    fn forty_entered() {
        let mut recent = Recent::default();
        for n in 0..40 {
            assert!(!recent.seen(entry(n)));
            recent.enter(entry(n));
            assert!(recent.seen(entry(n)));
            assert_eq!(Recent::parse(&recent.to_bytes()), Some(recent.clone()));
        }
        assert_eq!(recent.to_bytes()[..4], [32, 8, 0, 0]);
        assert!(!recent.seen(entry(7)) && recent.seen(entry(8)));
    }

    #[test]
    fn malformed() {
        let good = Recent::default().to_bytes();
        let with = |at: usize, value: u8| {
            let mut bytes = good.clone();
            bytes[at] = value;
            Recent::parse(&bytes)
        };
        assert!(Recent::parse(&good[..195]).is_none());
        assert!((0..LENGTH).all(|at| with(at, 1).is_none()));
    }
}
