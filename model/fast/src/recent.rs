//! The recent list, in the bytes that are lent for it.

use crate::bytes::{all_zero, field, le32, le64};

pub const SIZE: usize = 196;
const HEAD: usize = 4;
const ENTRY: usize = 6;
const MOST: usize = 32;

/// A Query's client and id: 6 bytes as they lie in header and list.
#[derive(Clone, Copy)]
pub struct Seen(pub [u8; ENTRY]);

#[inline(always)]
pub fn is_well_formed(list: &[u8; SIZE]) -> bool {
    let [used, next, ..] = *list;
    if le32(list, 0) >> 16 != 0 || usize::from(next) >= MOST {
        return false;
    }
    match usize::from(used) {
        MOST => true,
        0 => next == 0 && all_zero(&list[HEAD..]), // as below, of a length that a compiler knows
        used if used < MOST => usize::from(next) == used && unused_are_zero(list, ENTRY * used),
        _ => false,
    }
}

/// Whether the entries from byte `filled` of them on are zero: those bytes in the word that they begin in, then whole words.
#[inline(always)]
fn unused_are_zero(list: &[u8; SIZE], filled: usize) -> bool {
    let (whole, part) = (HEAD + filled.next_multiple_of(8), filled % 8);
    let begun_are_zero = part == 0 || le64(list, whole - 8) >> (8 * part) == 0;
    begun_are_zero && all_zero(&list[whole..])
}

/// Whether a well-formed list has an entry.
#[inline(always)]
pub fn has(list: &[u8; SIZE], Seen(entry): Seen) -> bool {
    let [a, b, c, d, e, f] = entry;
    let wanted = u64::from_le_bytes([a, b, c, d, e, f, 0, 0]);
    // each entry is read with the 2 bytes before it, so that the last one's 8 bytes are inside the list
    (0..usize::from(list[0]).min(MOST)).any(|place| le64(list, HEAD - 2 + ENTRY * place) >> 16 == wanted)
}

#[inline(always)]
pub fn enter(list: &mut [u8; SIZE], Seen(entry): Seen) {
    let next = usize::from(list[1]) % MOST;
    let at = HEAD + ENTRY * next;
    list[at..at + ENTRY].copy_from_slice(&entry);
    list[0] = (list[0] + 1).min(MOST as u8);
    list[1] = ((next + 1) % MOST) as u8;
}

/// The entry that a header asks for.
#[inline(always)]
pub fn entry_of(header: &[u8; 20]) -> Seen {
    Seen(field(header, 12))
}

#[cfg(test)]
mod tests {
    use super::*;

    fn seen(n: u8) -> Seen {
        Seen([10, 0, 0, n, 0, n])
    }

    #[test]
    fn forty_entered() {
        let mut list = [0; SIZE];
        for n in 1..=40 {
            assert!(is_well_formed(&list) && !has(&list, seen(n)));
            enter(&mut list, seen(n));
            assert!(has(&list, seen(n)));
        }
        assert_eq!(list[..4], [32, 8, 0, 0]);
        assert!(!has(&list, seen(8)) && has(&list, seen(9)));
    }

    #[test]
    fn every_byte_behind_the_used_ones_is_zero() {
        for used in 0..32 {
            let mut list = [0; SIZE];
            (0..used).for_each(|n| enter(&mut list, seen(n)));
            for at in 2..SIZE {
                let before = list[at];
                list[at] = 1;
                assert_eq!(is_well_formed(&list), (4..4 + ENTRY * usize::from(used)).contains(&at));
                list[at] = before;
            }
        }
    }
}
