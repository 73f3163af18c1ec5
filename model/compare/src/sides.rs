//! The entries by each side, as calls of one shape: the library, the package `fast` and the model.

use crate::entries;
use fast::engine::Arrival;
use fast::walk::Start;

/// Who answers. What a call is lent, and what it hands back, is the same for each.
#[derive(Clone, Copy)]
pub struct Side {
    pub name: &'static str,
    pub clock_start: fn(u64, &mut [u8]) -> u32,
    pub clock_advance: fn(u64, u64, u64, &mut [u8]) -> u32,
    pub clock_unix: fn(u64, u64) -> u64,
    pub clock_arrival: fn(u64) -> u32,
    pub step: Step,
    pub walk: Walk,
    pub reply_check: fn(&[u8]) -> u32,
    pub reply_next: fn(&[u8], u32, &mut [u8]) -> u32,
    pub reply_loss: fn(&[u8], &[u8], &mut [u8]) -> u32,
    pub arrival_difference: fn(u32, u32) -> i32,
}

/// Message, arrival, sheet, recent list, output, record.
type Step = fn(&[u8], Arrival, &[u8], &mut [u8], &mut [u8], &mut [u8]) -> u32;
/// Yard, times, start, output, answer.
type Walk = fn(&[u8], &[u32], Start, &mut [u8], &mut [u8]) -> u32;

pub const LIBRARY: Side = Side {
    name: "library",
    clock_start: entries::clock_start,
    clock_advance: entries::clock_advance,
    clock_unix: entries::clock_unix,
    clock_arrival: entries::clock_arrival,
    step: entries::engine_step,
    walk: entries::walk,
    reply_check: entries::reply_check,
    reply_next: entries::reply_next,
    reply_loss: entries::reply_loss,
    arrival_difference: entries::arrival_difference,
};

pub const FAST: Side = Side {
    name: "fast",
    clock_start: fast::clock::start,
    clock_advance: fast::clock::advance,
    clock_unix: fast::clock::unix,
    clock_arrival: fast::clock::arrival,
    step: fast::engine::step,
    walk: fast::walk::walk,
    reply_check: fast::reply::check,
    reply_next: fast::reply::next,
    reply_loss: fast::reply::loss,
    arrival_difference: fast::reply::arrival_difference,
};

pub const MODEL: Side = Side {
    name: "model",
    clock_start: model::entries::clock_start,
    clock_advance: model::entries::clock_advance,
    clock_unix: model::entries::clock_unix,
    clock_arrival: model::clock::arrival,
    step: |message, arrival, sheet, recent, output, record| {
        let Arrival { destination, receiving, ttl, time } = arrival;
        let arrival = model::engine::Arrival { message, destination, receiving, ttl, time };
        model::engine::step(arrival, sheet, recent, output, record)
    },
    walk: |yard, times, start, output, answer| {
        let Start { message, router, receiving, destination, ttl } = start;
        let start = model::walk::Start { message, router, receiving, destination, ttl };
        model::entries::walk(yard, times, start, output, answer).end
    },
    reply_check: model::entries::reply_check,
    reply_next: model::entries::reply_next,
    reply_loss: model::entries::reply_loss,
    arrival_difference: model::reply::arrival_difference,
};

/// Not a fourth opinion but a floor: every byte of messages, sheet or yard and recent list read once, by words. A Reply is read
/// where it is checked.
pub const ONE_PASS: Side = Side {
    name: "one pass over the bytes",
    clock_start: |_, _| 0,
    clock_advance: |_, _, _, _| 0,
    clock_unix: |_, _| 0,
    clock_arrival: |_| 0,
    step: |message, _, sheet, recent, _, _| (words(message) ^ words(sheet) ^ words(recent)) as u32,
    walk: |yard, _, start, _, _| (words(yard) ^ words(start.message)) as u32,
    reply_check: |reply| words(reply) as u32,
    reply_next: |_, _, _| 0,
    reply_loss: |first, second, _| (words(first) ^ words(second)) as u32,
    arrival_difference: |_, _| 0,
};

/// The sum of all words, eight a turn, and of the bytes that are left.
fn words(bytes: &[u8]) -> u64 {
    let word = |bytes: &[u8]| u64::from_le_bytes(bytes.try_into().expect("8 bytes"));
    let eights = bytes.chunks_exact(64);
    let ones = eights.remainder().chunks_exact(8);
    let mut sum = ones.remainder().iter().fold(0, |sum: u64, byte| sum.wrapping_add(u64::from(*byte)));
    for one in ones {
        sum = sum.wrapping_add(word(one));
    }
    let mut sums = [sum, 0, 0, 0, 0, 0, 0, 0];
    for eight in eights {
        for (sum, one) in sums.iter_mut().zip(eight.chunks_exact(8)) {
            *sum = sum.wrapping_add(word(one));
        }
    }
    sums.iter().fold(0, |sum, one| sum.wrapping_add(*one))
}
