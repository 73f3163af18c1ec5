//! The model behind the library's own interface: fuzz.c calls both and compares.

use model::engine::{step, Arrival};
use model::walk::Start;
use model::{clock, entries, reply};
use std::slice::{from_raw_parts, from_raw_parts_mut};

/// # Safety
/// The pointers and lengths are those of slices that are there, and what is written overlaps nothing.
#[no_mangle]
pub unsafe extern "C" fn model_engine_step(
    message: *const u8,
    message_len: usize,
    destination: u32,
    receiving: u32,
    ttl: u32,
    time: u32,
    sheet: *const u8,
    sheet_len: usize,
    recent: *mut u8,
    recent_len: usize,
    output: *mut u8,
    output_len: usize,
    record: *mut u8,
    record_len: usize,
) -> u32 {
    let arrival = Arrival { message: from_raw_parts(message, message_len), destination, receiving, ttl, time };
    step(
        arrival,
        from_raw_parts(sheet, sheet_len),
        from_raw_parts_mut(recent, recent_len),
        from_raw_parts_mut(output, output_len),
        from_raw_parts_mut(record, record_len),
    )
}

/// # Safety
/// `out` is a slice that is there.
#[no_mangle]
pub unsafe extern "C" fn model_clock_start(reading: u64, out: *mut u8, out_len: usize) -> u32 {
    entries::clock_start(reading, from_raw_parts_mut(out, out_len))
}

/// # Safety
/// `out` is a slice that is there.
#[no_mangle]
pub unsafe extern "C" fn model_clock_advance(r: u64, y: u64, reading: u64, out: *mut u8, out_len: usize) -> u32 {
    entries::clock_advance(r, y, reading, from_raw_parts_mut(out, out_len))
}

#[no_mangle]
pub extern "C" fn model_clock_unix(seconds: u64, nanoseconds: u64) -> u64 {
    entries::clock_unix(seconds, nanoseconds)
}

#[no_mangle]
pub extern "C" fn model_clock_arrival(y: u64) -> u32 {
    clock::arrival(y)
}

/// # Safety
/// As of [`model_engine_step`]; `times` is aligned.
#[no_mangle]
pub unsafe extern "C" fn model_walk(
    yard: *const u8,
    yard_len: usize,
    times: *const u32,
    times_len: usize,
    message: *const u8,
    message_len: usize,
    router: u32,
    receiving: u32,
    destination: u32,
    ttl: u32,
    output: *mut u8,
    output_len: usize,
    answer: *mut u8,
    answer_len: usize,
) -> u32 {
    let start = Start { message: from_raw_parts(message, message_len), router, receiving, destination, ttl };
    let (yard, times) = (from_raw_parts(yard, yard_len), from_raw_parts(times, times_len));
    let (output, answer) = (from_raw_parts_mut(output, output_len), from_raw_parts_mut(answer, answer_len));
    entries::walk(yard, times, start, output, answer).end
}

/// # Safety
/// `reply` is a slice that is there.
#[no_mangle]
pub unsafe extern "C" fn model_reply_check(reply: *const u8, reply_len: usize) -> u32 {
    entries::reply_check(from_raw_parts(reply, reply_len))
}

/// # Safety
/// As of [`model_engine_step`].
#[no_mangle]
pub unsafe extern "C" fn model_reply_next(
    reply: *const u8,
    reply_len: usize,
    place: u32,
    block: *mut u8,
    block_len: usize,
) -> u32 {
    entries::reply_next(from_raw_parts(reply, reply_len), place, from_raw_parts_mut(block, block_len))
}

/// # Safety
/// As of [`model_engine_step`].
#[no_mangle]
pub unsafe extern "C" fn model_reply_loss(
    first: *const u8,
    first_len: usize,
    second: *const u8,
    second_len: usize,
    links: *mut u8,
    links_len: usize,
) -> u32 {
    let (first, second) = (from_raw_parts(first, first_len), from_raw_parts(second, second_len));
    entries::reply_loss(first, second, from_raw_parts_mut(links, links_len))
}

#[no_mangle]
pub extern "C" fn model_arrival_difference(later: u32, earlier: u32) -> i32 {
    reply::arrival_difference(later, earlier)
}
