//! The entries of include/servicebough.h, wrapped once: a slice passes as its pointer and its length.

use fast::engine::Arrival;
use fast::walk::Start;

mod c {
    #[link(name = "servicebough", kind = "static")]
    extern "C" {
        pub fn bough_clock_start(reading: u64, out: *mut u8, out_len: usize) -> u32;
        pub fn bough_clock_advance(r: u64, y: u64, reading: u64, out: *mut u8, out_len: usize) -> u32;
        pub fn bough_clock_unix(seconds: u64, nanoseconds: u64) -> u64;
        pub fn bough_clock_arrival(y: u64) -> u32;
        pub fn bough_engine_step(
            message: *const u8,
            message_len: usize,
            destination: u32,
            receiving_interface: u32,
            ttl: u32,
            arrival_time: u32,
            sheet: *const u8,
            sheet_len: usize,
            recent: *mut u8,
            recent_len: usize,
            output: *mut u8,
            output_len: usize,
            record: *mut u8,
            record_len: usize,
        ) -> u32;
        pub fn bough_walk(
            yard: *const u8,
            yard_len: usize,
            times: *const u32,
            times_len: usize,
            message: *const u8,
            message_len: usize,
            start_router: u32,
            receiving_interface: u32,
            destination: u32,
            ttl: u32,
            output: *mut u8,
            output_len: usize,
            answer: *mut u8,
            answer_len: usize,
        ) -> u32;
        pub fn bough_reply_check(reply: *const u8, reply_len: usize) -> u32;
        pub fn bough_reply_next(
            reply: *const u8,
            reply_len: usize,
            place: u32,
            block: *mut u8,
            block_len: usize,
        ) -> u32;
        pub fn bough_reply_loss(
            first: *const u8,
            first_len: usize,
            second: *const u8,
            second_len: usize,
            links: *mut u8,
            links_len: usize,
        ) -> u32;
        pub fn bough_arrival_difference(later: u32, earlier: u32) -> i32;
    }
}

pub fn clock_start(reading: u64, out: &mut [u8]) -> u32 {
    unsafe { c::bough_clock_start(reading, out.as_mut_ptr(), out.len()) }
}

pub fn clock_advance(r: u64, y: u64, reading: u64, out: &mut [u8]) -> u32 {
    unsafe { c::bough_clock_advance(r, y, reading, out.as_mut_ptr(), out.len()) }
}

pub fn clock_unix(seconds: u64, nanoseconds: u64) -> u64 {
    unsafe { c::bough_clock_unix(seconds, nanoseconds) }
}

pub fn clock_arrival(y: u64) -> u32 {
    unsafe { c::bough_clock_arrival(y) }
}

pub fn engine_step(
    message: &[u8],
    arrival: Arrival,
    sheet: &[u8],
    recent: &mut [u8],
    output: &mut [u8],
    record: &mut [u8],
) -> u32 {
    unsafe {
        c::bough_engine_step(
            message.as_ptr(),
            message.len(),
            arrival.destination,
            arrival.receiving,
            arrival.ttl,
            arrival.time,
            sheet.as_ptr(),
            sheet.len(),
            recent.as_mut_ptr(),
            recent.len(),
            output.as_mut_ptr(),
            output.len(),
            record.as_mut_ptr(),
            record.len(),
        )
    }
}

pub fn walk(yard: &[u8], times: &[u32], start: Start, output: &mut [u8], answer: &mut [u8]) -> u32 {
    unsafe {
        c::bough_walk(
            yard.as_ptr(),
            yard.len(),
            times.as_ptr(),
            times.len(),
            start.message.as_ptr(),
            start.message.len(),
            start.router,
            start.receiving,
            start.destination,
            start.ttl,
            output.as_mut_ptr(),
            output.len(),
            answer.as_mut_ptr(),
            answer.len(),
        )
    }
}

pub fn reply_check(reply: &[u8]) -> u32 {
    unsafe { c::bough_reply_check(reply.as_ptr(), reply.len()) }
}

pub fn reply_next(reply: &[u8], place: u32, block: &mut [u8]) -> u32 {
    unsafe { c::bough_reply_next(reply.as_ptr(), reply.len(), place, block.as_mut_ptr(), block.len()) }
}

pub fn reply_loss(first: &[u8], second: &[u8], links: &mut [u8]) -> u32 {
    unsafe {
        c::bough_reply_loss(first.as_ptr(), first.len(), second.as_ptr(), second.len(), links.as_mut_ptr(), links.len())
    }
}

pub fn arrival_difference(later: u32, earlier: u32) -> i32 {
    unsafe { c::bough_arrival_difference(later, earlier) }
}
