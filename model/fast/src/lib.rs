//! Documents 01 and 02 in the fastest ordinary Rust, without `unsafe` and without allocation: bytes are read where they lie, and no
//! more often than a rule asks. The library's speed is measured against it; the package `model` is the one to read.

#![forbid(unsafe_code)]

pub mod alone;
mod bytes;
pub mod clock;
pub mod engine;
mod message;
mod recent;
pub mod reply;
mod response;
mod route;
mod sheet;
mod table;
pub mod walk;
