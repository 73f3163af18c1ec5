//! Servicebough's papers in ordinary Rust: the independent witness that the proved crates are
//! compared with. It is written from documents 01 and 02 and the RFC, never from crates/.

pub mod build;
pub mod bytes;
pub mod cases;
pub mod clock;
pub mod drops;
pub mod engine;
pub mod entries;
pub mod message;
pub mod program;
pub mod recent;
pub mod repeat;
pub mod reply;
pub mod rng;
pub mod sheet;
pub mod walk;
pub mod worked;
