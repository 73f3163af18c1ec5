//! A Query's walk through a yard (document 01, "Walk").

use crate::bytes::{be32, is_multicast};
use crate::engine::{self, Arrival, Outcome, REPLIED};
use crate::message::{self, BlockType, MOST, REQUEST};
use crate::recent::Recent;
use crate::sheet::{Sheet, BLOCK};

pub const SHEET: usize = 2 * BLOCK;
pub const MOST_ROUTERS: usize = 32;
const BAD_OUTPUT: u32 = 1;
const BAD_YARD: u32 = 21;
const FEW_TIMES: u32 = 22;
const NO_START: u32 = 23;
const NOT_A_QUERY: u32 = 24;
const TO_GROUP: u32 = 102;
const NOBODY: u32 = 103;

#[derive(Clone, Copy, Debug, PartialEq, Eq)]
pub struct Walked {
    pub end: u32,
    pub steps: u32,
    pub blocks: u32,
    pub length: u32,
}

impl Walked {
    /// A walk that was refused: it took no step.
    pub fn refused(end: u32) -> Walked {
        Walked { end, steps: 0, blocks: 0, length: 0 }
    }
}

/// Where the Query starts, and how it arrives there.
#[derive(Clone, Copy)]
pub struct Start<'a> {
    pub message: &'a [u8],
    pub router: u32,
    pub receiving: u32,
    pub destination: u32,
    pub ttl: u32,
}

pub fn walk(yard: &[u8], times: &[u32], start: Start, output: &mut [u8]) -> Walked {
    if let Err(end) = check(yard, times, start, output.len()) {
        return Walked::refused(end);
    }
    let routers: Vec<&[u8]> = yard.chunks(SHEET).collect();
    let sheets: Vec<Sheet> = routers.iter().map(|bytes| Sheet::parse(bytes).expect("checked")).collect();
    let empty = Recent::default().to_bytes();
    let mut router = start.router as usize;
    let mut received = start.message.to_vec();
    let mut entered = (start.receiving, start.destination, start.ttl);
    let mut steps = 0;
    loop {
        let (receiving, destination, ttl) = entered;
        let arrival = Arrival { message: &received, destination, receiving, ttl, time: times[router] };
        steps += 1;
        let outcome = match engine::outcome(arrival, routers[router], &empty) {
            Ok(outcome) => outcome,
            Err(drop) => {
                assert_eq!(steps, 1, "no later router drops");
                return Walked { end: drop.number(), steps, blocks: 0, length: 0 };
            }
        };
        match next(&sheets, &outcome) {
            Next::End(end) => {
                output[..outcome.message.len()].copy_from_slice(&outcome.message);
                return Walked { end, steps, blocks: count(&outcome.message), length: outcome.message.len() as u32 };
            }
            Next::Router { number, interface, destination } => {
                router = number;
                entered = (interface as u32, destination, 255);
                received = outcome.message;
            }
        }
    }
}

/// The refusals, in order.
fn check(yard: &[u8], times: &[u32], start: Start, output: usize) -> Result<(), u32> {
    let routers = yard.len() / SHEET;
    if output < MOST {
        return Err(BAD_OUTPUT);
    }
    if !yard.chunks_exact(SHEET).remainder().is_empty() || !(1..=MOST_ROUTERS).contains(&routers) {
        return Err(BAD_YARD);
    }
    if yard.chunks(SHEET).any(|sheet| Sheet::parse(sheet).is_err()) {
        return Err(BAD_YARD);
    }
    if times.len() < routers {
        return Err(FEW_TIMES);
    }
    if start.router as usize >= routers {
        return Err(NO_START);
    }
    if start.message.first() == Some(&REQUEST) {
        return Err(NOT_A_QUERY);
    }
    Ok(())
}

enum Next {
    End(u32),
    Router { number: usize, interface: usize, destination: u32 },
}

/// What becomes of a message sent.
fn next(sheets: &[Sheet], outcome: &Outcome) -> Next {
    if outcome.answer == REPLIED {
        return Next::End(REPLIED);
    }
    let destination = be32(&outcome.record, 2);
    if is_multicast(destination) {
        return Next::End(TO_GROUP);
    }
    let holder = sheets
        .iter()
        .enumerate()
        .find_map(|(number, sheet)| sheet.holder(destination).map(|interface| (number, interface)));
    match holder {
        Some((number, interface)) => Next::Router { number, interface, destination },
        None => Next::End(NOBODY),
    }
}

/// The number of type 4 blocks of a message sent.
fn count(message: &[u8]) -> u32 {
    let blocks = message::blocks(message).expect("a message sent is well-formed");
    blocks.iter().filter(|block| block.kind == BlockType::Standard).count() as u32
}
