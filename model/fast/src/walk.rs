//! A Query's walk through a yard. Every sheet is checked once and the addresses gathered once; after the first router the
//! message lies in the output, is known to be right and only grows there.

use crate::bytes::{be32, is_multicast, le32, part};
use crate::engine::{self, Arrival, Queries, REPLIED};
use crate::message::{HEADER, MOST, REPLY, REQUEST, STANDARD};
use crate::recent::Seen;
use crate::response::{mark_full, Onward, Visit, Way};
use crate::route::{choose, Wanted};
use crate::sheet::{self, Sheet};
use crate::table::BLOCK;

const SHEET: usize = 2 * BLOCK;
const MOST_ROUTERS: usize = 32;
const ANSWER: usize = 16;
const TO_GROUP: u32 = 102;
const NOBODY: u32 = 103;
/// Of a yard whose routers have up to so many interfaces the addresses are gathered; as many are compared at once.
const WIDEST: usize = 8;

/// Where the Query starts, and how it arrives there.
#[derive(Clone, Copy)]
pub struct Start<'a> {
    pub message: &'a [u8],
    pub router: u32,
    pub receiving: u32,
    pub destination: u32,
    pub ttl: u32,
}

/// A router that has seen no Query, and is not asked twice.
struct Fresh;

impl Queries for Fresh {
    fn has(&self, _: Seen) -> bool {
        false
    }

    fn enter(&mut self, _: Seen) {}
}

/// The addresses of a yard as they lie in memory: a row for each router, each as wide as the widest, filled up with 0, which
/// nobody sends to. A yard of wider routers is searched where it lies.
struct Addresses<'a> {
    rows: &'a [u32; MOST_ROUTERS * WIDEST],
    width: usize,
}

impl<'a> Addresses<'a> {
    fn gather(yard: &[u8], width: usize, rows: &'a mut [u32; MOST_ROUTERS * WIDEST]) -> Addresses<'a> {
        if width <= WIDEST {
            for (row, sheet) in rows.chunks_exact_mut(width).zip(yard.chunks_exact(SHEET)) {
                for (place, address) in row.iter_mut().zip(sheet_of(sheet).addresses()) {
                    *place = address;
                }
            }
        }
        Addresses { rows, width }
    }

    /// The lowest router and interface that hold an address: a row of them compared at once, without an early end.
    fn holder(&self, yard: &[u8], address: u32) -> Option<(usize, usize)> {
        if self.width > WIDEST {
            let sheets = yard.chunks_exact(SHEET).map(|sheet| sheet_of(sheet).addresses());
            return sheets.enumerate().find_map(|(n, mut own)| Some((n, own.position(|other| other == address)?)));
        }
        let equal = |place: &u32| *place == address;
        let (chunk, places) = (self.rows.chunks_exact(WIDEST).enumerate())
            .find(|(_, places)| places.iter().fold(false, |found, place| found | equal(place)))?;
        let place = WIDEST * chunk + places.iter().position(equal)?;
        Some((place / self.width, place % self.width))
    }
}

#[inline(always)]
fn sheet_of(bytes: &[u8]) -> Sheet<'_> {
    Sheet::of_two(part(bytes, 0))
}

pub fn walk(yard: &[u8], times: &[u32], start: Start, output: &mut [u8], answer: &mut [u8]) -> u32 {
    let (Some(output), Some(answer)) = (output.first_chunk_mut(), answer.first_chunk_mut::<ANSWER>()) else { return 1 };
    let width = match check(yard, times, start) {
        Ok(width) => width,
        Err(refusal) => return refusal,
    };
    let mut rows = [0; MOST_ROUTERS * WIDEST];
    let addresses = Addresses::gather(yard, width, &mut rows);
    match (Trip { yard, times, addresses }).run(start, output) {
        Ok(told) => {
            for (place, number) in answer.chunks_exact_mut(4).zip(told) {
                place.copy_from_slice(&number.to_be_bytes());
            }
            told[0]
        }
        Err(drop) => drop,
    }
}

/// The most interfaces that a router of the yard has, or the first refusal.
fn check(yard: &[u8], times: &[u32], start: Start) -> Result<usize, u32> {
    let routers = yard.len() / SHEET;
    if !yard.chunks_exact(SHEET).remainder().is_empty() || routers.wrapping_sub(1) >= MOST_ROUTERS {
        return Err(21);
    }
    let mut width = 0;
    for bytes in yard.chunks_exact(SHEET) {
        width = width.max(sheet::check(bytes).ok_or(21_u32)?.interfaces);
    }
    if times.len() < routers {
        return Err(22);
    }
    if start.router as usize >= routers {
        return Err(23);
    }
    match start.message.first() {
        Some(&REQUEST) => Err(24),
        _ => Ok(width),
    }
}

struct Trip<'a> {
    yard: &'a [u8],
    times: &'a [u32],
    addresses: Addresses<'a>,
}

impl<'a> Trip<'a> {
    #[inline(always)]
    fn sheet(&self, router: usize) -> Sheet<'a> {
        sheet_of(&self.yard[SHEET * router..SHEET * router + SHEET])
    }

    /// End, steps, blocks and length; or the number by which the first router drops the Query.
    fn run(&self, start: Start, output: &mut [u8; MOST]) -> Result<[u32; 4], u32> {
        let router = start.router as usize;
        let Start { message, receiving, destination, ttl, .. } = start;
        let arrival = Arrival { destination, receiving, ttl, time: self.times[router] };
        let sent = engine::answer(message, arrival, self.sheet(router), &mut Fresh, output)?;
        let mut length = sent.length;
        let mut onward = sent.onward;
        let mut steps = 1;
        let end = loop {
            let (router, receiving) = match self.next(onward) {
                Ok(next) => next,
                Err(end) => break end,
            };
            steps += 1;
            let visit = self.visit(router, receiving, output);
            if visit.is_full(length) {
                mark_full(output, length - STANDARD);
                onward = None;
            } else {
                visit.append(output, length);
                length += STANDARD;
                onward = visit.onward(blocks(length) == usize::from(output[3]));
            }
        };
        output[0] = if end == REPLIED { REPLY } else { REQUEST };
        Ok([end, steps, blocks(length) as u32, length as u32])
    }

    /// The router and interface that a message goes to, or the walk's end.
    #[inline(always)]
    fn next(&self, onward: Option<Onward>) -> Result<(usize, usize), u32> {
        let destination = onward.ok_or(REPLIED)?.destination;
        if is_multicast(destination as u8) {
            return Err(TO_GROUP);
        }
        self.addresses.holder(self.yard, destination).ok_or(NOBODY)
    }

    /// A later router, which drops nothing, as it meets the message in the output.
    #[inline(always)]
    fn visit(&self, router: usize, receiving: usize, output: &[u8; MOST]) -> Visit<'a> {
        let sheet = self.sheet(router);
        let wanted = Wanted { group: le32(output, 4), source: be32(output, 8) };
        let route = choose(&sheet, wanted).map(|route| Way::by(&sheet, route));
        let interface = sheet.interface(receiving);
        Visit { sheet, receiving, interface, route, wrong_last_hop: false, time: self.times[router] }
    }
}

/// How many blocks a message of a walk has: they are of type 4.
#[inline(always)]
fn blocks(length: usize) -> usize {
    (length - HEADER) / STANDARD
}
