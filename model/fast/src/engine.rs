//! One router's step over lent bytes: the drop table in its order, the cheap rows before the sheet is looked at.

use crate::bytes::{be32, field, is_link_scoped, le32, part, part_mut, put};
use crate::message::{self, Message, HEADER, MOST, REPLY, REQUEST, STANDARD};
use crate::recent::{self, Seen};
use crate::response::{is_full_anywhere, mark_full, Onward, Visit, Way};
use crate::route::{choose, is_last_hop, Wanted};
use crate::sheet::{self, Sheet};
use crate::table::{Interface, UNKNOWN};

pub const SENT_ON: u32 = 100;
pub const REPLIED: u32 = 101;
const RECORD: usize = 16;
const PORT: u16 = 33_435;

/// How a message arrived.
#[derive(Clone, Copy, Debug)]
pub struct Arrival {
    pub destination: u32,
    pub receiving: u32,
    pub ttl: u32,
    pub time: u32,
}

/// The Queries that a router has seen: a recent list, or none of a router that is visited in a walk.
pub(crate) trait Queries {
    fn has(&self, query: Seen) -> bool;
    fn enter(&mut self, query: Seen);
}

impl Queries for [u8; recent::SIZE] {
    fn has(&self, query: Seen) -> bool {
        recent::has(self, query)
    }

    fn enter(&mut self, query: Seen) {
        recent::enter(self, query);
    }
}

/// What was sent: the length of the message in the output, and where it goes if it goes on.
pub(crate) struct Sent<'a> {
    pub length: usize,
    pub onward: Option<Onward<'a>>,
    from: &'a Interface,
}

pub fn step(
    message: &[u8],
    arrival: Arrival,
    sheet: &[u8],
    recent: &mut [u8],
    output: &mut [u8],
    record: &mut [u8],
) -> u32 {
    if output.len() < MOST || record.len() < RECORD {
        return 1;
    }
    step_with_room(message, arrival, sheet, recent, output, record)
}

/// From row 2 on. It takes what [`step`] takes, so that the first row costs no more than itself.
#[inline(never)]
fn step_with_room(
    message: &[u8],
    arrival: Arrival,
    sheet: &[u8],
    recent: &mut [u8],
    output: &mut [u8],
    record: &mut [u8],
) -> u32 {
    let Ok(recent) = <&mut [u8; recent::SIZE]>::try_from(recent) else { return 2 };
    if !recent::is_well_formed(recent) {
        return 2;
    }
    let Some(sheet) = sheet::check(sheet) else { return 3 };
    match answer(message, arrival, sheet, recent, part_mut(output)) {
        Ok(sent) => write_record(&sent, part(message, 0), part_mut(record)),
        Err(drop) => drop,
    }
}

/// Rows 4 to 18, then the message that is sent.
#[inline(always)]
pub(crate) fn answer<'a>(
    bytes: &[u8],
    arrival: Arrival,
    sheet: Sheet<'a>,
    queries: &mut impl Queries,
    output: &mut [u8; MOST],
) -> Result<Sent<'a>, u32> {
    let receiving = arrival.receiving as usize;
    if receiving >= sheet.interfaces {
        return Err(4);
    }
    let message = message::check(bytes)?;
    let interface = sheet.interface(receiving);
    let to_link = is_link_scoped(arrival.destination);
    if !to_link && !holds(&sheet, interface, arrival.destination) {
        return Err(14);
    }
    if message.is_query() {
        if queries.has(recent::entry_of(message.header)) {
            return Err(17);
        }
    } else {
        requested(&message, arrival.ttl)?;
        if is_full_anywhere(bytes.len()) {
            return Ok(send_full(bytes, &message, interface, output)); // by whatever route
        }
    }
    let route = choose(&sheet, Wanted { group: le32(message.header, 4), source: be32(message.header, 8) });
    let wrong_last_hop = message.is_query() && !is_last_hop(&sheet, route, be32(message.header, 12));
    if wrong_last_hop && to_link {
        return Err(18);
    }
    if message.is_query() {
        queries.enter(recent::entry_of(message.header));
    }
    let route = route.map(|route| Way::by(&sheet, route));
    let visit = Visit { sheet, receiving, interface, route, wrong_last_hop, time: arrival.time };
    if !message.is_query() && visit.is_full(bytes.len()) {
        return Ok(send_full(bytes, &message, interface, output));
    }
    Ok(send_longer(bytes, &message, &visit, output))
}

/// Whether an interface has the address: mostly the receiving one.
#[inline(always)]
fn holds(sheet: &Sheet, receiving: &Interface, address: u32) -> bool {
    let address = address.swap_bytes();
    le32(receiving, 0) == address || sheet.addresses().any(|other| other == address)
}

/// Rows 15 and 16.
#[inline(always)]
fn requested(message: &Message, ttl: u32) -> Result<(), u32> {
    if ttl != 255 {
        return Err(15);
    }
    if message.standards >= message.hops() {
        return Err(16);
    }
    Ok(())
}

#[inline(always)]
fn send_full<'a>(bytes: &[u8], message: &Message, from: &'a Interface, output: &mut [u8; MOST]) -> Sent<'a> {
    output[..bytes.len()].copy_from_slice(bytes);
    output[0] = REPLY;
    mark_full(output, message.last);
    Sent { length: bytes.len(), onward: None, from }
}

#[inline(always)]
fn send_longer<'a>(bytes: &[u8], message: &Message, visit: &Visit<'a>, output: &mut [u8; MOST]) -> Sent<'a> {
    output[..bytes.len()].copy_from_slice(bytes);
    visit.append(output, bytes.len());
    let onward = visit.onward(message.standards + 1 == message.hops());
    output[0] = if onward.is_some() { REQUEST } else { REPLY };
    Sent { length: bytes.len() + STANDARD, onward, from: visit.interface }
}

#[inline(always)]
fn write_record(sent: &Sent, header: &[u8; HEADER], record: &mut [u8; RECORD]) -> u32 {
    put(record, 0, (sent.length as u16).to_be_bytes());
    match sent.onward {
        Some(onward) => {
            put(record, 2, onward.destination.to_le_bytes());
            put(record, 6, PORT.to_be_bytes());
            put(record, 8, onward.incoming);
            put(record, 10, field::<4>(onward.interface, 0));
        }
        None => {
            put(record, 2, field::<4>(header, 12));
            put(record, 6, field::<2>(header, 18));
            put(record, 8, UNKNOWN.to_be_bytes());
            put(record, 10, field::<4>(sent.from, 0));
        }
    }
    put(record, 14, [0; 2]);
    if sent.onward.is_some() {
        SENT_ON
    } else {
        REPLIED
    }
}
