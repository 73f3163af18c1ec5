//! One router's step (document 01, "Drop numbers" and "One router's step"; document 02, the link's room).

use crate::bytes::{is_admin_scoped, is_link_scoped};
use crate::drops::Drop;
use crate::message::{Message, Type, MOST, REPLY, REQUEST, STANDARD, STANDARD_BLOCK};
use crate::recent::{Entry, Recent};
use crate::sheet::{has, Interface, Kind, Route, Sheet, Upstream, UNKNOWN};

pub const RECORD: usize = 16;
/// What a Request sent on and a Reply are answered by.
pub const SENT_ON: u32 = 100;
pub const REPLIED: u32 = 101;

const PORT: u16 = 33_435;
const ALL_ROUTERS: u32 = 0xe000_0002;
const NO_SPACE: u8 = 0x81;
const NEAR_TTL: u32 = 255;
/// What an MTU counts beside the message: the headers of IPv4 and UDP.
pub const IP_AND_UDP: usize = 20 + 8;
const GROUP_MASK: u8 = 127;

/// A message and how it arrived.
#[derive(Clone, Copy)]
pub struct Arrival<'a> {
    pub message: &'a [u8],
    pub destination: u32,
    pub receiving: u32,
    pub ttl: u32,
    pub time: u32,
}

/// What an accepted message leads to.
#[derive(Clone, Debug, PartialEq, Eq)]
pub struct Outcome {
    pub answer: u32,
    pub message: Vec<u8>,
    pub record: [u8; RECORD],
    pub recent: Recent,
}

/// One step over lent bytes: a drop number and nothing changed, or 100 or 101 with output, record
/// and recent list written.
pub fn step(arrival: Arrival, sheet: &[u8], recent: &mut [u8], output: &mut [u8], record: &mut [u8]) -> u32 {
    if output.len() < MOST || record.len() < RECORD {
        return Drop::Room.number();
    }
    match outcome(arrival, sheet, recent) {
        Err(drop) => drop.number(),
        Ok(outcome) => {
            output[..outcome.message.len()].copy_from_slice(&outcome.message);
            record[..RECORD].copy_from_slice(&outcome.record);
            recent.copy_from_slice(&outcome.recent.to_bytes());
            outcome.answer
        }
    }
}

/// The step without its buffers.
pub fn outcome(arrival: Arrival, sheet: &[u8], recent: &[u8]) -> Result<Outcome, Drop> {
    let mut recent = Recent::parse(recent).ok_or(Drop::State)?;
    let sheet = Sheet::parse(sheet).map_err(|_| Drop::Sheet)?;
    let receiving = usize::try_from(arrival.receiving).unwrap_or(usize::MAX);
    if receiving >= sheet.interfaces.len() {
        return Err(Drop::Iface);
    }
    let message = Message::parse(arrival.message)?;
    let query = Entry { client: message.client, id: message.id };
    let router = Router::at(&sheet, receiving, &message);
    router.admit(&arrival, &message, recent.seen(query))?;
    if message.kind == Type::Query {
        recent.enter(query);
    }
    let Sent { answer, message, record } = router.answer(&arrival, &message);
    Ok(Outcome { answer, message, record: record.to_bytes(), recent })
}

/// A router as one message meets it: its tables, the receiving interface, the route chosen.
struct Router<'a> {
    sheet: &'a Sheet,
    receiving: usize,
    route: Option<&'a Route>,
    last_hop: bool,
}

struct Sent {
    answer: u32,
    message: Vec<u8>,
    record: Record,
}

/// Where a message goes, by which interface and from which address.
struct Record {
    length: u16,
    destination: u32,
    port: u16,
    interface: u16,
    source: u32,
}

impl Record {
    fn to_bytes(&self) -> [u8; RECORD] {
        let mut bytes = Vec::with_capacity(RECORD);
        bytes.extend(self.length.to_be_bytes());
        bytes.extend(self.destination.to_be_bytes());
        bytes.extend(self.port.to_be_bytes());
        bytes.extend(self.interface.to_be_bytes());
        bytes.extend(self.source.to_be_bytes());
        let mut record = [0; RECORD];
        record[..bytes.len()].copy_from_slice(&bytes);
        record
    }
}

/// What step 4 fills in; all 0 with no route or with tracing prohibited.
#[derive(Default)]
struct Filled {
    incoming: u32,
    upstream: u32,
    input: u64,
    total: u64,
    protocol: u16,
    multicast_protocol: u16,
    whole_source: bool,
    mask: u8,
}

impl<'a> Router<'a> {
    fn at(sheet: &'a Sheet, receiving: usize, message: &Message) -> Router<'a> {
        let route = sheet.choose(message.source, message.group).map(|number| &sheet.routes[number]);
        Router { sheet, receiving, route, last_hop: sheet.is_last_hop(route, message.client) }
    }

    fn interface(&self) -> &Interface {
        &self.sheet.interfaces[self.receiving]
    }

    fn incoming(&self, route: &Route) -> Option<&Interface> {
        route.incoming.map(|number| &self.sheet.interfaces[number])
    }

    /// What a message may take on the link towards the source: that of the incoming interface, or of the receiving one where no
    /// route or no incoming interface is known.
    fn room(&self) -> usize {
        let link = self.route.and_then(|route| self.incoming(route)).unwrap_or(self.interface());
        MOST.min(usize::from(link.mtu) - IP_AND_UDP)
    }

    /// Drop numbers 14 to 18.
    fn admit(&self, arrival: &Arrival, message: &Message, seen: bool) -> Result<(), Drop> {
        let to_link = is_link_scoped(arrival.destination);
        if self.sheet.holder(arrival.destination).is_none() && !to_link {
            return Err(Drop::Dest);
        }
        match message.kind {
            Type::Request if arrival.ttl != NEAR_TTL => Err(Drop::Near),
            Type::Request if message.count() >= usize::from(message.hops) => Err(Drop::Count),
            Type::Query if seen => Err(Drop::Seen),
            Type::Query if to_link && !self.last_hop => Err(Drop::LastHop),
            _ => Ok(()),
        }
    }

    /// Steps 1 to 5.
    fn answer(&self, arrival: &Arrival, message: &Message) -> Sent {
        if arrival.message.len() + STANDARD > self.room() {
            return self.no_space(arrival, message);
        }
        let mut bytes = arrival.message.to_vec();
        bytes.extend(self.block(arrival.time, message));
        let upstream = self.onward(message);
        bytes[0] = if upstream.is_some() { REQUEST } else { REPLY };
        match upstream {
            Some((destination, incoming)) => self.sent_on(bytes, destination, incoming),
            None => self.replied(bytes, message),
        }
    }

    /// Step 1: no room for another block, which the last type 4 block's code tells. On its way home the message is not measured.
    fn no_space(&self, arrival: &Arrival, message: &Message) -> Sent {
        let last = message.last_standard().expect("a Query has room, and a Request has a type 4 block");
        let mut bytes = arrival.message.to_vec();
        bytes[0] = REPLY;
        bytes[last.at + STANDARD - 1] = NO_SPACE;
        self.replied(bytes, message)
    }

    fn replied(&self, message: Vec<u8>, received: &Message) -> Sent {
        let record = Record {
            length: message.len() as u16,
            destination: received.client,
            port: received.port,
            interface: UNKNOWN,
            source: self.interface().address,
        };
        Sent { answer: REPLIED, message, record }
    }

    fn sent_on(&self, message: Vec<u8>, destination: u32, incoming: usize) -> Sent {
        let record = Record {
            length: message.len() as u16,
            destination,
            port: PORT,
            interface: incoming as u16,
            source: self.sheet.interfaces[incoming].address,
        };
        Sent { answer: SENT_ON, message, record }
    }

    /// Step 5: the destination and the incoming interface of what is sent on; None ends the trace.
    fn onward(&self, message: &Message) -> Option<(u32, usize)> {
        let route = self.route?;
        let hops_used = message.count() + 1 == usize::from(message.hops);
        if self.sheet.prohibited || route.rp || hops_used {
            return None;
        }
        let destination = match route.upstream {
            Upstream::None => return None,
            Upstream::NotKnown => ALL_ROUTERS,
            Upstream::Router(address) => address,
        };
        Some((destination, route.incoming?))
    }

    /// Steps 2 to 4: the block to append.
    fn block(&self, time: u32, message: &Message) -> Vec<u8> {
        let filled = self.fill();
        let mut block = vec![STANDARD_BLOCK];
        block.extend((STANDARD as u16).to_be_bytes());
        block.push(0);
        for address in [time, filled.incoming, self.interface().address, filled.upstream] {
            block.extend(address.to_be_bytes());
        }
        for count in [filled.input, self.interface().output, filled.total] {
            block.extend(count.to_be_bytes());
        }
        for protocol in [filled.protocol, filled.multicast_protocol] {
            block.extend(protocol.to_be_bytes());
        }
        let s = u8::from(filled.whole_source) << 7;
        block.extend([self.interface().threshold, 0, s | filled.mask, self.code(message)]);
        block
    }

    /// Step 4.
    fn fill(&self) -> Filled {
        let Some(route) = self.route.filter(|_| !self.sheet.prohibited) else {
            return Filled::default();
        };
        let incoming = self.incoming(route);
        Filled {
            incoming: incoming.map_or(0, |interface| interface.address),
            input: incoming.map_or(u64::MAX, |interface| interface.input),
            upstream: match route.upstream {
                Upstream::None => 0,
                Upstream::NotKnown => ALL_ROUTERS,
                Upstream::Router(address) => address,
            },
            total: if route.kind == Kind::SourceOnly { u64::MAX } else { route.packets },
            protocol: route.protocol,
            multicast_protocol: route.multicast_protocol,
            whole_source: match route.kind {
                Kind::Group => true,
                Kind::SourceAndGroup => route.length < 32,
                Kind::SourceOnly => false,
            },
            mask: if route.kind == Kind::Group { GROUP_MASK } else { route.length },
        }
    }

    /// Step 3: the first code that applies, or 0.
    fn code(&self, message: &Message) -> u8 {
        if message.kind == Type::Query && !self.last_hop {
            return 6;
        }
        let Some(route) = self.route else {
            return 5;
        };
        let boundary = self.interface().boundary || self.incoming(route).is_some_and(|interface| interface.boundary);
        let codes = [
            (8, route.rp),
            (0x83, self.sheet.prohibited),
            (0x0a, !self.interface().multicast),
            (9, route.incoming == Some(self.receiving)),
            (1, !has(route.forward, self.receiving)),
            (4, is_admin_scoped(message.group) && boundary),
            (2, route.prune_sent),
            (3, has(route.pruned, self.receiving)),
            (7, has(route.stopped, self.receiving)),
        ];
        codes.iter().find(|(_, applies)| *applies).map_or(0, |(code, _)| *code)
    }
}

#[cfg(test)]
mod tests {
    use super::*;
    use crate::build::{augmented, ip, standard, Header, InterfaceEntry, RouteEntry, SheetPlan};

    const GROUP: u32 = ip(232, 1, 1, 1);

    fn plan(prohibited: bool) -> SheetPlan {
        let interfaces = vec![InterfaceEntry::new(ip(10, 0, 0, 1), 24), InterfaceEntry::new(ip(10, 0, 1, 1), 24)];
        let routes = vec![RouteEntry::group(GROUP).by(1, u32::MAX, 1)];
        SheetPlan { prohibited, interfaces, routes }
    }

    fn header(kind: u8, hops: u8) -> Header {
        Header { kind, length: 20, hops, group: GROUP, source: u32::MAX, client: ip(10, 0, 0, 9), id: 7, port: 99 }
    }

    fn run(message: &[u8], prohibited: bool) -> Result<Outcome, Drop> {
        run_in(&plan(prohibited), message)
    }

    fn run_in(plan: &SheetPlan, message: &[u8]) -> Result<Outcome, Drop> {
        let arrival = Arrival { message, destination: ip(10, 0, 0, 1), receiving: 0, ttl: 255, time: 5 };
        outcome(arrival, &plan.to_bytes(), &Recent::default().to_bytes())
    }

    #[test]
    fn a_request_that_just_fits_and_one_that_does_not() {
        let fits = run(&header(2, 255).with(&[standard(1), augmented(1348, 1)]), false).unwrap();
        assert_eq!((fits.answer, fits.message.len()), (SENT_ON, 1472));
        let full = header(2, 255).with(&[standard(1), augmented(1352, 1)]);
        let reply = run(&full, false).unwrap();
        assert_eq!((reply.answer, reply.message.len()), (REPLIED, 1424));
        let mut expected = full;
        expected[0] = 3;
        expected[71] = 0x81;
        assert_eq!(reply.message, expected);
    }

    /// Whether a Request of this length is full, where receiving and incoming interface have these MTUs.
    fn is_full(mtus: [u16; 2], route: Option<RouteEntry>, length: usize) -> bool {
        let mut plan = SheetPlan { routes: route.into_iter().collect(), ..plan(false) };
        plan.interfaces.iter_mut().zip(mtus).for_each(|(interface, mtu)| interface.mtu = mtu);
        let sent = run_in(&plan, &header(2, 255).with(&[standard(1), augmented(length - 72, 1)])).unwrap();
        assert_eq!(sent.message.len() == length, sent.message[71] == 0x81);
        sent.message.len() == length
    }

    #[test]
    fn room_is_the_links() {
        let by_link = RouteEntry::group(GROUP).by(1, u32::MAX, 1);
        let unknown = RouteEntry::group(GROUP);
        for other in [576, 65_535] {
            for (length, mtu) in [(496, 576), (920, 1000), (1420, 1500)] {
                for (mtu, full) in [(mtu - 1, true), (mtu, false)].into_iter().filter(|(mtu, _)| *mtu > 575) {
                    assert_eq!(is_full([other, mtu], Some(by_link), length), full);
                    assert_eq!(is_full([mtu, other], Some(unknown), length), full);
                    assert_eq!(is_full([mtu, other], None, length), full);
                }
            }
        }
        assert!(is_full([65_535; 2], Some(by_link), 1424) && is_full([576; 2], Some(by_link), 1472));
    }

    #[test]
    fn blocks_equal_to_hops_and_one_fewer() {
        let request = |hops| run(&header(2, hops).with(&[standard(1), augmented(8, 1), standard(1)]), false);
        assert_eq!(request(2).unwrap_err(), Drop::Count);
        assert_eq!(request(3).unwrap().answer, REPLIED);
        assert_eq!(request(4).unwrap().answer, SENT_ON);
    }

    #[test]
    fn sent_to_all_routers() {
        let sent = run(&header(1, 9).to_bytes(), false).unwrap();
        let record = [0, 72, 224, 0, 0, 2, 0x82, 0x9b, 0, 1, 10, 0, 1, 1, 0, 0];
        assert_eq!((sent.answer, sent.record), (SENT_ON, record));
        assert_eq!(sent.message[0], 2);
        assert_eq!(sent.message[36..40], [224, 0, 0, 2]);
        assert_eq!(sent.message[70..], [0xff, 0]);
        assert_eq!(sent.recent.to_bytes()[..10], [1, 1, 0, 0, 10, 0, 0, 9, 0, 7]);
    }

    #[test]
    fn prohibited() {
        let reply = run(&header(2, 9).with(&[standard(1)]), true).unwrap();
        let record = [0, 124, 10, 0, 0, 9, 0, 99, 255, 255, 10, 0, 0, 1, 0, 0];
        assert_eq!((reply.answer, reply.record), (REPLIED, record));
        assert_eq!(reply.message[72 + 8..72 + 12], [0; 4]);
        assert_eq!(reply.message[122..], [0, 0x83]);
    }

    #[test]
    fn a_drop_changes_nothing() {
        let mut lent = (vec![1; 195], vec![2; 1480], vec![3; 20]);
        let arrival = Arrival { message: &[], destination: 0, receiving: 0, ttl: 0, time: 0 };
        assert_eq!(step(arrival, &[], &mut lent.0, &mut lent.1, &mut lent.2), 2);
        assert_eq!(lent, (vec![1; 195], vec![2; 1480], vec![3; 20]));
        assert_eq!(step(arrival, &[], &mut [], &mut [0; 1471], &mut [0; 16]), 1);
        assert_eq!(step(arrival, &[], &mut [], &mut [0; 1472], &mut [0; 15]), 1);
    }
}
