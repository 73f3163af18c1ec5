//! Builders: sheets from entries with their check words, and messages from fields. They build what
//! they are told, right or wrong.

use crate::message::{AUGMENTED_BLOCK, HEADER, STANDARD, STANDARD_BLOCK};
use crate::reply::Fields;
use crate::sheet::{sum, Table, BLOCK, UNKNOWN};

/// The fields of an interface entry as they stand in a sheet.
#[derive(Clone, Copy, Debug, PartialEq, Eq)]
pub struct InterfaceEntry {
    pub address: u32,
    pub length: u8,
    pub flags: u8,
    pub threshold: u8,
    pub zero: u8,
    pub input: u64,
    pub output: u64,
    pub mtu: u16,
    pub zeros: u16,
}

impl InterfaceEntry {
    /// A multicast interface, with the MTU of Ethernet.
    pub fn new(address: u32, length: u8) -> InterfaceEntry {
        InterfaceEntry { address, length, flags: 1, threshold: 0, zero: 0, input: 0, output: 0, mtu: 1500, zeros: 0 }
    }

    fn to_bytes(self) -> Vec<u8> {
        let mut bytes = self.address.to_be_bytes().to_vec();
        bytes.extend([self.length, self.flags, self.threshold, self.zero]);
        bytes.extend(self.input.to_be_bytes());
        bytes.extend(self.output.to_be_bytes());
        bytes.extend(self.mtu.to_be_bytes());
        bytes.extend(self.zeros.to_be_bytes());
        bytes
    }
}

/// The fields of a route entry as they stand in a sheet.
#[derive(Clone, Copy, Debug, PartialEq, Eq)]
pub struct RouteEntry {
    pub kind: u8,
    pub length: u8,
    pub flags: u8,
    pub zero: u8,
    pub source: u32,
    pub group: u32,
    pub upstream: u32,
    pub incoming: u16,
    pub protocol: u16,
    pub multicast: u16,
    pub zeros: u16,
    pub packets: u64,
    pub forward: u64,
    pub pruned: u64,
    pub stopped: u64,
}

impl RouteEntry {
    fn new(kind: u8, length: u8, source: u32, group: u32) -> RouteEntry {
        RouteEntry {
            kind,
            length,
            flags: 0,
            zero: 0,
            source,
            group,
            upstream: 0,
            incoming: UNKNOWN,
            protocol: 0,
            multicast: 0,
            zeros: 0,
            packets: 0,
            forward: 0,
            pruned: 0,
            stopped: 0,
        }
    }

    /// Kind 1, incoming unknown, no upstream.
    pub fn source_and_group(source: u32, length: u8, group: u32) -> RouteEntry {
        RouteEntry::new(1, length, source, group)
    }

    /// Kind 2, likewise.
    pub fn group(group: u32) -> RouteEntry {
        RouteEntry::new(2, 0, 0, group)
    }

    /// Kind 3, likewise.
    pub fn source_only(source: u32, length: u8) -> RouteEntry {
        RouteEntry::new(3, length, source, 0)
    }

    /// By an interface, from an upstream router, forwarding to the interfaces of a map.
    pub fn by(self, incoming: u16, upstream: u32, forward: u64) -> RouteEntry {
        RouteEntry { incoming, upstream, forward, ..self }
    }

    fn to_bytes(self) -> Vec<u8> {
        let mut bytes = vec![self.kind, self.length, self.flags, self.zero];
        for address in [self.source, self.group, self.upstream] {
            bytes.extend(address.to_be_bytes());
        }
        for number in [self.incoming, self.protocol, self.multicast, self.zeros] {
            bytes.extend(number.to_be_bytes());
        }
        for number in [self.packets, self.forward, self.pruned, self.stopped] {
            bytes.extend(number.to_be_bytes());
        }
        bytes
    }
}

/// A router's tables, to be laid out as a sheet.
#[derive(Clone, Debug, Default)]
pub struct SheetPlan {
    pub prohibited: bool,
    pub interfaces: Vec<InterfaceEntry>,
    pub routes: Vec<RouteEntry>,
}

impl SheetPlan {
    pub fn to_bytes(&self) -> Vec<u8> {
        let interfaces = self.interfaces.iter().map(|entry| entry.to_bytes());
        let routes = self.routes.iter().map(|entry| entry.to_bytes());
        let mut sheet = lay_out(Table::Interfaces, &interfaces.collect::<Vec<_>>(), 0);
        sheet.extend(lay_out(Table::Routes, &routes.collect::<Vec<_>>(), sheet.len() / BLOCK));
        sheet[509] = u8::from(self.prohibited);
        mend_all(&mut sheet);
        sheet
    }
}

/// The blocks of one table, numbered from `first`, their check words still 0.
fn lay_out(table: Table, entries: &[Vec<u8>], first: usize) -> Vec<u8> {
    let kind = match table {
        Table::Interfaces => 1,
        Table::Routes => 2,
    };
    let blocks = entries.chunks(table.full()).zip(first..).map(|(entries, number)| {
        let mut block = vec![kind, entries.len() as u8];
        block.extend((number as u16).to_be_bytes());
        block.extend(entries.concat());
        block.resize(BLOCK, 0);
        block
    });
    blocks.collect::<Vec<_>>().concat()
}

/// Gives each block the check word by which its words sum to 0xFFFF.
pub fn mend_all(sheet: &mut [u8]) {
    for block in sheet.chunks_exact_mut(BLOCK) {
        block[510..].fill(0);
        let check = !sum(block);
        block[510..].copy_from_slice(&check.to_be_bytes());
    }
}

/// A message's header.
#[derive(Clone, Copy, Debug)]
pub struct Header {
    pub kind: u8,
    pub length: u16,
    pub hops: u8,
    pub group: u32,
    pub source: u32,
    pub client: u32,
    pub id: u16,
    pub port: u16,
}

impl Header {
    pub fn to_bytes(self) -> Vec<u8> {
        let mut bytes = vec![self.kind];
        bytes.extend(self.length.to_be_bytes());
        bytes.push(self.hops);
        for address in [self.group, self.source, self.client] {
            bytes.extend(address.to_be_bytes());
        }
        bytes.extend(self.id.to_be_bytes());
        bytes.extend(self.port.to_be_bytes());
        debug_assert_eq!(bytes.len(), HEADER);
        bytes
    }

    /// The header and then the blocks.
    pub fn with(self, blocks: &[Vec<u8>]) -> Vec<u8> {
        let mut bytes = self.to_bytes();
        bytes.extend(blocks.concat());
        bytes
    }
}

/// A Standard Response Block whose bytes after the length are all `filler`.
pub fn standard(filler: u8) -> Vec<u8> {
    block(STANDARD_BLOCK, STANDARD, filler)
}

/// An Augmented Response Block likewise, of any whole length.
pub fn augmented(length: usize, filler: u8) -> Vec<u8> {
    block(AUGMENTED_BLOCK, length, filler)
}

/// A block of any type likewise.
pub fn block(kind: u8, length: usize, filler: u8) -> Vec<u8> {
    let mut bytes = vec![filler; length];
    bytes[0] = kind;
    bytes[1..3].copy_from_slice(&(length as u16).to_be_bytes());
    bytes
}

/// A Standard Response Block of these fields, zero where it always is.
pub fn standard_with(fields: Fields) -> Vec<u8> {
    let mut bytes = standard(0)[..4].to_vec();
    for number in [fields.time, fields.incoming, fields.outgoing, fields.upstream] {
        bytes.extend(number.to_be_bytes());
    }
    for count in [fields.input, fields.output, fields.total] {
        bytes.extend(count.to_be_bytes());
    }
    for protocol in [fields.protocol, fields.multicast] {
        bytes.extend(protocol.to_be_bytes());
    }
    bytes.extend([fields.ttl, 0, u8::from(fields.s) << 7 | fields.mask, fields.code]);
    bytes
}

/// An address from its four octets.
pub const fn ip(a: u8, b: u8, c: u8, d: u8) -> u32 {
    u32::from_be_bytes([a, b, c, d])
}
