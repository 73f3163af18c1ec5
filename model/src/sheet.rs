//! A sheet, one router's tables (document 01, "Sheet", "Which route" and the proper last hop; document 02, the MTU): parsed
//! into interfaces and routes, or the rule that it breaks.

use crate::bytes::{all_zero, be16, be32, be64, in_prefix, is_multicast, is_unicast, mask, ALL_ONES};

pub const BLOCK: usize = 512;
pub const MOST_BLOCKS: usize = 16;
pub const MOST_INTERFACES: usize = 64;
/// An incoming interface that is not known.
pub const UNKNOWN: u16 = 65_535;
pub const LEAST_MTU: u16 = 576;

pub const ENTRIES: usize = 4;
pub const SWITCHES: usize = 508;

/// What a block holds: interfaces or routes.
#[derive(Clone, Copy, Debug, PartialEq, Eq, PartialOrd, Ord)]
pub enum Table {
    Interfaces,
    Routes,
}

impl Table {
    fn of(kind: u8) -> Result<Table, Rule> {
        match kind {
            1 => Ok(Table::Interfaces),
            2 => Ok(Table::Routes),
            _ => Err(Rule::BlockKind),
        }
    }

    pub const fn entry_size(self) -> usize {
        match self {
            Table::Interfaces => 28,
            Table::Routes => 56,
        }
    }

    /// Entries in a full block.
    pub fn full(self) -> usize {
        (SWITCHES - ENTRIES) / self.entry_size()
    }
}

/// The rules of a sheet, each named for what it speaks of.
#[derive(Clone, Copy, Debug, PartialEq, Eq)]
pub enum Rule {
    Length,
    Sum,
    BlockNumber,
    BlockKind,
    BlockOrder,
    Used,
    PartlyFilled,
    UnusedBytes,
    Switches,
    TooManyInterfaces,
    InterfaceAddress,
    InterfaceLength,
    InterfaceFlags,
    InterfaceZero,
    InterfaceMtu,
    InterfaceZeros,
    RouteKind,
    RouteLength,
    RouteFlags,
    RouteZero,
    RouteSource,
    RouteGroup,
    RouteUpstream,
    RouteIncoming,
    RouteMaps,
}

#[derive(Clone, Copy, Debug, PartialEq, Eq)]
pub struct Interface {
    pub address: u32,
    pub length: u8,
    pub multicast: bool,
    pub boundary: bool,
    pub threshold: u8,
    pub input: u64,
    pub output: u64,
    pub mtu: u16,
}

#[derive(Clone, Copy, Debug, PartialEq, Eq)]
pub enum Kind {
    SourceAndGroup,
    Group,
    SourceOnly,
}

#[derive(Clone, Copy, Debug, PartialEq, Eq)]
pub enum Upstream {
    None,
    NotKnown,
    Router(u32),
}

#[derive(Clone, Copy, Debug, PartialEq, Eq)]
pub struct Route {
    pub kind: Kind,
    pub length: u8,
    pub rp: bool,
    pub prune_sent: bool,
    pub source: u32,
    pub group: u32,
    pub upstream: Upstream,
    pub incoming: Option<usize>,
    pub protocol: u16,
    pub multicast_protocol: u16,
    pub packets: u64,
    pub forward: u64,
    pub pruned: u64,
    pub stopped: u64,
}

#[derive(Clone, Debug, PartialEq, Eq)]
pub struct Sheet {
    pub prohibited: bool,
    pub interfaces: Vec<Interface>,
    pub routes: Vec<Route>,
}

/// The sum of a block's 16-bit words with end-around carry (RFC 1071).
pub fn sum(block: &[u8]) -> u16 {
    block.chunks_exact(2).fold(0, |sum: u16, word| {
        let (sum, carry) = sum.overflowing_add(be16(word, 0));
        sum + u16::from(carry)
    })
}

/// Ok if the rule is kept.
fn keep(kept: bool, rule: Rule) -> Result<(), Rule> {
    if kept {
        Ok(())
    } else {
        Err(rule)
    }
}

/// A block whose own rules hold: its table, and the bytes of its entries in use.
struct Block<'a> {
    table: Table,
    used: usize,
    entries: &'a [u8],
}

impl<'a> Block<'a> {
    fn parse(bytes: &'a [u8], place: usize) -> Result<Block<'a>, Rule> {
        let table = Table::of(bytes[0])?;
        let used = usize::from(bytes[1]);
        keep(usize::from(be16(bytes, 2)) == place, Rule::BlockNumber)?;
        keep((1..=table.full()).contains(&used), Rule::Used)?;
        let (entries, unused) = bytes[ENTRIES..SWITCHES].split_at(used * table.entry_size());
        keep(all_zero(unused), Rule::UnusedBytes)?;
        let highest_switch = if place == 0 { 1 } else { 0 };
        keep(be16(bytes, SWITCHES) <= highest_switch, Rule::Switches)?;
        keep(sum(bytes) == 0xffff, Rule::Sum)?;
        Ok(Block { table, used, entries })
    }

    fn is_full(&self) -> bool {
        self.used == self.table.full()
    }
}

impl Interface {
    fn parse(entry: &[u8]) -> Result<Interface, Rule> {
        let (address, length, flags, mtu) = (be32(entry, 0), entry[4], entry[5], be16(entry, 24));
        keep(is_unicast(address), Rule::InterfaceAddress)?;
        keep((1..=32).contains(&length), Rule::InterfaceLength)?;
        keep(flags & !3 == 0, Rule::InterfaceFlags)?;
        keep(entry[7] == 0, Rule::InterfaceZero)?;
        keep(mtu >= LEAST_MTU, Rule::InterfaceMtu)?;
        keep(be16(entry, 26) == 0, Rule::InterfaceZeros)?;
        Ok(Interface {
            address,
            length,
            multicast: flags & 1 != 0,
            boundary: flags & 2 != 0,
            threshold: entry[6],
            input: be64(entry, 8),
            output: be64(entry, 16),
            mtu,
        })
    }

    /// Whether an address lies in the interface's subnet.
    pub fn has_in_subnet(&self, address: u32) -> bool {
        in_prefix(address, self.address, self.length)
    }
}

impl Kind {
    fn parse(kind: u8) -> Result<Kind, Rule> {
        match kind {
            1 => Ok(Kind::SourceAndGroup),
            2 => Ok(Kind::Group),
            3 => Ok(Kind::SourceOnly),
            _ => Err(Rule::RouteKind),
        }
    }

    fn allows_length(self, length: u8) -> bool {
        match self {
            Kind::SourceAndGroup => (1..=32).contains(&length),
            Kind::Group => length == 0,
            Kind::SourceOnly => length <= 32,
        }
    }

    fn allows_flags(self, flags: u8) -> bool {
        match self {
            Kind::Group => flags & !3 == 0,
            Kind::SourceAndGroup | Kind::SourceOnly => flags & !2 == 0,
        }
    }

    fn allows_group(self, group: u32) -> bool {
        match self {
            Kind::SourceOnly => group == 0,
            Kind::SourceAndGroup | Kind::Group => is_multicast(group),
        }
    }
}

impl Upstream {
    fn parse(address: u32) -> Result<Upstream, Rule> {
        match address {
            0 => Ok(Upstream::None),
            ALL_ONES => Ok(Upstream::NotKnown),
            router if is_unicast(router) => Ok(Upstream::Router(router)),
            _ => Err(Rule::RouteUpstream),
        }
    }
}

fn parse_incoming(incoming: u16, interfaces: usize) -> Result<Option<usize>, Rule> {
    let number = usize::from(incoming);
    match incoming {
        UNKNOWN => Ok(None),
        _ if number < interfaces => Ok(Some(number)),
        _ => Err(Rule::RouteIncoming),
    }
}

/// Whether a map has bits of these interfaces alone.
fn map_fits(map: u64, interfaces: usize) -> bool {
    map.checked_shr(interfaces as u32).unwrap_or(0) == 0
}

/// Whether a map has an interface's bit.
pub fn has(map: u64, interface: usize) -> bool {
    map >> interface & 1 == 1
}

impl Route {
    fn parse(entry: &[u8], interfaces: usize) -> Result<Route, Rule> {
        let kind = Kind::parse(entry[0])?;
        let (length, flags) = (entry[1], entry[2]);
        let (source, group) = (be32(entry, 4), be32(entry, 8));
        keep(kind.allows_length(length), Rule::RouteLength)?;
        keep(kind.allows_flags(flags), Rule::RouteFlags)?;
        keep(entry[3] == 0 && be16(entry, 22) == 0, Rule::RouteZero)?;
        keep(source & !mask(length) == 0, Rule::RouteSource)?;
        keep(kind.allows_group(group), Rule::RouteGroup)?;
        let upstream = Upstream::parse(be32(entry, 12))?;
        let incoming = parse_incoming(be16(entry, 16), interfaces)?;
        keep(incoming.is_some() || upstream == Upstream::None, Rule::RouteUpstream)?;
        let (forward, pruned, stopped) = (be64(entry, 32), be64(entry, 40), be64(entry, 48));
        keep([forward, pruned, stopped].into_iter().all(|map| map_fits(map, interfaces)), Rule::RouteMaps)?;
        Ok(Route {
            kind,
            length,
            rp: flags & 1 != 0,
            prune_sent: flags & 2 != 0,
            source,
            group,
            upstream,
            incoming,
            protocol: be16(entry, 18),
            multicast_protocol: be16(entry, 20),
            packets: be64(entry, 24),
            forward,
            pruned,
            stopped,
        })
    }

    fn matches_source(&self, source: u32) -> bool {
        in_prefix(source, self.source, self.length)
    }
}

impl Sheet {
    pub fn parse(bytes: &[u8]) -> Result<Sheet, Rule> {
        keep(bytes.chunks_exact(BLOCK).remainder().is_empty(), Rule::Length)?;
        keep((1..=MOST_BLOCKS).contains(&(bytes.len() / BLOCK)), Rule::Length)?;
        let blocks = bytes
            .chunks(BLOCK)
            .enumerate()
            .map(|(place, block)| Block::parse(block, place))
            .collect::<Result<Vec<Block>, Rule>>()?;
        keep(blocks[0].table == Table::Interfaces, Rule::BlockOrder)?;
        for pair in blocks.windows(2) {
            keep(pair[0].table <= pair[1].table, Rule::BlockOrder)?;
            keep(pair[0].table != pair[1].table || pair[0].is_full(), Rule::PartlyFilled)?;
        }
        let interfaces =
            entries(&blocks, Table::Interfaces).map(Interface::parse).collect::<Result<Vec<Interface>, Rule>>()?;
        keep(interfaces.len() <= MOST_INTERFACES, Rule::TooManyInterfaces)?;
        let routes = entries(&blocks, Table::Routes)
            .map(|entry| Route::parse(entry, interfaces.len()))
            .collect::<Result<Vec<Route>, Rule>>()?;
        Ok(Sheet { prohibited: be16(bytes, SWITCHES) == 1, interfaces, routes })
    }

    /// The lowest interface with this address.
    pub fn holder(&self, address: u32) -> Option<usize> {
        self.interfaces.iter().position(|interface| interface.address == address)
    }

    /// The number of the route chosen for a source and a group, either of which may be all ones.
    pub fn choose(&self, source: u32, group: u32) -> Option<usize> {
        match (source, group) {
            (ALL_ONES, ALL_ONES) => None,
            (ALL_ONES, _) => self.first_of_group(group),
            (_, ALL_ONES) => self.longest(Kind::SourceOnly, 0, source),
            _ => self
                .longest(Kind::SourceAndGroup, group, source)
                .or_else(|| self.first_of_group(group))
                .or_else(|| self.longest(Kind::SourceOnly, 0, source)),
        }
    }

    fn first_of_group(&self, group: u32) -> Option<usize> {
        self.routes.iter().position(|route| route.kind == Kind::Group && route.group == group)
    }

    /// The longest route of a kind and group that matches a source; of equal ones the earliest.
    fn longest(&self, kind: Kind, group: u32, source: u32) -> Option<usize> {
        self.routes
            .iter()
            .enumerate()
            .filter(|(_, route)| route.kind == kind && route.group == group && route.matches_source(source))
            .min_by_key(|(place, route)| (32 - route.length, *place))
            .map(|(place, _)| place)
    }

    /// Whether this is the proper last hop for a client, by the route chosen.
    pub fn is_last_hop(&self, chosen: Option<&Route>, client: u32) -> bool {
        let serves = |route: &Route| {
            self.interfaces.iter().enumerate().any(|(number, interface)| {
                interface.multicast && has(route.forward, number) && interface.has_in_subnet(client)
            })
        };
        chosen.is_some_and(|route| route.rp || serves(route))
    }
}

/// The entries in use of all blocks of a table, in order.
fn entries<'a>(blocks: &'a [Block], table: Table) -> impl Iterator<Item = &'a [u8]> {
    blocks
        .iter()
        .filter(move |block| block.table == table)
        .flat_map(move |block| block.entries.chunks(table.entry_size()))
}

#[cfg(test)]
mod tests {
    use super::*;
    use crate::build::{ip, mend_all, InterfaceEntry, RouteEntry, SheetPlan};

    const GROUP: u32 = ip(232, 1, 1, 1);

    fn interfaces(count: usize) -> Vec<InterfaceEntry> {
        (0..count).map(|i| InterfaceEntry::new(ip(10, 0, i as u8, 1), 24)).collect()
    }

    fn with_routes(routes: Vec<RouteEntry>) -> SheetPlan {
        SheetPlan { interfaces: interfaces(2), routes, ..SheetPlan::default() }
    }

    #[test]
    fn shapes() {
        for (count, valid) in [(1, true), (18, true), (19, true), (36, true), (37, true), (64, true), (65, false)] {
            let sheet = SheetPlan { interfaces: interfaces(count), ..SheetPlan::default() };
            let expected = if valid { Ok(count) } else { Err(Rule::TooManyInterfaces) };
            let bytes = sheet.to_bytes();
            assert_eq!(bytes.len(), BLOCK * count.div_ceil(18));
            assert_eq!(Sheet::parse(&bytes).map(|sheet| sheet.interfaces.len()), expected);
        }
        let many = |count| with_routes(vec![RouteEntry::group(GROUP); count]).to_bytes();
        assert_eq!(Sheet::parse(&many(135)).map(|sheet| sheet.routes.len()), Ok(135));
        assert_eq!(Sheet::parse(&many(136)), Err(Rule::Length));
        assert_eq!(Sheet::parse(&[]), Err(Rule::Length));
        assert_eq!(Sheet::parse(&many(1)[..1023]), Err(Rule::Length));
    }

    #[test]
    fn mtus() {
        let with = |change: fn(&mut InterfaceEntry)| {
            let mut plan = with_routes(Vec::new());
            change(&mut plan.interfaces[1]);
            Sheet::parse(&plan.to_bytes()).map(|sheet| sheet.interfaces[1].mtu)
        };
        assert_eq!(with(|_| ()), Ok(1500));
        assert_eq!([with(|entry| entry.mtu = 0), with(|entry| entry.mtu = 575)], [Err(Rule::InterfaceMtu); 2]);
        assert_eq!([with(|entry| entry.mtu = 576), with(|entry| entry.mtu = 65_535)], [Ok(576), Ok(65_535)]);
        assert_eq!([with(|entry| entry.zeros = 1), with(|entry| entry.zeros = 256)], [Err(Rule::InterfaceZeros); 2]);
    }

    #[test]
    fn no_byte_can_change_alone() {
        let mut sheet = with_routes(vec![RouteEntry::group(GROUP)]).to_bytes();
        for at in 0..sheet.len() {
            sheet[at] ^= 1;
            assert!(Sheet::parse(&sheet).is_err());
            sheet[at] ^= 1;
        }
    }

    #[test]
    fn both_zeros_of_the_check_word() {
        let mut sheet = SheetPlan { interfaces: interfaces(1), ..SheetPlan::default() }.to_bytes();
        let check = be16(&sheet, 510);
        sheet[26..28].copy_from_slice(&check.to_be_bytes());
        for check in [[0, 0], [0xff, 0xff]] {
            sheet[510..].copy_from_slice(&check);
            assert!(Sheet::parse(&sheet).is_ok());
        }
        sheet[510..].copy_from_slice(&[0, 1]);
        assert_eq!(Sheet::parse(&sheet), Err(Rule::Sum));
    }

    #[test]
    fn a_partly_filled_block_is_the_last_of_its_kind() {
        let mut sheet = SheetPlan { interfaces: interfaces(19), ..SheetPlan::default() }.to_bytes();
        sheet[1] = 17;
        sheet[ENTRIES + 17 * Table::Interfaces.entry_size()..SWITCHES].fill(0);
        mend_all(&mut sheet);
        assert_eq!(Sheet::parse(&sheet), Err(Rule::PartlyFilled));
    }

    #[test]
    fn which_route() {
        let source = ip(203, 0, 113, 9);
        let sheet = Sheet::parse(
            &with_routes(vec![
                RouteEntry::source_only(0, 0),
                RouteEntry::source_only(ip(203, 0, 113, 0), 24),
                RouteEntry::group(GROUP),
                RouteEntry::group(GROUP),
                RouteEntry::source_and_group(ip(203, 0, 0, 0), 16, GROUP),
                RouteEntry::source_and_group(ip(203, 0, 113, 0), 24, GROUP),
                RouteEntry::source_and_group(ip(203, 0, 113, 0), 24, GROUP),
            ])
            .to_bytes(),
        )
        .unwrap();
        assert_eq!(sheet.choose(source, GROUP), Some(5));
        assert_eq!(sheet.choose(ip(203, 0, 1, 1), GROUP), Some(4));
        assert_eq!(sheet.choose(ip(8, 8, 8, 8), GROUP), Some(2));
        assert_eq!(sheet.choose(ALL_ONES, GROUP), Some(2));
        assert_eq!(sheet.choose(source, ALL_ONES), Some(1));
        assert_eq!(sheet.choose(source, GROUP + 1), Some(1));
        assert_eq!(sheet.choose(ip(8, 8, 8, 8), GROUP + 1), Some(0));
        assert_eq!(sheet.choose(ALL_ONES, GROUP + 1), None);
        assert_eq!(sheet.choose(ALL_ONES, ALL_ONES), None);
    }

    #[test]
    fn proper_last_hop() {
        let mut plan = with_routes(vec![RouteEntry { forward: 2, ..RouteEntry::group(GROUP) }]);
        plan.interfaces[1].length = 28;
        let serves = |plan: &SheetPlan, client| {
            let sheet = Sheet::parse(&plan.to_bytes()).unwrap();
            sheet.is_last_hop(sheet.routes.first(), client)
        };
        assert!(serves(&plan, ip(10, 0, 1, 15)) && !serves(&plan, ip(10, 0, 1, 16)));
        assert!(!serves(&plan, ip(10, 0, 0, 15)));
        plan.interfaces[1].flags = 2;
        assert!(!serves(&plan, ip(10, 0, 1, 15)));
        plan.routes[0].flags = 1;
        assert!(serves(&plan, ip(10, 0, 1, 15)) && serves(&plan, ip(99, 0, 0, 1)));
    }
}
