//! The same work many times over, for counting what one turn costs: run once with few turns and once
//! with more, and divide the difference.

use crate::build::{ip, standard, Header, InterfaceEntry, RouteEntry, SheetPlan};
use crate::engine::{step, Arrival};
use crate::recent::Recent;
use crate::sheet::Sheet;
use crate::walk::walk;
use crate::worked;
use std::hint::black_box;

const GROUP: u32 = ip(232, 1, 1, 1);

/// A valid sheet of so many blocks: full route blocks after one interface block. The route that
/// serves [`request`] is the last.
pub fn sheet(blocks: usize) -> Vec<u8> {
    let interfaces = vec![InterfaceEntry::new(ip(10, 7, 0, 1), 24), InterfaceEntry::new(ip(10, 7, 1, 1), 24)];
    let others = (1..9 * (blocks - 1)).map(|number| RouteEntry::group(GROUP + number as u32));
    let last = (blocks > 1).then(|| RouteEntry::group(GROUP));
    let routes = others.chain(last).map(|route| route.by(1, ip(10, 7, 1, 2), 1)).collect();
    SheetPlan { prohibited: false, interfaces, routes }.to_bytes()
}

/// A Request with so many blocks.
pub fn request(blocks: usize) -> Vec<u8> {
    let source = ip(203, 0, 113, 9);
    let client = ip(10, 7, 0, 50);
    let header = Header { kind: 2, length: 20, hops: 255, group: GROUP, source, client, id: 1, port: 40_000 };
    header.with(&vec![standard(0); blocks])
}

/// Checks a sheet of so many blocks.
pub fn check_sheet(blocks: usize, turns: usize) {
    let sheet = sheet(blocks);
    for _ in 0..turns {
        assert!(Sheet::parse(black_box(&sheet)).is_ok());
    }
}

/// Steps with a Request of so many blocks through a sheet of so many.
pub fn step_request(blocks: usize, sheet_blocks: usize, turns: usize) {
    let (message, sheet) = (request(blocks), sheet(sheet_blocks));
    let mut lent = (Recent::default().to_bytes(), vec![0; 1472], vec![0; 16]);
    for _ in 0..turns {
        let arrival =
            Arrival { message: black_box(&message), destination: ip(10, 7, 0, 1), receiving: 0, ttl: 255, time: 0 };
        assert!(step(arrival, &sheet, &mut lent.0, &mut lent.1, &mut lent.2) >= 100);
    }
}

/// Walks through the yard of P2 and P3 by so many hops.
pub fn walk_worked(hops: u8, turns: usize) {
    let (yard, query) = (worked::yard(ip(198, 51, 100, 1)), worked::query(hops));
    let mut output = vec![0; 1472];
    for _ in 0..turns {
        assert_eq!(walk(black_box(&yard), &[0, 65_536], worked::start(&query), &mut output).end, 101);
    }
}

#[cfg(test)]
mod tests {
    use super::*;

    #[test]
    fn each_runs() {
        [1, 2, 4, 16].into_iter().for_each(|blocks| assert_eq!(sheet(blocks).len(), 512 * blocks));
        [1, 2, 4, 16].into_iter().for_each(|blocks| check_sheet(blocks, 1));
        [1, 10, 27].into_iter().for_each(|blocks| step_request(blocks, 2, 1));
        step_request(27, 16, 1);
        walk_worked(255, 1);
    }
}
