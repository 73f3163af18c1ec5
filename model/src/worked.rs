//! The yard and the Query of document 01, "Worked through".

use crate::build::{ip, Header, InterfaceEntry, RouteEntry, SheetPlan};
use crate::walk::{Start, SHEET};

const GROUP: u32 = ip(232, 1, 1, 1);
pub const DESTINATION: u32 = ip(192, 0, 2, 1);

fn router(interfaces: [u32; 2], upstream: u32) -> SheetPlan {
    let route = RouteEntry::source_and_group(ip(203, 0, 113, 0), 24, GROUP).by(1, upstream, 1);
    let interfaces = interfaces.map(|address| InterfaceEntry::new(address, 24)).to_vec();
    SheetPlan { interfaces, routes: vec![route], ..SheetPlan::default() }
}

/// Two routers; the second one's upstream is 0 in P1.
pub fn routers(upstream_of_second: u32) -> [SheetPlan; 2] {
    let first = router([DESTINATION, ip(198, 51, 100, 1)], ip(198, 51, 100, 2));
    let second = router([ip(198, 51, 100, 2), ip(203, 0, 113, 1)], upstream_of_second);
    [first, second]
}

pub fn yard(upstream_of_second: u32) -> Vec<u8> {
    let yard = routers(upstream_of_second).map(|router| router.to_bytes()).concat();
    assert_eq!(yard.len(), 2 * SHEET);
    yard
}

pub fn query(hops: u8) -> Vec<u8> {
    let (source, client) = (ip(203, 0, 113, 9), ip(192, 0, 2, 50));
    Header { kind: 1, length: 20, hops, group: GROUP, source, client, id: 0, port: 40_000 }.to_bytes()
}

/// The Query as it comes to interface 0 of router 0.
pub fn start(query: &[u8]) -> Start<'_> {
    Start { message: query, router: 0, receiving: 0, destination: DESTINATION, ttl: 0 }
}

#[cfg(test)]
mod tests {
    use super::*;
    use crate::walk::{walk, Walked};

    const BLOCK: usize = 52;

    /// The walk, the last message sent, and the codes of its blocks.
    fn run(upstream_of_second: u32, hops: u8) -> (Walked, Vec<u8>, Vec<u8>) {
        run_in(&yard(upstream_of_second), hops)
    }

    fn run_in(yard: &[u8], hops: u8) -> (Walked, Vec<u8>, Vec<u8>) {
        let mut output = vec![0xee; 1500];
        let walked = walk(yard, &[0, 65_536], start(&query(hops)), &mut output);
        let (message, rest) = output.split_at(walked.length as usize);
        assert!(rest.iter().all(|byte| *byte == 0xee));
        let codes = message.get(20..).unwrap_or(&[]).chunks(BLOCK).map(|block| block[51]).collect();
        (walked, message.to_vec(), codes)
    }

    #[test]
    fn p1() {
        let (walked, message, codes) = run(0, 10);
        assert_eq!(walked, Walked { end: 101, steps: 2, blocks: 2, length: 124 });
        assert_eq!(codes, [0, 0]);
        assert_eq!(message[0], 3);
        assert_eq!(message[1..20], query(10)[1..]);
        let expected = [
            [4, 0, 52, 0, 0, 0, 0, 0, 198, 51, 100, 1, 192, 0, 2, 1, 198, 51, 100, 2],
            [4, 0, 52, 0, 0, 1, 0, 0, 203, 0, 113, 1, 198, 51, 100, 2, 0, 0, 0, 0],
        ];
        for (block, expected) in message[20..].chunks(BLOCK).zip(expected) {
            assert_eq!(block[..20], expected);
            assert_eq!(block[20..48], [0; 28]);
            assert_eq!(block[48..], [0, 0, 0x80 | 24, 0]);
        }
    }

    #[test]
    fn p2() {
        let (walked, message, codes) = run(ip(198, 51, 100, 1), 10);
        assert_eq!(walked, Walked { end: 101, steps: 10, blocks: 10, length: 540 });
        assert_eq!(codes, [0, 0, 9, 0, 9, 0, 9, 0, 9, 0]);
        assert_eq!(message.len(), 540);
    }

    #[test]
    fn p3() {
        let (walked, _, codes) = run(ip(198, 51, 100, 1), 255);
        assert_eq!(walked, Walked { end: 101, steps: 28, blocks: 27, length: 1424 });
        assert_eq!(codes.last(), Some(&129));
    }

    /// P3 where both links have the least MTU.
    #[test]
    fn p3_in_tunnels() {
        let mut routers = routers(ip(198, 51, 100, 1));
        routers.iter_mut().for_each(|router| router.interfaces[1].mtu = 576);
        let (walked, _, codes) = run_in(&routers.map(|router| router.to_bytes()).concat(), 255);
        assert_eq!(walked, Walked { end: 101, steps: 11, blocks: 10, length: 540 });
        assert_eq!(codes, [0, 0, 9, 0, 9, 0, 9, 0, 9, 129]);
    }

    #[test]
    fn p4() {
        let (walked, message, codes) = run(0, 1);
        assert_eq!(walked, Walked { end: 101, steps: 1, blocks: 1, length: 72 });
        assert_eq!((message[0], codes), (3, vec![0]));
    }

    #[test]
    fn p5() {
        let (walked, _, _) = run(0, 0);
        assert_eq!(walked, Walked { end: 8, steps: 1, blocks: 0, length: 0 });
    }
}
