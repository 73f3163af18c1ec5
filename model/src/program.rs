//! The program `walk` (document 01, "Worked through"): 16 bytes that say where the Query arrives, the
//! Query, and the yard; the walk's end and its blocks as text.

use crate::bytes::{be16, be32};
use crate::message::{blocks, BlockType, HEADER, MOST};
use crate::walk::{walk, Start, Walked, SHEET};

const ARRIVAL: usize = 16;

/// What the program writes when it reads these bytes.
pub fn run(input: &[u8]) -> String {
    let mut head = input[..input.len().min(ARRIVAL + HEADER)].to_vec();
    head.resize(ARRIVAL + HEADER, 0);
    let yard = input.get(ARRIVAL + HEADER..).unwrap_or(&[]);
    let start = Start {
        message: &head[ARRIVAL..],
        router: be16(&head, 0).into(),
        receiving: be16(&head, 2).into(),
        destination: be32(&head, 4),
        ttl: head[8].into(),
    };
    let times: Vec<u32> = (0..yard.len() / SHEET).map(|router| 65_536 * router as u32).collect();
    let mut output = [0; MOST];
    let walked = walk(yard, &times, start, &mut output);
    first_line(&walked) + &block_lines(&output[..walked.length as usize])
}

fn first_line(walked: &Walked) -> String {
    let Walked { end, steps, blocks, .. } = walked;
    let end = if *end == 101 { "reply".to_string() } else { end.to_string() };
    format!("{end} steps {steps} blocks {blocks}\n")
}

/// A line for each type 4 block of the last message; none if no message was sent.
fn block_lines(message: &[u8]) -> String {
    let blocks = blocks(message).unwrap_or_default();
    let standard = blocks.iter().filter(|block| block.kind == BlockType::Standard);
    let lines = standard.zip(1..).map(|(block, place)| {
        let bytes = &message[block.at..block.at + block.length];
        let [incoming, outgoing, upstream] = [8, 12, 16].map(|at| dotted(&bytes[at..at + 4]));
        format!("{place} out {outgoing} in {incoming} up {upstream} code {}\n", bytes[51])
    });
    lines.collect()
}

fn dotted(address: &[u8]) -> String {
    address.iter().map(u8::to_string).collect::<Vec<_>>().join(".")
}

/// The program's input for a walk whose numbers its fields can hold.
pub fn input(start: Start, yard: &[u8]) -> Vec<u8> {
    let short = |number: u32| u16::try_from(number).expect("2 bytes").to_be_bytes();
    let mut head = [0; ARRIVAL];
    head[..2].copy_from_slice(&short(start.router));
    head[2..4].copy_from_slice(&short(start.receiving));
    head[4..8].copy_from_slice(&start.destination.to_be_bytes());
    head[8] = u8::try_from(start.ttl).expect("1 byte");
    [&head, start.message, yard].concat()
}

#[cfg(test)]
mod tests {
    use super::*;
    use crate::build::ip;
    use crate::worked::{query, start, yard};

    fn worked(upstream_of_second: u32, hops: u8) -> String {
        run(&input(start(&query(hops)), &yard(upstream_of_second)))
    }

    #[test]
    fn p1_whole() {
        let expected = "reply steps 2 blocks 2\n\
            1 out 192.0.2.1 in 198.51.100.1 up 198.51.100.2 code 0\n\
            2 out 198.51.100.2 in 203.0.113.1 up 0.0.0.0 code 0\n";
        assert_eq!(worked(0, 10), expected);
    }

    #[test]
    fn p2_to_p5() {
        let back = ip(198, 51, 100, 1);
        let codes = |text: &str| -> Vec<String> {
            text.lines().skip(1).map(|line| line.rsplit(' ').next().unwrap_or("").to_string()).collect()
        };
        assert_eq!(codes(&worked(back, 10)).join(" "), "0 0 9 0 9 0 9 0 9 0");
        assert!(
            worked(back, 255).starts_with("reply steps 28 blocks 27\n") && worked(back, 255).ends_with(" code 129\n")
        );
        assert!(worked(0, 1).starts_with("reply steps 1 blocks 1\n1 out "));
        assert_eq!(worked(0, 0), "8 steps 1 blocks 0\n");
    }

    /// Each number of the first 16 bytes has its place, and the rest of them is not looked at.
    #[test]
    fn where_the_query_arrives() {
        let query = query(10);
        let second = Start { router: 1, receiving: 0, destination: ip(203, 0, 113, 1), ttl: 9, ..start(&query) };
        let mut input = input(second, &yard(0));
        assert_eq!(input[..16], [0, 1, 0, 0, 203, 0, 113, 1, 9, 0, 0, 0, 0, 0, 0, 0]);
        let expected = "reply steps 1 blocks 1\n1 out 198.51.100.2 in 203.0.113.1 up 0.0.0.0 code 6\n";
        assert_eq!(run(&input), expected);
        input[8..16].fill(0xff);
        assert_eq!(run(&input), expected);
        input[3] = 2;
        assert_eq!(run(&input), "4 steps 1 blocks 0\n");
    }

    #[test]
    fn refusals() {
        assert_eq!(run(&[]), "21 steps 0 blocks 0\n");
        let mut input = input(start(&query(10)), &yard(0));
        input.push(0);
        assert_eq!(run(&input), "21 steps 0 blocks 0\n");
        input.pop();
        input[0] = 1;
        assert_eq!(run(&input), "23 steps 0 blocks 0\n");
    }
}
