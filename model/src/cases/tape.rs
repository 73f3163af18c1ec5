//! What a case program reads, and what it must write: commands of 32 bytes, and lines of text.
//!
//! A command's byte 0 says what to do. Those that all programs over bytes share: 0 writes the text
//! from byte 2 on, whose length is byte 1, as the first part of a line; the number of an area puts
//! bytes 4 to 31 into that area, at the place that bytes 2 and 3 give.

use crate::bytes::all_zero;
use std::array::from_fn;

/// Every command has this many bytes.
const COMMAND: usize = 32;
const TEXT: usize = 2;
const PAYLOAD: usize = 4;
const LABEL: u8 = 0;

/// A case program's standard input, and the output that the model expects of it.
#[derive(Default)]
pub struct Tape {
    pub stdin: Vec<u8>,
    pub stdout: String,
}

/// Bytes that a program keeps, as they stand after the commands so far.
#[derive(Clone)]
pub struct Area {
    number: u8,
    pub bytes: Vec<u8>,
}

impl Area {
    pub fn new(number: u8, length: usize) -> Area {
        Area { number, bytes: vec![0; length] }
    }
}

impl Tape {
    pub fn command(&mut self, operation: u8, rest: &[u8]) {
        let mut command = [0; COMMAND];
        command[0] = operation;
        command[1..=rest.len()].copy_from_slice(rest);
        self.stdin.extend(command);
    }

    /// A command with big-endian numbers: the place of each, how many bytes it has, the number.
    pub fn fields(&mut self, operation: u8, fields: &[(usize, usize, u64)]) {
        let mut command = [0; COMMAND];
        for (place, width, number) in fields {
            let bytes = number.to_be_bytes();
            let (unused, bytes) = bytes.split_at(8 - width);
            assert!(all_zero(unused), "{number} in {width} bytes");
            command[*place..place + width].copy_from_slice(bytes);
        }
        self.command(operation, &command[1..]);
    }

    /// A command with numbers from byte 8 on, 8 bytes each.
    pub fn numbers(&mut self, operation: u8, numbers: &[u64]) {
        let fields: Vec<_> = numbers.iter().zip((8..).step_by(8)).map(|(number, place)| (place, 8, *number)).collect();
        self.fields(operation, &fields);
    }

    /// Has the program begin its next line with a text.
    pub fn label(&mut self, text: &str) {
        for piece in text.as_bytes().chunks(COMMAND - TEXT) {
            self.command(LABEL, &[&[piece.len() as u8], piece].concat());
        }
        self.stdout.push_str(text);
    }

    /// The rest of a line that the program is to write.
    pub fn line(&mut self, text: String) {
        self.stdout.push_str(&text);
        self.stdout.push('\n');
    }

    /// Makes the first bytes of an area these, by commands for those that differ.
    pub fn set(&mut self, area: &mut Area, wanted: &[u8]) {
        let size = COMMAND - PAYLOAD;
        while let Some(differs) = (0..wanted.len()).find(|at| area.bytes[*at] != wanted[*at]) {
            let start = differs.min(area.bytes.len() - size);
            let end = (start + size).min(wanted.len());
            area.bytes[start..end].copy_from_slice(&wanted[start..end]);
            let place = (start as u16).to_be_bytes();
            self.command(area.number, &[&[0], &place[..], &area.bytes[start..start + size]].concat());
        }
    }
}

/// Bytes among which none is like its neighbours, so that what is written where it should not be is seen.
pub fn noise<const N: usize>(first: usize) -> [u8; N] {
    from_fn(|place| (first + 7 * place + place / 256) as u8)
}

/// The number that the programs print for all bytes of an area.
pub fn digest(area: &[u8]) -> u64 {
    area.iter().fold(0, |h, byte| (h * 257 + u64::from(*byte) + 1) % 4_294_967_291)
}

#[cfg(test)]
mod tests {
    use super::*;

    #[test]
    fn fields_at_their_places() {
        let mut tape = Tape::default();
        tape.fields(9, &[(2, 2, 0x0102), (28, 4, 0x0304_0506)]);
        tape.numbers(10, &[7, u64::MAX]);
        let mut expected = [[0; COMMAND]; 2];
        expected[0][..4].copy_from_slice(&[9, 0, 1, 2]);
        expected[0][28..].copy_from_slice(&[3, 4, 5, 6]);
        expected[1][0] = 10;
        expected[1][15..24].copy_from_slice(&[7, 255, 255, 255, 255, 255, 255, 255, 255]);
        assert_eq!(tape.stdin, expected.concat());
    }

    #[test]
    #[should_panic(expected = "65536 in 2 bytes")]
    fn a_number_too_large_for_its_field() {
        Tape::default().fields(9, &[(2, 2, 65_536)]);
    }
}
