//! The bit hunt for the serial modes.

use super::numbers::*;
use super::output::{put, Written};

/// The answer: "The hunt shall also answer p and the number of bits left after the last whole byte, both 0 on a refusal."
#[derive(Clone, Copy, PartialEq, Eq, Debug)]
pub struct Hunted {
    pub number: u8,
    pub p: u8,
    pub left: u8,
    pub length: u64,
}

fn refused(number: u8) -> Hunted {
    Hunted { number, p: 0, left: 0, length: 0 }
}

/// "The hunt takes the first bit position p, 0 to 64".
pub const LAST_POSITION: usize = 64;

/// "Serial modes 3 and 4 send each byte least significant bit first."
fn bits_of(stream: &[u8]) -> Vec<bool> {
    let mut bits = Vec::new();
    for &byte in stream {
        for place in 0..8 {
            bits.push(byte >> place & 1 == 1);
        }
    }
    bits
}

/// The byte that eight bits make, the first of them the least significant.
fn byte_of(eight: &[bool]) -> u8 {
    let mut byte = 0;
    for place in 0..8 {
        if eight[place] {
            byte += 1 << place;
        }
    }
    byte
}

/// "It writes the whole bytes that start at p into a lent output and drops a last part byte." "Hunt: 5, 15."
pub fn hunt(stream: &[u8], output: &mut [u8]) -> Hunted {
    let bits = bits_of(stream);
    for p in 0..=LAST_POSITION {
        if p + 8 <= bits.len() && byte_of(&bits[p..p + 8]) == PREAMBLE {
            let mut eights = bits[p..].chunks_exact(8);
            let whole: Vec<u8> = eights.by_ref().map(byte_of).collect();
            let Written { number, length } = put(&whole, output);
            if number != DONE {
                return refused(number);
            }
            return Hunted { number, p: p as u8, left: eights.remainder().len() as u8, length };
        }
    }
    refused(NO_PREAMBLE)
}
