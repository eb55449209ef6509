//! "Answers other than 0 leave outputs and tables unchanged; on 0 only the needed front part is written and its length
//! answered (0 otherwise)."

use super::numbers::*;

/// The answer of closing, save, write and tidy; the hunt and salvage have figures more.
#[derive(Clone, Copy, PartialEq, Eq, Debug)]
pub struct Written {
    pub number: u8,
    pub length: u64,
}

pub fn refused(number: u8) -> Written {
    Written { number, length: 0 }
}

/// Number 15: "output or table shorter than needed"; else the bytes go into the front of the output.
pub fn put(bytes: &[u8], output: &mut [u8]) -> Written {
    if output.len() < bytes.len() {
        return refused(TOO_SHORT);
    }
    output[..bytes.len()].copy_from_slice(bytes);
    Written { number: DONE, length: bytes.len() as u64 }
}
