//! The window lister: it reads a stream for one freshly reset device by running the byte machine over it.

use super::chain::{new, Chain};
use super::kinds::size_of;
use super::machine::{start, step};
use super::numbers::*;

#[derive(Clone, Copy, PartialEq, Eq, Debug, Default)]
pub struct Listed {
    pub number: u8,
    pub windows: u8,
    pub control: u8,
    pub address: [u8; 3],
    pub taken: u32,
}

/// "fills starts, ends and data offsets": the three tables, with what they held before.
#[derive(Clone, PartialEq, Eq, Debug)]
pub struct Tables {
    pub starts: Vec<u16>,
    pub ends: Vec<u16>,
    pub offsets: Vec<u32>,
}

/// "Lister: kind (1), mode, the stream's own number, then 15." "It also answers the window count, the control byte
/// and the external address (all 0 unless its number is 0) and the bytes taken (0 for 1 and 2)."
pub fn list(kind: u8, mode: u8, stream: &[u8], tables: &mut Tables) -> Listed {
    let size = match size_of(kind) {
        None => return Listed { number: BAD_CHAIN, ..Listed::default() },
        Some(size) => size,
    };
    if !is_mode(mode) {
        return Listed { number: BAD_MODE, ..Listed::default() };
    }
    let mut memory = vec![0; size];
    let mut kinds = [0; 8];
    kinds[0] = kind;
    let fresh: Chain = new(1, &kinds, &memory).chain;
    let mut chain = start(fresh, size, mode, 0).chain;

    // "from the preamble that precedes the control byte, which has offset 0": in mode 6 that is the second.
    let lead = if mode == TWO_PREAMBLES { 1 } else { 0 };
    let mut windows: Vec<(u16, u16, u32)> = Vec::new();
    let mut listed = Listed { number: MORE, ..Listed::default() };
    for (index, &byte) in stream.iter().enumerate() {
        let awaited = chain.place.awaited;
        listed.number = step(&mut chain, &mut memory, byte);
        listed.taken = chain.place.taken;
        if listed.number != MORE {
            break;
        }
        match awaited {
            AT_CONTROL => listed.control = byte,
            AT_ADDRESS_LOW..=AT_ADDRESS_HIGH => listed.address[(awaited - AT_ADDRESS_LOW) as usize] = byte,
            // The end's low byte was taken: the window's data begin at the byte after it.
            AT_END_LOW => windows.push((chain.place.start, chain.place.end, (index + 1 - lead) as u32)),
            _ => (),
        }
    }
    let rooms = [tables.starts.len(), tables.ends.len(), tables.offsets.len()];
    if listed.number == DONE && rooms.iter().any(|&room| room < windows.len()) {
        listed.number = TOO_SHORT;
    }
    if listed.number != DONE {
        return Listed { number: listed.number, taken: listed.taken, ..Listed::default() };
    }
    for (row, &(start, end, offset)) in windows.iter().enumerate() {
        tables.starts[row] = start;
        tables.ends[row] = end;
        tables.offsets[row] = offset;
    }
    listed.windows = windows.len() as u8;
    listed
}
