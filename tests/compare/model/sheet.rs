//! The monthly load sheet: each stream is fed to the byte machine of one device, a tally for each of its cells is kept,
//! and the memory before is compared with the memory after, bit by bit.

use super::chain::{new, Chain, Place};
use super::closing::closing;
use super::hunt::hunt;
use super::kinds::size_of;
use super::machine::{slice, start, step};
use super::numbers::*;

/// "when there are over 65,536 lengths, they do not sum to the slice, or it is over 67,108,864 bytes"
pub const MOST_LENGTHS: usize = 65_536;
pub const MOST_BYTES: usize = 67_108_864;

/// Of a row: taken, data, cells, again, bits, edges.
pub const FIGURES: usize = 6;

/// The answer: "as sums of these".
#[derive(Clone, Copy, PartialEq, Eq, Debug, Default)]
pub struct Sheet {
    pub number: u8,
    pub sums: [u32; FIGURES],
}

/// One stream: its row, and what the sorts of sheets turn on: p, bits left over, bytes that there were, the place where it
/// stood at its end, how often the cell was stored into that was most.
#[derive(Clone, Copy, PartialEq, Eq, Debug, Default)]
pub struct Row {
    pub number: u8,
    pub figures: [u32; FIGURES],
    pub p: u8,
    pub left: u8,
    pub bytes: usize,
    pub place: Place,
    pub most: u32,
}

pub fn is_serial(mode: u8) -> bool {
    mode == 3 || mode == 4
}

/// The device between two streams.
struct Device {
    chain: Chain,
    memory: Vec<u8>,
}

impl Device {
    fn load(&mut self, mode: u8, stream: &[u8]) -> Row {
        let mut row = Row { bytes: stream.len(), ..Row::default() };
        let mut hunted = vec![0; stream.len()];
        let bytes = if is_serial(mode) {
            let found = hunt(stream, &mut hunted);
            if found.number != DONE {
                // "a failed hunt has 5, 24 edges and else zeros"
                return Row { number: NO_PREAMBLE, figures: [0, 0, 0, 0, 0, 24], ..row };
            }
            (row.p, row.left, row.bytes) = (found.p, found.left, found.length as usize);
            &hunted[..row.bytes]
        } else {
            stream
        };
        let size = self.memory.len();
        let before = self.memory.clone();
        let mut times = vec![0u32; size];
        self.chain = start(self.chain, size, mode, 0).chain;
        row.number = MORE;
        for &byte in bytes {
            let cell = (self.chain.place.awaited == AT_DATA).then_some(self.chain.place.next);
            row.number = step(&mut self.chain, &mut self.memory, byte);
            row.figures[0] += 1;
            if let Some(cell) = cell {
                times[cell as usize] += 1;
            }
            if row.number != MORE {
                break;
            }
        }
        row.place = self.chain.place;
        row.most = times.iter().copied().max().unwrap_or(0);
        row.figures[1] = times.iter().sum();
        row.figures[2] = times.iter().filter(|&&times| times > 0).count() as u32;
        row.figures[3] = times.iter().filter(|&&times| times > 1).count() as u32;
        for (old, new) in before.iter().zip(&self.memory) {
            if old != new {
                row.figures[4] += (0..8).filter(|place| old >> place & 1 != new >> place & 1).count() as u32;
            }
        }
        // "one per byte in parallel modes, eight per byte in serial ones with p added, then 3 or 24 edges to idle"
        let taken = row.figures[0];
        row.figures[5] = if is_serial(mode) { 8 * taken + row.p as u32 + 24 } else { taken + 3 };
        if row.number == MORE {
            // "then closed by uncounted closing bytes"
            let mut closes = vec![0; size + 3];
            let length = closing(&self.chain, &self.memory, &mut closes).length as usize;
            self.chain = slice(self.chain, &mut self.memory, &closes[..length]).chain;
        }
        self.chain.place = Place::default();
        row
    }
}

/// "streams loaded in order into one reset device", of a known kind, in a mode.
pub fn rows(kind: u8, mode: u8, streams: &[u8], lengths: &[u32]) -> Vec<Row> {
    let memory = vec![0; size_of(kind).unwrap_or(0)];
    let chain = new(1, &[kind, 0, 0, 0, 0, 0, 0, 0], &memory).chain;
    let mut device = Device { chain, memory };
    let mut rest = streams;
    let mut rows = Vec::new();
    for &length in lengths {
        let (stream, after) = rest.split_at(length as usize);
        rows.push(device.load(mode, stream));
        rest = after;
    }
    rows
}

/// "Refusals: 23, first, .. ; then 1, 2, 15."
pub fn refusal(kind: u8, mode: u8, streams: usize, lengths: &[u32], numbers: usize, figures: usize) -> Option<u8> {
    let sum: u128 = lengths.iter().map(|&length| length as u128).sum();
    if lengths.len() > MOST_LENGTHS || sum != streams as u128 || streams > MOST_BYTES {
        return Some(BAD_LENGTHS);
    }
    if size_of(kind).is_none() {
        return Some(BAD_CHAIN);
    }
    if !is_mode(mode) {
        return Some(BAD_MODE);
    }
    (numbers < lengths.len() || figures < FIGURES * lengths.len()).then_some(TOO_SHORT)
}

pub fn load_sheet(
    kind: u8,
    mode: u8,
    streams: &[u8],
    lengths: &[u32],
    numbers: &mut [u8],
    figures: &mut [u32],
) -> Sheet {
    if let Some(number) = refusal(kind, mode, streams.len(), lengths, numbers.len(), figures.len()) {
        return Sheet { number, ..Sheet::default() };
    }
    let mut sheet = Sheet::default();
    for (index, row) in rows(kind, mode, streams, lengths).iter().enumerate() {
        numbers[index] = row.number;
        for (column, &figure) in row.figures.iter().enumerate() {
            figures[FIGURES * index + column] = figure;
            // An addition that passed 32 bits would stop here.
            sheet.sums[column] = sheet.sums[column].checked_add(figure).expect("no sum passes 32 bits");
        }
    }
    sheet
}
