//! Salvage: the byte machine of one reset device is fed the stream; the windows that it had whole are written again.

use super::chain::new;
use super::kinds::size_of;
use super::machine::{start, step};
use super::numbers::*;
use super::writer::{write, Order};

const MODE_1: u8 = 1;

/// "a change list: windows kept, windows announced, offset of the byte after the last kept window (6 if none), and the
/// number of the stream's end: 0, its refusal or 16". All but the number is 0 in a refusal.
#[derive(Clone, Copy, PartialEq, Eq, Debug, Default)]
pub struct Salvaged {
    pub number: u8,
    pub kept: u8,
    pub announced: u8,
    pub end: u8,
    pub offset: u64,
    pub length: u64,
}

/// "Refusals: 1 for the kind, 27 for fewer than six bytes, 5 for the preamble, then 15."
pub fn salvage(kind: u8, stream: &[u8], output: &mut [u8]) -> Salvaged {
    let refused = |number| Salvaged { number, ..Salvaged::default() };
    let Some(size) = size_of(kind) else { return refused(BAD_CHAIN) };
    if stream.len() < 6 {
        return refused(NO_HEAD);
    }
    if stream[0] != PREAMBLE {
        return refused(NO_PREAMBLE);
    }
    let mut order = Order {
        kind,
        mode: MODE_1,
        control: stream[1],
        address: [stream[2], stream[3], stream[4]],
        starts: Vec::new(),
        ends: Vec::new(),
        data: Vec::new(),
    };
    let mut memory = vec![0; size];
    let fresh = new(1, &[kind, 0, 0, 0, 0, 0, 0, 0], &memory).chain;
    let mut chain = start(fresh, size, MODE_1, 0).chain;
    let (mut offset, mut end) = (6, MORE);
    let mut data = Vec::new();
    for (index, &byte) in stream.iter().enumerate() {
        let before = chain.place;
        end = step(&mut chain, &mut memory, byte);
        if end != MORE {
            break;
        }
        if before.awaited == AT_DATA {
            data.push(byte);
        }
        // "keep the whole windows": with this byte there is one less to come.
        if chain.place.left < before.left {
            order.starts.push(before.start);
            order.ends.push(before.end);
            order.data.append(&mut data);
            offset = index + 1;
        }
    }
    // "Write a sound stream with the right count and 4D".
    let written = write(&order, output);
    if written.number != DONE {
        return refused(written.number);
    }
    Salvaged {
        number: DONE,
        kept: order.starts.len() as u8,
        announced: 255 - stream[5],
        end,
        offset: offset as u64,
        length: written.length,
    }
}
