//! A call with all that it is lent, and what the model says of it.

use crate::model::chain::{new, reset, Chain, Made};
use crate::model::closing::closing;
use crate::model::eprom::{fetch, fetcher_new, Fetched, Fetcher};
use crate::model::hunt::{hunt, Hunted};
use crate::model::lister::{list, Listed, Tables};
use crate::model::machine::{byte, drop, slice, start, Fed};
use crate::model::numbers::DONE;
use crate::model::output::Written;
use crate::model::salvage::{salvage, Salvaged};
use crate::model::saved::{pick_up, save};
use crate::model::sheet::{load_sheet, Sheet};
use crate::model::tidy::tidy;
use crate::model::writer::{write, Order};
use std::sync::OnceLock;

/// An output before the call: how long, and the pattern that a refusal has to leave in it.
#[derive(Clone, Copy, Debug)]
pub struct Room {
    pub length: usize,
    pub fill: u8,
}

impl Room {
    pub fn bytes(&self) -> Vec<u8> {
        pattern(self.length, self.fill)
    }
}

/// The pattern that archive.c puts into an output.
pub fn pattern(length: usize, fill: u8) -> Vec<u8> {
    (0..length).map(|index| fill.wrapping_add((31 * index) as u8)).collect()
}

/// What the EPROM has where nothing was laid: archive.c has the same. Neighbours differ, and so do both ends.
fn unlaid(address: usize) -> u8 {
    (31 * address + 7 * (address / 256)) as u8
}

/// An EPROM: how long, and the bytes laid into it, a later one over an earlier one.
#[derive(Clone, Debug)]
pub struct Eprom {
    pub length: usize,
    pub laid: Vec<(u32, u8)>,
}

impl Eprom {
    pub fn bytes(&self) -> Vec<u8> {
        static UNLAID: OnceLock<Vec<u8>> = OnceLock::new();
        let mut bytes = UNLAID.get_or_init(|| (0..MOST_EPROM).map(unlaid).collect())[..self.length].to_vec();
        for &(address, byte) in &self.laid {
            if let Some(place) = bytes.get_mut(address as usize) {
                *place = byte;
            }
        }
        bytes
    }
}

/// The longest EPROM that is lent: some bytes more than a counter reaches.
pub const MOST_EPROM: usize = 131_072 + 128;

#[derive(Clone, Debug)]
pub enum Call {
    New { count: u8, kinds: [u8; 8], memory: Vec<u8> },
    Reset { chain: Chain, memory: Vec<u8> },
    Start { chain: Chain, memory: Vec<u8>, mode: u8, check: u8 },
    Byte { chain: Chain, memory: Vec<u8>, byte: u8 },
    Slice { chain: Chain, memory: Vec<u8>, stream: Vec<u8> },
    Closing { chain: Chain, memory: Vec<u8>, room: Room },
    Save { chain: Chain, memory: Vec<u8>, room: Room },
    PickUp { chain: Chain, memory: Vec<u8>, saved: Vec<u8> },
    Hunt { stream: Vec<u8>, room: Room },
    Write { order: Order, room: Room },
    List { kind: u8, mode: u8, stream: Vec<u8>, lengths: [usize; 3], fill: u8 },
    Drop { chain: Chain, memory: Vec<u8> },
    Tidy { kind: u8, stream: Vec<u8>, room: Room },
    Salvage { kind: u8, stream: Vec<u8>, room: Room },
    FetcherNew { mode: u8 },
    Fetch { chain: Chain, memory: Vec<u8>, fetcher: Fetcher, eprom: Eprom, count: u64 },
    LoadSheet { kind: u8, mode: u8, streams: Vec<u8>, lengths: Vec<u32>, tables: [usize; 2], fill: u8 },
    /// A load sheet too long for the pipe: one stream so many times, and so many bytes more in the last.
    Month { kind: u8, mode: u8, stream: Vec<u8>, times: u32, more: u32 },
}

/// The streams and the lengths of a month.
pub fn month(stream: &[u8], times: u32, more: u32) -> (Vec<u8>, Vec<u32>) {
    let mut streams = stream.repeat(times as usize);
    streams.extend(vec![0; more as usize]);
    let mut lengths = vec![stream.len() as u32; times as usize];
    if let Some(last) = lengths.last_mut() {
        *last += more;
    }
    (streams, lengths)
}

/// A part of a reply, in the order in which archive.c puts them.
#[derive(Clone, PartialEq, Debug)]
pub enum Part {
    Made(Made),
    Fed(Fed),
    Written(Written),
    Hunted(Hunted),
    Listed(Listed),
    Salvaged(Salvaged),
    Fetcher(Fetcher),
    Fetched(Fetched),
    Sheet(Sheet),
    Figures(Vec<u32>),
    Memory(Vec<u8>),
    Output(Vec<u8>),
    Starts(Vec<u16>),
    Ends(Vec<u16>),
    Offsets(Vec<u32>),
}

impl Part {
    pub fn number(&self) -> Option<u8> {
        match self {
            Part::Made(made) => Some(made.number),
            Part::Fed(fed) => Some(fed.answer.number),
            Part::Written(written) => Some(written.number),
            Part::Hunted(hunted) => Some(hunted.number),
            Part::Listed(listed) => Some(listed.number),
            Part::Salvaged(salvaged) => Some(salvaged.number),
            Part::Fetched(fetched) => Some(fetched.answer.number),
            Part::Sheet(sheet) => Some(sheet.number),
            _ => None,
        }
    }
}

/// The front part of the output that a call wrote; nothing where it refused.
pub fn written(parts: &[Part]) -> Vec<u8> {
    let (length, output) = match parts {
        [Part::Written(written), Part::Output(output), ..] => (written.length, output),
        [Part::Hunted(hunted), Part::Output(output), ..] => (hunted.length, output),
        [Part::Salvaged(salvaged), Part::Output(output), ..] => (salvaged.length, output),
        _ => return Vec::new(),
    };
    output[..length as usize].to_vec()
}

/// What the model says: answers, states, memory and outputs after. An in-place call follows its twin with the same
/// parts.
pub fn by_model(call: &Call) -> Vec<Part> {
    match call {
        Call::New { count, kinds, memory } => vec![Part::Made(new(*count, kinds, memory))],
        Call::Reset { chain, memory } => {
            let mut memory = memory.clone();
            vec![Part::Made(reset(*chain, &mut memory)), Part::Memory(memory)]
        }
        Call::Start { chain, memory, mode, check } => {
            let made = start(*chain, memory.len(), *mode, *check);
            vec![Part::Made(made), Part::Made(made)]
        }
        Call::Byte { chain, memory, byte: one } => {
            let mut memory = memory.clone();
            vec![Part::Fed(byte(*chain, &mut memory, *one)), Part::Memory(memory)]
        }
        Call::Slice { chain, memory, stream } => {
            let mut memory = memory.clone();
            let fed = slice(*chain, &mut memory, stream);
            vec![Part::Fed(fed), Part::Memory(memory.clone()), Part::Fed(fed), Part::Memory(memory)]
        }
        Call::Closing { chain, memory, room } => {
            let mut output = room.bytes();
            vec![Part::Written(closing(chain, memory, &mut output)), Part::Output(output)]
        }
        Call::Save { chain, memory, room } => {
            let mut output = room.bytes();
            let written = save(chain, memory.len(), &mut output);
            let mut parts = vec![Part::Written(written), Part::Output(output)];
            if written.number == DONE {
                // "Picking up into a state with no open run, same chain and memory, gives the state saved".
                parts.push(Part::Made(Made { chain: *chain, number: DONE }));
            }
            parts
        }
        Call::PickUp { chain, memory, saved } => {
            let made = pick_up(*chain, memory.len(), saved);
            vec![Part::Made(made), Part::Made(made)]
        }
        Call::Hunt { stream, room } => {
            let mut output = room.bytes();
            vec![Part::Hunted(hunt(stream, &mut output)), Part::Output(output)]
        }
        Call::Write { order, room } => {
            let mut output = room.bytes();
            vec![Part::Written(write(order, &mut output)), Part::Output(output)]
        }
        Call::List { kind, mode, stream, lengths, fill } => {
            let words = |length| {
                let bytes = pattern(2 * length, *fill);
                bytes.chunks(2).map(|two| u16::from_le_bytes([two[0], two[1]])).collect()
            };
            let wide = pattern(4 * lengths[2], *fill);
            let offsets = wide.chunks(4).map(|four| u32::from_le_bytes([four[0], four[1], four[2], four[3]])).collect();
            let mut tables = Tables { starts: words(lengths[0]), ends: words(lengths[1]), offsets };
            let listed = list(*kind, *mode, stream, &mut tables);
            let Tables { starts, ends, offsets } = tables;
            vec![Part::Listed(listed), Part::Starts(starts), Part::Ends(ends), Part::Offsets(offsets)]
        }
        Call::Drop { chain, memory } => vec![Part::Made(drop(*chain, memory.len())), Part::Memory(memory.clone())],
        Call::Tidy { kind, stream, room } => {
            let mut output = room.bytes();
            let once = tidy(*kind, stream, &mut output);
            let mut parts = vec![Part::Written(once), Part::Output(output)];
            if once.number == DONE {
                // "Tidying twice changes nothing": in an output of just that length.
                let tidied = written(&parts);
                parts.extend([Part::Written(once), Part::Output(tidied)]);
            }
            parts
        }
        Call::Salvage { kind, stream, room } => {
            let mut output = room.bytes();
            let once = salvage(*kind, stream, &mut output);
            let mut parts = vec![Part::Salvaged(once), Part::Output(output)];
            if once.number == DONE {
                // "An accepted stream comes out the same": in an output of just that length.
                let again = Salvaged { announced: once.kept, end: DONE, ..once };
                let sound = written(&parts);
                parts.extend([Part::Salvaged(again), Part::Output(sound)]);
            }
            parts
        }
        Call::FetcherNew { mode } => vec![Part::Fetcher(fetcher_new(*mode))],
        Call::Fetch { chain, memory, fetcher, eprom, count } => {
            let mut memory = memory.clone();
            let once = fetch(*chain, *fetcher, &mut memory, &eprom.bytes(), *count);
            // Fetched in two parts, it is the same run.
            vec![Part::Fetched(once), Part::Memory(memory.clone()), Part::Fetched(once), Part::Memory(memory)]
        }
        Call::LoadSheet { kind, mode, streams, lengths, tables, fill } => {
            sheet(*kind, *mode, streams, lengths, *tables, *fill)
        }
        Call::Month { kind, mode, stream, times, more } => {
            let (streams, lengths) = month(stream, *times, *more);
            sheet(*kind, *mode, &streams, &lengths, [lengths.len(), 6 * lengths.len()], 0)
        }
    }
}

fn sheet(kind: u8, mode: u8, streams: &[u8], lengths: &[u32], tables: [usize; 2], fill: u8) -> Vec<Part> {
    let mut numbers = pattern(tables[0], fill);
    let wide = pattern(4 * tables[1], fill);
    let mut figures: Vec<u32> =
        wide.chunks(4).map(|four| u32::from_le_bytes([four[0], four[1], four[2], four[3]])).collect();
    let sheet = load_sheet(kind, mode, streams, lengths, &mut numbers, &mut figures);
    vec![Part::Sheet(sheet), Part::Output(numbers), Part::Figures(figures)]
}
