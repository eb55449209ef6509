//! Readable short forms of calls and parts, for the report of a difference.

use crate::call::{Call, Part, Room};
use crate::model::chain::Chain;
use crate::model::eprom::Fetcher;
use std::fmt::Write;

/// The bytes in hex, a long row by its length and its ends.
pub fn hex(bytes: &[u8]) -> String {
    let row = |bytes: &[u8]| bytes.iter().map(|byte| format!("{byte:02X}")).collect::<Vec<_>>().join(" ");
    if bytes.len() <= 420 {
        format!("({}) {}", bytes.len(), row(bytes))
    } else {
        format!("({}) {} .. {}", bytes.len(), row(&bytes[..200]), row(&bytes[bytes.len() - 60..]))
    }
}

pub fn chain(chain: &Chain) -> String {
    let Chain { count, kinds, registers, place: p } = chain;
    let run =
        format!("running {} mode {} check {} device {} awaited {}", p.running, p.mode, p.check, p.device, p.awaited);
    let window = format!("left {} control {:02X} start {} end {} next {}", p.left, p.control, p.start, p.end, p.next);
    let counts = format!("taken {} mismatches {}", p.taken, p.mismatches);
    format!("count {count} kinds {kinds:?} registers {registers:02X?}\n    {run} {window} {counts}")
}

fn room(room: &Room) -> String {
    format!("output of {} filled from {:02X}", room.length, room.fill)
}

fn lent(state: &Chain, memory: &[u8]) -> String {
    format!("{}\n    memory {}", chain(state), hex(memory))
}

pub fn call(call: &Call) -> String {
    match call {
        Call::New { count, kinds, memory } => format!("count {count} kinds {kinds:?} memory of {}", memory.len()),
        Call::Reset { chain, memory } => lent(chain, memory),
        Call::Start { chain, memory, mode, check } => format!("{}\n    mode {mode} check {check}", lent(chain, memory)),
        Call::Byte { chain, memory, byte } => format!("{}\n    byte {byte:02X}", lent(chain, memory)),
        Call::Slice { chain, memory, stream } => format!("{}\n    stream {}", lent(chain, memory), hex(stream)),
        Call::Closing { chain, memory, room: out } => format!("{}\n    {}", lent(chain, memory), room(out)),
        Call::Save { chain, memory, room: out } => format!("{}\n    {}", lent(chain, memory), room(out)),
        Call::PickUp { chain, memory, saved } => format!("{}\n    saved {}", lent(chain, memory), hex(saved)),
        Call::Hunt { stream, room: out } => format!("stream {}\n    {}", hex(stream), room(out)),
        Call::Write { order, room: out } => format!(
            "kind {} mode {} control {:02X} address {:02X?}\n    starts {:?}\n    ends {:?}\n    data {}\n    {}",
            order.kind,
            order.mode,
            order.control,
            order.address,
            order.starts,
            order.ends,
            hex(&order.data),
            room(out)
        ),
        Call::List { kind, mode, stream, lengths, fill } => {
            format!("kind {kind} mode {mode} stream {}\n    tables of {lengths:?} filled from {fill:02X}", hex(stream))
        }
        Call::Drop { chain, memory } => lent(chain, memory),
        Call::Tidy { kind, stream, room: out } | Call::Salvage { kind, stream, room: out } => {
            format!("kind {kind} stream {}\n    {}", hex(stream), room(out))
        }
        Call::FetcherNew { mode } => format!("mode {mode}"),
        Call::Fetch { chain, memory, fetcher: f, eprom, count } => {
            let laid: Vec<String> =
                eprom.laid.iter().take(100).map(|(at, byte)| format!("{at:05X}:{byte:02X}")).collect();
            let eprom = format!("EPROM of {} with {} bytes laid: {}", eprom.length, eprom.laid.len(), laid.join(" "));
            format!("{}\n    {}\n    {eprom}\n    {count} to be fetched", lent(chain, memory), fetcher(f))
        }
        Call::LoadSheet { kind, mode, streams, lengths, tables, fill } => {
            let few = &lengths[..lengths.len().min(40)];
            let lengths = format!("{} lengths: {few:?}", lengths.len());
            let tables = format!("tables of {tables:?} filled from {fill:02X}");
            format!("kind {kind} mode {mode}\n    streams {}\n    {lengths}\n    {tables}", hex(streams))
        }
        Call::Month { kind, mode, stream, times, more } => {
            format!("kind {kind} mode {mode} stream {}\n    {times} times, and {more} bytes more", hex(stream))
        }
    }
}

fn fetcher(fetcher: &Fetcher) -> String {
    let Fetcher { counter, control, address, nulled } = fetcher;
    format!("counter {counter:05X} control {control:02X} address {address:02X?} nulled {nulled}")
}

/// The first rows of a sheet.
fn rows(figures: &[u32]) -> String {
    let rows: Vec<String> = figures.chunks(6).take(40).map(|row| format!("{row:?}")).collect();
    format!("{} figures {}", figures.len(), rows.join(" "))
}

fn part(part: &Part) -> String {
    match part {
        Part::Made(made) => format!("number {}, {}", made.number, chain(&made.chain)),
        Part::Fed(fed) => {
            let answer = &fed.answer;
            format!(
                "number {} taken {} mismatches {}, {}",
                answer.number,
                answer.taken,
                answer.mismatches,
                chain(&fed.chain)
            )
        }
        Part::Written(written) => format!("number {} length {}", written.number, written.length),
        Part::Hunted(hunted) => format!("{hunted:?}"),
        Part::Listed(listed) => format!("{listed:?}"),
        Part::Salvaged(salvaged) => format!("{salvaged:?}"),
        Part::Fetcher(one) => fetcher(one),
        Part::Fetched(fetched) => {
            let answer = &fetched.answer;
            format!(
                "number {} taken {} mismatches {}, {}\n    {}",
                answer.number,
                answer.taken,
                answer.mismatches,
                chain(&fetched.chain),
                fetcher(&fetched.fetcher)
            )
        }
        Part::Sheet(sheet) => format!("{sheet:?}"),
        Part::Figures(table) => rows(table),
        Part::Memory(bytes) => format!("memory {}", hex(bytes)),
        Part::Output(bytes) => format!("output {}", hex(bytes)),
        Part::Starts(table) => format!("starts {table:?}"),
        Part::Ends(table) => format!("ends {table:?}"),
        Part::Offsets(table) => format!("offsets {table:?}"),
    }
}

/// The parts that differ, both ways.
pub fn differences(model: &[Part], archive: &[Part]) -> String {
    let mut text = String::new();
    let say = |one: Option<&Part>| one.map_or("nothing".to_string(), part);
    for index in 0..model.len().max(archive.len()) {
        let (ours, theirs) = (model.get(index), archive.get(index));
        if ours != theirs {
            let _ = writeln!(text, "  part {index}\n   the model: {}\n   the archive: {}", say(ours), say(theirs));
        }
    }
    text
}
