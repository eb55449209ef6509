//! "The monthly load sheet": streams of every sort, one after another in one slice. The calls are compared like all others;
//! what they gave is then held to the document's own words, so that model and archive are not wrong alike.

use crate::call::{written, Call, Part, Room};
use crate::calls::mode;
use crate::model::chain::{Chain, Place};
use crate::model::kinds::{size_of, KINDS};
use crate::model::numbers::*;
use crate::model::sheet::{is_serial, FIGURES, MOST_BYTES, MOST_LENGTHS};
use crate::patches::{few, many, put_window};
use crate::random::Random;
use crate::runs::Make;
use crate::stateless::kind;
use crate::streams;

/// The bits of these bytes from bit p on; the bits before them are zeros, those that fill the last byte are not.
fn at_bit(random: &mut Random, p: usize, bytes: &[u8]) -> Vec<u8> {
    let mut bits = vec![false; p];
    bits.extend(bytes.iter().flat_map(|byte| (0..8).map(move |place| byte >> place & 1 == 1)));
    while bits.len() % 8 != 0 {
        bits.push(random.once_in(2));
    }
    bits.chunks(8).map(|eight| eight.iter().rev().fold(0, |byte, &bit| 2 * byte + bit as u8)).collect()
}

fn position(random: &mut Random) -> usize {
    match random.below(4) {
        0 => 0,
        1 => random.within(1, 7),
        2 => random.pick(&[8, 16, 56, 63, 64, 64]),
        _ => random.within(0, 64),
    }
}

/// A stream as it stands in the slice, and what it is known to come to: its whole bytes, where they begin, how they end,
/// and what they store.
struct Made {
    sent: Vec<u8>,
    p: usize,
    number: u8,
    taken: usize,
    stores: Vec<(usize, u8)>,
    control: Option<u8>,
}

/// A stream of these windows for a device that is not barred: whole, cut, with a bad check byte, start or end. What it comes
/// to is told from where its bytes lie, with no machine.
fn made(random: &mut Random, mode: u8, size: usize, barring: bool) -> Made {
    let windows = if random.once_in(40) { many(random, size) } else { few(random, size) };
    let control = if barring { random.byte() | BIT_4 } else { random.byte() & !BIT_4 };
    let mut bytes = if mode == TWO_PREAMBLES { vec![PREAMBLE, PREAMBLE] } else { vec![PREAMBLE] };
    bytes.push(control);
    let at_control = bytes.len();
    bytes.extend(random.bytes(3));
    let (way, bad) = (random.below(6), random.below(windows.len()));
    bytes.push(255 - windows.len() as u8);
    // Each store with the number of bytes that have been taken when it is made.
    let mut stores = Vec::new();
    let mut refused = None;
    for (index, &(first, last)) in windows.iter().enumerate() {
        let data = random.bytes(last - first + 1);
        let null = random.byte();
        if index == bad && way < 2 {
            let (window, number, ends) =
                if way == 0 { ((size, last), BAD_START, 3) } else { ((first, size), BAD_END, 5) };
            refused = Some((bytes.len() + ends, number));
            put_window(&mut bytes, null, window, &data);
            break;
        }
        put_window(&mut bytes, null, (first, last), &data);
        let begin = bytes.len() - data.len();
        stores.extend(data.iter().enumerate().map(|(i, &byte)| (begin + i + 1, first + i, byte)));
    }
    let (mut taken, mut number) = refused.unwrap_or_else(|| {
        let check = random.pick(&[POSTAMBLE, POSTAMBLE, POSTAMBLE, PREAMBLE, 0x00]);
        bytes.push(check);
        let number = match check {
            POSTAMBLE => DONE,
            PREAMBLE if control & BIT_2 != 0 => ENDS_HERE,
            PREAMBLE => LAST_DEVICE,
            _ => BAD_CHECK_BYTE,
        };
        (bytes.len(), number)
    });
    if random.once_in(3) {
        let at = random.within(is_serial(mode) as usize, bytes.len());
        bytes.truncate(at);
        if at < taken {
            (taken, number) = (at, MORE);
        }
    } else if random.once_in(3) {
        let more = random.within(1, 9);
        bytes.extend(random.bytes(more));
    }
    let stores = stores.into_iter().filter(|&(at, ..)| at <= taken).map(|(_, cell, byte)| (cell, byte)).collect();
    let p = if is_serial(mode) { position(random) } else { 0 };
    let sent = if is_serial(mode) { at_bit(random, p, &bytes) } else { bytes };
    Made { sent, p, number, taken, stores, control: (taken >= at_control).then_some(control) }
}

/// Any stream: one as above, at times damaged, empty, or noise.
fn any(random: &mut Random, mode: u8, size: usize) -> Vec<u8> {
    let barring = random.once_in(9);
    match random.below(12) {
        0 => Vec::new(),
        1 => {
            let noise = random.within(1, 12);
            random.bytes(noise)
        }
        2 | 3 => {
            let mut sent = made(random, mode, size, barring).sent;
            streams::damage(random, &mut sent);
            sent
        }
        4 => {
            let other = random.within(1, 6) as u8;
            made(random, other, size, barring).sent
        }
        _ => made(random, mode, size, barring).sent,
    }
}

/// One random call: a few streams, at times as many lengths as there may be or one more; lengths and tables that fit, or not.
pub fn sheet_call(random: &mut Random) -> Call {
    let large = random.once_in(4000);
    let kind = match random.below(20) {
        _ if large => 0,
        0 => random.pick(&KINDS).0,
        _ => kind(random),
    };
    let mode = mode(random);
    let size = size_of(kind).unwrap_or(52);
    let count = match random.below(12) {
        0 => 0,
        1..=3 => 1,
        4 => random.within(7, 20),
        _ => random.within(2, 6),
    };
    let (mut streams, mut lengths) = (Vec::new(), Vec::new());
    let mut sent = Vec::new();
    for _ in 0..count {
        // At times the same again, which changes no bit.
        if !random.once_in(8) {
            sent = any(random, mode, size);
        }
        lengths.push(sent.len() as u32);
        streams.extend(&sent);
    }
    if large {
        let most = random.pick(&[MOST_LENGTHS - 1, MOST_LENGTHS, MOST_LENGTHS, MOST_LENGTHS + 1]);
        lengths.resize(most, 0);
        let at = random.below(most);
        lengths.swap(at, 0);
    }
    if random.once_in(10) {
        let at = random.below(lengths.len());
        match random.below(5) {
            0 if !lengths.is_empty() => lengths[at] = lengths[at].wrapping_add(1),
            1 if !lengths.is_empty() => lengths[at] = lengths[at].saturating_sub(1),
            2 => lengths.push(random.pick(&[0, 1, u32::MAX, 1 << 31])),
            // Right modulo 2^32.
            3 => lengths.extend([1 << 31, 1 << 31]),
            _ => {
                lengths.pop();
            }
        }
    }
    let room = |random: &mut Random, needed: usize| match random.below(12) {
        0 => needed.saturating_sub(1),
        1 if needed < 200 => random.below(needed + 1),
        2 | 3 => needed + random.within(1, 9),
        _ => needed,
    };
    let tables = [room(random, lengths.len()), room(random, FIGURES * lengths.len())];
    Call::LoadSheet { kind, mode, streams, lengths, tables, fill: random.byte() }
}

/// The number and the six figures of each row, and the sums; nothing where the sheet was refused.
fn rows_of(parts: &[Part], count: usize) -> Option<(Vec<(u8, [u32; FIGURES])>, [u32; FIGURES])> {
    let [Part::Sheet(sheet), Part::Output(numbers), Part::Figures(figures)] = parts else { return None };
    if sheet.number != DONE || numbers.len() < count || figures.len() < FIGURES * count {
        return None;
    }
    let row = |index: usize| {
        let mut row = [0; FIGURES];
        row.copy_from_slice(&figures[FIGURES * index..][..FIGURES]);
        (numbers[index], row)
    };
    Some(((0..count).map(row).collect(), sheet.sums))
}

/// One sheet of streams of which it is known what they store; gives the sentences that do not hold.
pub fn one_sheet(random: &mut Random, make: &mut Make) -> Vec<String> {
    let kind = if random.once_in(20) { 2 } else { 0 };
    let size = size_of(kind).unwrap_or(0);
    let mode = random.within(1, 6) as u8;
    let count = random.within(1, 6);
    let streams: Vec<Made> = (0..count)
        .map(|_| {
            let barring = random.once_in(8);
            made(random, mode, size, barring)
        })
        .collect();
    let slice: Vec<u8> = streams.iter().flat_map(|made| made.sent.clone()).collect();
    let lengths: Vec<u32> = streams.iter().map(|made| made.sent.len() as u32).collect();
    let tables = [count, FIGURES * count];
    let parts = make(Call::LoadSheet { kind, mode, streams: slice, lengths, tables, fill: 0xEE });
    let mut wrong = Vec::new();
    let mut sentence = |text: &str, holds: bool| {
        if !holds {
            wrong.push(format!("load sheet, {text}: does not hold"));
        }
    };
    let Some((rows, sums)) = rows_of(&parts, count) else {
        return vec!["a sheet of sound tables is refused".to_string()];
    };
    for column in 0..FIGURES {
        let sum = rows.iter().map(|(_, row)| row[column] as u64).sum::<u64>();
        sentence("each sum is its column's", sums[column] as u64 == sum);
    }
    let (each, idle) = if is_serial(mode) { (8, 24) } else { (1, 3) };
    let mut memory = vec![0; size];
    let mut barred = false;
    let mut device = Chain { count: 1, kinds: [kind, 0, 0, 0, 0, 0, 0, 0], ..Chain::default() };
    for (made, &(number, row)) in streams.iter().zip(&rows) {
        let [taken, data, cells, again, bits, edges] = row.map(|figure| figure as usize);
        sentence("cells stored again are cells stored", again <= cells && cells <= data && data <= taken);
        sentence("a cell has eight bits", bits <= 8 * cells);
        sentence("edges are those of the bytes taken, p and idle", edges == each * taken + made.p + idle);

        let before = memory.clone();
        let (told, stores) = loads(mode, made, barred);
        let mut times = vec![0; size];
        for (cell, byte) in &stores {
            memory[*cell] = *byte;
            times[*cell] += 1;
        }
        let ones = |(one, other): (&u8, &u8)| (one ^ other).count_ones() as usize;
        sentence("number and bytes taken are told by how the stream was made", (number, taken) == told);
        sentence("data bytes are told by it", data == stores.len());
        sentence("so are distinct cells", cells == times.iter().filter(|&&times| times >= 1).count());
        sentence("so are cells stored more than once", again == times.iter().filter(|&&times| times >= 2).count());
        sentence("so are bits", bits == before.iter().zip(&memory).map(ones).sum::<usize>());
        barred |= made.control.is_some_and(|control| control & BIT_4 != 0);

        let alone = alone(make, device, &before, mode, &made.sent);
        sentence("a row is what the loader's own calls give", (number, taken) == (alone.number, alone.taken as usize));
        sentence("and they find p", alone.p as usize == made.p);
        sentence("and leave that memory", alone.memory == memory);
        device.registers = alone.registers;
    }
    wrong
}

/// Number and bytes taken of a stream, and what it stores.
fn loads(mode: u8, made: &Made, barred: bool) -> ((u8, usize), Vec<(usize, u8)>) {
    // "6 at the preamble: one byte taken, in mode 6 two"; an empty stream, in mode 6 one B2, runs out before that.
    let preambles = if mode == TWO_PREAMBLES { 2 } else { 1 };
    if barred && made.taken >= preambles {
        return ((BARRED, preambles), Vec::new());
    }
    ((made.number, made.taken), made.stores.clone())
}

/// What the loader's own calls say of one stream.
struct Alone {
    number: u8,
    taken: u32,
    p: u8,
    memory: Vec<u8>,
    registers: [u8; 8],
}

/// Hunted where it is serial, started, fed, and closed by its closing bytes where it runs out.
fn alone(make: &mut Make, device: Chain, before: &[u8], mode: u8, sent: &[u8]) -> Alone {
    let memory = before.to_vec();
    let mut alone = Alone { number: NO_PREAMBLE, taken: 0, p: 0, memory, registers: device.registers };
    let mut stream = sent.to_vec();
    if is_serial(mode) {
        let room = Room { length: sent.len(), fill: 0x11 };
        let parts = make(Call::Hunt { stream, room });
        match parts.first() {
            Some(Part::Hunted(hunted)) if hunted.number == DONE => alone.p = hunted.p,
            _ => return alone,
        }
        stream = written(&parts);
    }
    let started = make(Call::Start { chain: device, memory: before.to_vec(), mode, check: 0 });
    let Some(Part::Made(open)) = started.first() else { return alone };
    let parts = make(Call::Slice { chain: open.chain, memory: before.to_vec(), stream });
    let [Part::Fed(fed), Part::Memory(memory), ..] = &parts[..] else { return alone };
    alone.number = fed.answer.number;
    alone.taken = fed.answer.taken;
    alone.memory = memory.clone();
    alone.registers = fed.chain.registers;
    if fed.answer.number == MORE {
        let room = Room { length: memory.len() + 3, fill: 0x22 };
        let closes = written(&make(Call::Closing { chain: fed.chain, memory: memory.clone(), room }));
        let parts = make(Call::Slice { chain: fed.chain, memory: memory.clone(), stream: closes });
        if let [Part::Fed(fed), Part::Memory(memory), ..] = &parts[..] {
            alone.memory = memory.clone();
            alone.registers = fed.chain.registers;
            if fed.chain.place != Place::default() {
                alone.number = NO_RUN;
            }
        }
    }
    alone
}

/// As many streams as there may be, and one more; as many bytes as there may be, and one more.
pub fn whole_months(random: &mut Random, make: &mut Make) -> Vec<String> {
    let mut wrong = Vec::new();
    for count in [MOST_LENGTHS - 1, MOST_LENGTHS, MOST_LENGTHS + 1] {
        for mode in 1..=6 {
            let (lengths, tables) = (vec![0; count], [count, FIGURES * count]);
            let parts = make(Call::LoadSheet { kind: 0, mode, streams: Vec::new(), lengths, tables, fill: 0xEE });
            let wanted = if count > MOST_LENGTHS { BAD_LENGTHS } else { DONE };
            if parts.first().and_then(Part::number) != Some(wanted) {
                wrong.push(format!("a sheet of {count} empty streams in mode {mode} did not give {wanted}"));
            }
        }
    }
    let times = MOST_LENGTHS as u32;
    let each = MOST_BYTES / MOST_LENGTHS;
    for mode in [1, 4] {
        let mut bytes = vec![PREAMBLE, 0x00, 0x00, 0x00, 0x00, 0x00];
        // 204 windows of one cell and those that follow from noise: the stream runs out.
        for _ in 0..each / 5 {
            let cell = random.below(52);
            put_window(&mut bytes, random.byte(), (cell, cell), &random.bytes(1));
        }
        bytes.truncate(each - (mode == 4) as usize);
        let stream = if mode == 4 { at_bit(random, 3, &bytes) } else { bytes };
        for more in [0, 1] {
            let parts = make(Call::Month { kind: 0, mode, stream: stream.clone(), times, more });
            let number = parts.first().and_then(Part::number);
            let wanted = if more == 0 { DONE } else { BAD_LENGTHS };
            if (stream.len(), number) != (each, Some(wanted)) {
                wrong.push(format!("a sheet of {MOST_BYTES} bytes and {more} in mode {mode} gave {number:?}"));
            }
        }
    }
    wrong
}
