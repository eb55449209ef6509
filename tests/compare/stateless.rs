//! One random call of those that are lent no state: hunt, write, list, tidy.

use crate::call::Call;
use crate::calls::{mode, room};
use crate::chains::register;
use crate::model::chain::Chain;
use crate::model::hunt::{hunt, Hunted};
use crate::model::kinds::{size_of, KINDS};
use crate::model::lister::{list, Tables};
use crate::model::numbers::{DONE, PREAMBLE, TWO_PREAMBLES};
use crate::model::output::Written;
use crate::model::tidy::tidy;
use crate::model::writer::{write, Order};
use crate::patches;
use crate::random::Random;
use crate::streams;

/// A kind: mostly the teaching array, at times a larger one or an unknown one.
pub fn kind(random: &mut Random) -> u8 {
    match random.below(40) {
        0 => random.byte(),
        1 => random.pick(&[1, 4, 6, 9, 11]),
        2 => random.pick(&KINDS).0,
        3..=6 => 2,
        _ => 0,
    }
}

/// B2 hidden at a bit position about 0 to 64 and past it, in a filling that has few or no others.
pub fn hunt_call(random: &mut Random) -> Call {
    let p = if random.once_in(4) { random.within(62, 67) } else { random.below(80) };
    let whole = (p + 8 + 7) / 8;
    let length = match random.below(8) {
        0 => random.below(13),
        1 => whole - 1,
        2 => whole,
        3 if random.once_in(20) => whole + random.below(2000),
        _ => whole + random.below(12),
    };
    let mut stream = random.bytes(length);
    match random.below(3) {
        0 => stream.fill(0x00),
        1 => stream.fill(0xFF),
        _ => (),
    }
    for place in 0..8 {
        let at = p + place;
        if at / 8 < length {
            stream[at / 8] &= !(1 << (at % 8));
            stream[at / 8] |= (PREAMBLE >> place & 1) << (at % 8);
        }
    }
    let mut output = vec![0; length];
    let Hunted { length: needed, .. } = hunt(&stream, &mut output);
    Call::Hunt { stream, room: room(random, needed as usize) }
}

pub fn write_call(random: &mut Random) -> Call {
    let kind = kind(random);
    let size = size_of(kind).unwrap_or(52);
    let long = random.once_in(60);
    let count = if long { random.pick(&[254, 255, 255, 256, 256, 257, 511]) } else { random.below(5) };
    let (mut starts, mut ends, mut data) = (Vec::new(), Vec::new(), Vec::new());
    let mut length = 0;
    let sound = random.once_in(2);
    while starts.len() < count {
        let (start, end) = streams::window(random, size);
        let fits = start <= end && end < size;
        if (!fits && (sound || long)) || (long && end - start > 8) {
            continue;
        }
        starts.push(start as u16);
        ends.push(end as u16);
        length += if fits { end - start + 1 } else { 0 };
    }
    if random.once_in(10) && count > 0 {
        // Any numbers at one window.
        let at = random.below(count);
        starts[at] = random.next() as u16;
        ends[at] = random.next() as u16;
    }
    data.extend(random.bytes(length));
    match random.below(10) {
        0 => data.push(random.byte()),
        1 => {
            data.pop();
        }
        2 if random.once_in(4) => data.clear(),
        _ => (),
    }
    match random.below(20) {
        0 => starts.push(random.below(size) as u16),
        1 => {
            ends.pop();
        }
        2 => starts.clear(),
        3 => ends.push(random.below(size) as u16),
        _ => (),
    }
    let address = random.bytes(3);
    let address = [address[0], address[1], address[2]];
    let order = Order { kind, mode: mode(random), control: register(random), address, starts, ends, data };
    let mut output = vec![0; order.data.len() + 5 * order.starts.len() + 8];
    let Written { length: needed, .. } = write(&order, &mut output);
    Call::Write { order, room: room(random, needed as usize) }
}

/// Where the control byte stands in a stream.
fn mode_lead(mode: u8) -> usize {
    if mode == TWO_PREAMBLES {
        2
    } else {
        1
    }
}

pub fn list_call(random: &mut Random) -> Call {
    let kind = kind(random);
    let mode = mode(random);
    let mut kinds = [0; 8];
    kinds[0] = if size_of(kind).is_some() { kind } else { 0 };
    let device = Chain { count: 1, kinds, ..Chain::default() };
    let mut stream = streams::stream(random, &device, &[], mode);
    if random.once_in(2) {
        streams::damage(random, &mut stream);
    }
    if random.once_in(20) && stream.len() > 6 {
        // The check byte asks for one more device; bit 2 of the control byte, if set, comes first.
        stream[mode_lead(mode)] = random.pick(&[0x00, 0x04, 0xFB, 0xFF]);
        if let Some(last) = stream.last_mut() {
            *last = PREAMBLE;
        }
    }
    let full = || vec![0; 255];
    let mut tables = Tables { starts: full(), ends: full(), offsets: vec![0; 255] };
    let windows = list(kind, mode, &stream, &mut tables).windows as usize;
    let mut lengths = [windows + random.below(3), windows + random.below(3), windows + random.below(3)];
    if random.once_in(4) {
        // One of the three is too short, mostly by one.
        lengths[random.below(3)] = if random.once_in(4) { 0 } else { windows.saturating_sub(1) };
    }
    Call::List { kind, mode, stream, lengths, fill: random.byte() }
}

pub fn tidy_call(random: &mut Random) -> Call {
    // Many windows that stay apart are for a larger kind.
    let many = random.once_in(10);
    let kind = if many { random.pick(&KINDS).0 } else { kind(random) };
    let size = size_of(kind).unwrap_or(52);
    let windows = if many { patches::many(random, size) } else { patches::few(random, size) };
    let mut stream = patches::stream(random, size, &windows);
    match random.below(16) {
        0..=2 => streams::damage(random, &mut stream),
        3 => {
            // The check byte asks for one more device; bit 2 of the control byte, if set, comes first.
            let last = stream.len() - 1;
            stream[1] = random.pick(&[0x00, 0x04, 0xFB, 0xFF]);
            stream[last] = PREAMBLE;
        }
        4 | 5 => {
            let more = random.pick(&[1, 1, 7, 60]);
            stream.extend(random.bytes(more));
        }
        _ => (),
    }
    let mut output = vec![0; stream.len()];
    let Written { number, length } = tidy(kind, &stream, &mut output);
    // A refusal, too, is to leave an output that has bytes.
    let needed = if number == DONE { length as usize } else { stream.len() };
    Call::Tidy { kind, stream, room: room(random, needed) }
}
