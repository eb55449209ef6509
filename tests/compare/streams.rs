//! Streams: whole ones by the paper's grammar, cut and damaged ones, and bytes likely to carry an open run on.

use crate::chains::register;
use crate::model::chain::Chain;
use crate::model::machine::step;
use crate::model::numbers::*;
use crate::random::Random;
use crate::states::cell;

/// A whole stream for the chain's devices, at times for one more than there are. Once in a while a window is out of
/// range by one, or a control byte says that the chain ends here though it goes on.
pub fn stream(random: &mut Random, chain: &Chain, memory: &[u8], mode: u8) -> Vec<u8> {
    let mut stream = if mode == TWO_PREAMBLES { vec![PREAMBLE, PREAMBLE] } else { vec![PREAMBLE] };
    let count = chain.count as usize;
    let sections = if random.once_in(10) { count + 1 } else { random.within(1, count) };
    for section in 0..sections {
        let device = section.min(count - 1) as u8;
        let last = section + 1 == sections;
        let mut control = if random.once_in(3) { register(random) } else { 0 };
        if !last {
            control &= !BIT_2;
            control |= if random.once_in(12) { BIT_2 } else { 0 };
        }
        stream.push(control);
        let address = random.bytes(3);
        stream.extend(address);
        windows(random, chain, memory, device, &mut stream);
        stream.push(if last { POSTAMBLE } else { PREAMBLE });
    }
    stream
}

/// The count byte and the windows of one device.
fn windows(random: &mut Random, chain: &Chain, memory: &[u8], device: u8, stream: &mut Vec<u8>) {
    let many = random.once_in(300);
    let count = if many { random.pick(&[255, 254, 128]) } else { random.pick(&[0, 1, 1, 2, 2, 3, 5]) };
    stream.push(255 - count as u8);
    let size = chain.size(device);
    for _ in 0..count {
        let (start, end) = if many {
            let one = cell(random, size);
            (one, one)
        } else {
            window(random, size)
        };
        stream.push(if random.once_in(2) { 0 } else { random.byte() });
        stream.extend((start as u16).to_be_bytes());
        stream.extend((end as u16).to_be_bytes());
        let base = chain.base(device);
        let present = (start..=end).map(|next| memory.get(base + next).copied().unwrap_or(0)).collect();
        stream.extend(data(random, present));
    }
}

/// Data for cells with these present values: all equal, all unlike, all but one equal, half of them equal, or any.
fn data(random: &mut Random, present: Vec<u8>) -> Vec<u8> {
    let mut data = present;
    let one = random.below(data.len());
    let style = random.below(5);
    for (index, byte) in data.iter_mut().enumerate() {
        let unlike = match style {
            0 => false,
            1 => true,
            2 => index == one,
            _ => random.once_in(2),
        };
        if unlike {
            *byte ^= 1 << random.below(8);
        } else if style == 4 {
            *byte = random.byte();
        }
    }
    data
}

/// Start and end of a window: one cell, a few cells, the whole device; rarely out of range by one.
pub fn window(random: &mut Random, size: usize) -> (usize, usize) {
    let start = cell(random, size);
    match random.below(24) {
        0 => (0, size - 1),
        1 => (size, size),
        2 => (start, size),
        3 if start > 0 => (start, start - 1),
        4..=8 => (start, start),
        9 if size < 5000 => (start, size - 1),
        10 => (start, (start + random.below(700)).min(size - 1)),
        _ => (start, (start + random.below(8)).min(size - 1)),
    }
}

/// Cut anywhere, one byte changed, put in or left out, noise, more bytes at the end; at times nothing at all.
pub fn damage(random: &mut Random, stream: &mut Vec<u8>) {
    let length = stream.len();
    let at = random.below(length);
    match random.below(12) {
        0 | 1 => stream.truncate(at),
        2 if length > 0 => stream[at] = random.byte(),
        3 if length > 0 => stream[at] ^= 1 << random.below(8),
        4 => stream.insert(at, random.byte()),
        5 if length > 0 => {
            stream.remove(at);
        }
        6 => {
            let more = random.within(1, 9);
            stream.extend(random.bytes(more));
        }
        7 => {
            let noise = random.below(30);
            *stream = random.bytes(noise);
        }
        8 if length > 0 => {
            // Framing is what is worth a change: most of it is at the front.
            let front = random.below(length.min(16));
            stream[front] = random.pick(&[0x00, 0xFF, 0xFE, PREAMBLE, POSTAMBLE, 0x33, 0x34]);
        }
        9 if length > 0 => stream[length - 1] = random.pick(&[PREAMBLE, 0x00, 0xFF, !PREAMBLE, POSTAMBLE ^ 1]),
        _ => (),
    }
}

/// A byte that an open run may well wait for, with the edges of each refusal.
pub fn likely(random: &mut Random, chain: &Chain, memory: &[u8]) -> u8 {
    let place = &chain.place;
    let size = chain.size(place.device);
    let start = place.start as usize;
    match place.awaited {
        AT_PREAMBLE | AT_SECOND_PREAMBLE => random.pick(&[PREAMBLE, PREAMBLE, PREAMBLE, PREAMBLE, PREAMBLE, !PREAMBLE]),
        AT_CONTROL => register(random),
        AT_COUNT => random.pick(&[0xFF, 0xFE, 0xFE, 0xFD, 0xFC, 0x00, 0x7F]),
        AT_START_HIGH => (size / 256) as u8 - if size > 256 && random.once_in(2) { 1 } else { 0 },
        AT_START_LOW => random.pick(&[0, 9, 255, (size % 256) as u8, (size % 256) as u8 - 1, 51]),
        AT_END_HIGH => random.pick(&[start / 256, start / 256, size / 256, start / 256 + 1]) as u8,
        AT_END_LOW => {
            let low = (start % 256) as u8;
            random.pick(&[low, low.wrapping_sub(1), low.wrapping_add(3), (size % 256) as u8, (size % 256) as u8 - 1])
        }
        AT_DATA if random.once_in(2) => memory[chain.base(place.device) + place.next as usize],
        AT_CHECK_BYTE => random.pick(&[POSTAMBLE, PREAMBLE, PREAMBLE, !PREAMBLE]),
        _ => random.byte(),
    }
}

/// Likely bytes for a well-formed open run, up to its end or so many; after an end there may be more, not to be
/// looked at.
pub fn walk(random: &mut Random, chain: &Chain, memory: &[u8], most: usize) -> Vec<u8> {
    let mut chain = *chain;
    let mut memory = memory.to_vec();
    let mut stream = Vec::new();
    while stream.len() < most {
        let byte = likely(random, &chain, &memory);
        stream.push(byte);
        if step(&mut chain, &mut memory, byte) != MORE {
            let more = random.pick(&[0, 0, 1, 5]);
            stream.extend(random.bytes(more));
            break;
        }
    }
    stream
}
