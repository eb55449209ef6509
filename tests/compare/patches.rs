//! Streams in mode 1 for one device whose windows meet in every way: touching from either side, a cell apart, over an
//! end, within, around, repeated, in any order, up to 255 of them. They are what the tidier is given.

use crate::chains::register;
use crate::model::numbers::*;
use crate::random::Random;
use crate::states::cell;

/// First and last cell of a window.
pub type Window = (usize, usize);

/// As many data bytes as a stream has at most, so that 255 windows go through the pipe.
const MOST_DATA: usize = 50_000;

/// The windows of a patch: none, one, a few that meet.
pub fn few(random: &mut Random, size: usize) -> Vec<Window> {
    let count = match random.below(12) {
        0 => 0,
        1 | 2 => 1,
        3 if random.once_in(6) => random.within(7, 80),
        _ => random.within(2, 6),
    };
    let windows = meeting(random, size, count);
    ordered(random, windows)
}

/// Up to 255 windows: that meet, in a row, or the whole device in pieces.
pub fn many(random: &mut Random, size: usize) -> Vec<Window> {
    let windows = match random.below(4) {
        0 => {
            let count = random.pick(&[254, 255, 255]);
            meeting(random, size, count)
        }
        1 => pieces(random, size),
        _ => row(random, size),
    };
    ordered(random, windows)
}

/// As they are, ascending, descending, or in any order.
fn ordered(random: &mut Random, mut windows: Vec<Window>) -> Vec<Window> {
    match random.below(4) {
        0 => windows.sort(),
        1 => windows.sort_by(|one, other| other.cmp(one)),
        2 => shuffle(random, &mut windows),
        _ => (),
    }
    windows
}

/// Up to 255 windows of one length, side by side or with as many cells between them.
fn row(random: &mut Random, size: usize) -> Vec<Window> {
    let long = random.within(1, 3);
    let step = long + random.pick(&[0, 0, 1, 1, 2, 5]);
    let count = if random.once_in(3) { random.within(2, 255) } else { 255 };
    (0..count).map(|index| (index * step, index * step + long - 1)).filter(|&(_, end)| end < size).collect()
}

/// The whole device cut into windows, at times without a cell here and there.
fn pieces(random: &mut Random, size: usize) -> Vec<Window> {
    let whole = random.once_in(2);
    let mut cuts = vec![0, size];
    for _ in 0..random.pick(&[1, 5, 40, 254]) {
        cuts.push(random.below(size));
    }
    cuts.sort();
    cuts.dedup();
    let piece = |two: &[usize]| (two[0], if whole || two[1] - two[0] == 1 { two[1] - 1 } else { two[1] - 2 });
    cuts.windows(2).map(piece).collect()
}

/// Windows each of which stands in some way to one before it.
fn meeting(random: &mut Random, size: usize, count: usize) -> Vec<Window> {
    let mut windows: Vec<Window> = Vec::new();
    let mut data = 0;
    while windows.len() < count {
        let (start, end) = match windows.len() {
            0 => anywhere(random, size),
            made => {
                let other = windows[if random.once_in(2) { made - 1 } else { random.below(made) }];
                beside(random, size, other)
            }
        };
        data += end - start + 1;
        if data > MOST_DATA {
            break;
        }
        windows.push((start, end));
    }
    windows
}

/// One cell, a few, at times the whole device or up to its end.
fn anywhere(random: &mut Random, size: usize) -> Window {
    let start = cell(random, size);
    match random.below(24) {
        0 => (0, size - 1),
        1 => (start, (start + random.below(900)).min(size - 1)),
        2..=8 => (start, start),
        _ => (start, (start + random.below(9)).min(size - 1)),
    }
}

/// A window in some way beside another; anywhere, where the device has no such cells.
fn beside(random: &mut Random, size: usize, (first, last): Window) -> Window {
    let (long, more) = (random.below(7), random.within(1, 4));
    let within = (random.within(first, last), random.within(first, last));
    let (start, end) = match random.below(11) {
        // touching, above and below
        0 => (last + 1, last + 1 + long),
        1 if first > long => (first - 1 - long, first - 1),
        // a cell between
        2 => (last + 2, last + 2 + long),
        3 if first > long + 1 => (first - 2 - long, first - 2),
        // over its end, over its start
        4 => (within.0, last + more),
        5 if first >= more => (first - more, within.0),
        6 => (within.0.min(within.1), within.0.max(within.1)),
        7 => (first.saturating_sub(long), last + more),
        8 => (first.saturating_sub(more), last),
        9 => (first, last),
        _ => anywhere(random, size),
    };
    if start < size {
        (start, end.min(size - 1))
    } else {
        anywhere(random, size)
    }
}

pub fn shuffle<T>(random: &mut Random, row: &mut [T]) {
    for at in (1..row.len()).rev() {
        row.swap(at, random.below(at + 1));
    }
}

/// The stream of these windows with any data, null bytes, control byte and address; at times a window is out of range.
pub fn stream(random: &mut Random, size: usize, windows: &[Window]) -> Vec<u8> {
    let mut stream = vec![PREAMBLE, register(random)];
    let address = random.bytes(3);
    stream.extend(address);
    stream.push(255 - windows.len() as u8);
    let bad = if random.once_in(12) { random.below(windows.len()) } else { windows.len() };
    for (index, &(mut start, mut end)) in windows.iter().enumerate() {
        if index == bad {
            (start, end) = random.pick(&[(size, size), (start, size), (end + 1, end)]);
        }
        let data = random.bytes(end + 1 - start);
        let null = if random.once_in(2) { 0 } else { random.byte() };
        put_window(&mut stream, null, (start, end), &data);
    }
    stream.push(POSTAMBLE);
    stream
}

pub fn put_window(stream: &mut Vec<u8>, null: u8, (start, end): Window, data: &[u8]) {
    stream.push(null);
    stream.extend((start as u16).to_be_bytes());
    stream.extend((end as u16).to_be_bytes());
    stream.extend(data);
}
