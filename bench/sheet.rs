//! The load sheet in safe Rust, to be raced: each stream goes through the loader of loader.rs, then its windows are walked, and each cell of
//! theirs is marked where they are not in order.
use crate::files;
use crate::loader::{size_of, Chain};
use std::ops::Range;

/// The sums, as at6000_sheet has them.
#[repr(C)]
#[derive(Clone, Copy, Default, PartialEq, Debug)]
pub struct Sheet {
    pub number: u8,
    pub taken: u32,
    pub data: u32,
    pub cells: u32,
    pub again: u32,
    pub bits: u32,
    pub edges: u32,
}

pub const FIGURES: usize = 6;
pub const MOST_BYTES: usize = 67_108_864;
const MOST_STREAMS: usize = 65_536;
const HEAD: usize = 6;

/// The cells that the bytes taken store into: the first and how many, window by window.
fn windows(bytes: &[u8]) -> impl Iterator<Item = (usize, usize)> + '_ {
    let mut rest = bytes.get(HEAD..).unwrap_or(&[]);
    let mut left = bytes.get(HEAD - 1).map_or(0, |count| !count);
    std::iter::from_fn(move || {
        let (&[_, a, b, c, d], data) = rest.split_first_chunk()?;
        let (start, end) = (u16::from_be_bytes([a, b]) as usize, u16::from_be_bytes([c, d]) as usize);
        left = left.checked_sub(1)?;
        let have = (end + 1).checked_sub(start)?.min(data.len());
        rest = &data[have..];
        Some((start, have))
    })
}

/// Data bytes, distinct cells, cells stored more than once; and the cells between which all of them lie.
fn count(bytes: &[u8], marks: &mut [u8]) -> ([u32; 3], Range<usize>) {
    let (mut data, mut low, mut top, mut ordered) = (0, marks.len(), 0, true);
    for (start, have) in windows(bytes).filter(|(_, have)| *have > 0) {
        ordered &= top <= start;
        low = low.min(start);
        top = top.max(start + have);
        data += have as u32;
    }
    let between = low.min(top)..top;
    if ordered {
        return ([data, data, 0], between);
    }
    marks[between.clone()].fill(0);
    for (start, have) in windows(bytes) {
        marks[start..start + have].iter_mut().for_each(|m| *m = m.saturating_add(1));
    }
    let over = |k| marks[between.clone()].iter().map(|m| (*m > k) as u32).sum();
    ([data, over(0), over(1)], between)
}

#[inline(never)]
pub fn load_sheet(kind: u8, mode: u8, streams: &[u8], lengths: &[u32], numbers: &mut [u8], figures: &mut [u32]) -> Sheet {
    let refused = |number| Sheet { number, ..Sheet::default() };
    let total: u64 = lengths.iter().map(|n| *n as u64).sum();
    if lengths.len() > MOST_STREAMS || total != streams.len() as u64 || streams.len() > MOST_BYTES {
        return refused(23);
    }
    let Some(size) = size_of(kind) else { return refused(1) };
    if !(1..=6).contains(&mode) {
        return refused(2);
    }
    if numbers.len() < lengths.len() || figures.len() < FIGURES * lengths.len() {
        return refused(15);
    }
    let serial = mode == 3 || mode == 4;
    let (each, idle) = if serial { (8, 24) } else { (1, 3) };
    let mut c = Chain::new(&[kind]);
    let mut memory = vec![0; size];
    let mut old = memory.clone();
    let (mut closing, mut marks) = (vec![0; size + 3], vec![0; size]);
    let mut hunted = Vec::new();
    let mut rest = streams;
    let mut sums = [0; FIGURES];
    for ((n, number), row) in lengths.iter().zip(numbers).zip(figures.chunks_exact_mut(FIGURES)) {
        let (s, after) = rest.split_at(*n as usize);
        rest = after;
        let (mut bytes, mut p) = (s, 0);
        let mut told = [0, 0, 0, 0, 0, idle];
        *number = 5;
        let found = !serial || {
            hunted.resize(s.len().max(hunted.len()), 0);
            let h = files::hunt(s, &mut hunted);
            (bytes, p) = (&hunted[..h.length], h.p as u32);
            h.number == 0
        };
        if found {
            c.start(&memory, mode, false);
            let a = c.slice(&mut memory, bytes);
            let framed = if mode == 6 { bytes.get(1..a.taken as usize).unwrap_or(&[]) } else { &bytes[..a.taken as usize] };
            // a window that is refused at its start or at its end has no cells
            let sound = match a.number {
                11 => framed.len() - 3,
                12 => framed.len() - 5,
                _ => framed.len(),
            };
            let ([data, cells, again], between) = count(&framed[..sound], &mut marks);
            let (was, is) = (&mut old[between.clone()], &memory[between]);
            let bits = was.iter().zip(is).map(|(a, b)| (a ^ b).count_ones()).sum();
            was.copy_from_slice(is);
            told = [a.taken, data, cells, again, bits, each * a.taken + p + idle];
            *number = a.number;
            if a.number == 16 {
                let (_, n) = c.closing(&memory, &mut closing);
                c.slice(&mut memory, &closing[..n]);
            }
        }
        row.copy_from_slice(&told);
        sums.iter_mut().zip(told).for_each(|(sum, figure)| *sum += figure);
    }
    let [taken, data, cells, again, bits, edges] = sums;
    Sheet { number: 0, taken, data, cells, again, bits, edges }
}
