//! The hunt, the writer and the lister in safe Rust, to be raced.
use crate::loader::{size_of, POSTAMBLE, PREAMBLE};

/// What a hunt answers, as at6000_hunted has it.
#[repr(C)]
#[derive(Clone, Copy, Default, PartialEq, Debug)]
pub struct Hunted {
    pub number: u8,
    pub p: u8,
    pub left: u8,
    pub length: usize,
}

#[inline(never)]
pub fn hunt(s: &[u8], out: &mut [u8]) -> Hunted {
    let refused = |number| Hunted { number, p: 0, left: 0, length: 0 };
    let at = |p: usize| -> Option<u8> {
        let (q, k) = (p / 8, p % 8);
        let low = *s.get(q)?;
        if k == 0 {
            return Some(low);
        }
        Some(low >> k | s.get(q + 1)? << (8 - k))
    };
    let Some(p) = (0..=64).find(|p| at(*p) == Some(PREAMBLE)) else { return refused(5) };
    let (q, k) = (p / 8, p % 8);
    if k == 0 {
        let bytes = &s[q..];
        let Some(out) = out.get_mut(..bytes.len()) else { return refused(15) };
        out.copy_from_slice(bytes);
        return Hunted { number: 0, p: p as u8, left: 0, length: bytes.len() };
    }
    let n = s.len() - q - 1;
    let Some(out) = out.get_mut(..n) else { return refused(15) };
    for (o, two) in out.iter_mut().zip(s[q..].windows(2)) {
        *o = two[0] >> k | two[1] << (8 - k);
    }
    Hunted { number: 0, p: p as u8, left: 8 - k as u8, length: n }
}

#[inline(never)]
#[allow(clippy::too_many_arguments)]
pub fn write(
    kind: u8,
    mode: u8,
    control: u8,
    address: [u8; 3],
    starts: &[u16],
    ends: &[u16],
    data: &[u8],
    out: &mut [u8],
) -> (u8, usize) {
    let Some(size) = size_of(kind) else { return (1, 0) };
    let lead: &[u8] = match mode {
        1 | 2 | 5 => &[PREAMBLE],
        3 | 4 => &[0, PREAMBLE],
        6 => &[PREAMBLE, PREAMBLE],
        _ => return (2, 0),
    };
    if starts.len() != ends.len() || starts.len() > 255 {
        return (13, 0);
    }
    let mut cells = 0;
    for (&start, &end) in starts.iter().zip(ends) {
        if start as usize >= size {
            return (11, 0);
        }
        if end < start || end as usize >= size {
            return (12, 0);
        }
        cells += (end - start) as usize + 1;
    }
    if data.len() != cells {
        return (14, 0);
    }
    let length = lead.len() + 5 + 5 * starts.len() + cells + 1;
    let Some(mut out) = out.get_mut(..length) else { return (15, 0) };
    let mut put = |bytes: &[u8]| {
        let (front, back) = std::mem::take(&mut out).split_at_mut(bytes.len());
        front.copy_from_slice(bytes);
        out = back;
    };
    put(lead);
    put(&[control, address[0], address[1], address[2], !(starts.len() as u8)]);
    let mut rest = data;
    for (&start, &end) in starts.iter().zip(ends) {
        let (window, after) = rest.split_at((end - start) as usize + 1);
        let ([a, b], [c, d]) = (start.to_be_bytes(), end.to_be_bytes());
        put(&[0, a, b, c, d]);
        put(window);
        rest = after;
    }
    put(&[POSTAMBLE]);
    (0, length)
}

pub struct Listed {
    pub number: u8,
    pub windows: u8,
    pub taken: u32,
}

/// Windows are skipped, not read; a stream that ends too soon is 16.
#[inline(never)]
pub fn list(kind: u8, mode: u8, s: &[u8], starts: &mut [u16], ends: &mut [u16], offsets: &mut [u32]) -> Listed {
    let refused = |number, taken: usize| Listed { number, windows: 0, taken: taken as u32 };
    let Some(size) = size_of(kind) else { return refused(1, 0) };
    let lead = match mode {
        1..=5 => 1,
        6 => 2,
        _ => return refused(2, 0),
    };
    for (i, b) in s.iter().take(lead).enumerate() {
        if *b != PREAMBLE {
            return refused(5, i + 1);
        }
    }
    let Some(head) = s.get(lead..lead + 5) else { return refused(16, s.len()) };
    let (control, windows) = (head[0], !head[4]);
    let mut at = lead + 5;
    let mut room = true;
    for w in 0..windows as usize {
        if s.len() < at + 3 {
            return refused(16, s.len());
        }
        let start = u16::from_be_bytes([s[at + 1], s[at + 2]]);
        if start as usize >= size {
            return refused(11, at + 3);
        }
        if s.len() < at + 5 {
            return refused(16, s.len());
        }
        let end = u16::from_be_bytes([s[at + 3], s[at + 4]]);
        if end < start || end as usize >= size {
            return refused(12, at + 5);
        }
        at += 5 + (end - start) as usize + 1;
        if s.len() < at {
            return refused(16, s.len());
        }
        room = room && w < starts.len() && w < ends.len() && w < offsets.len();
    }
    let Some(b) = s.get(at) else { return refused(16, s.len()) };
    at += 1;
    match *b {
        POSTAMBLE => {}
        PREAMBLE if control & 4 != 0 => return refused(9, at),
        PREAMBLE => return refused(10, at),
        _ => return refused(8, at),
    }
    if !room {
        return refused(15, at);
    }
    let mut from = lead + 5;
    for ((start, end), offset) in starts.iter_mut().zip(ends.iter_mut()).zip(offsets.iter_mut()).take(windows as usize) {
        *start = u16::from_be_bytes([s[from + 1], s[from + 2]]);
        *end = u16::from_be_bytes([s[from + 3], s[from + 4]]);
        from += 5;
        *offset = (from - (lead - 1)) as u32;
        from += (*end - *start) as usize + 1;
    }
    Listed { number: 0, windows, taken: at as u32 }
}
