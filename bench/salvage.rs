//! Salvage in safe Rust, to be raced: the windows are walked once and the place of each null byte is noted; what is whole is copied at
//! once, and the null bytes are put out.
use crate::loader::{size_of, POSTAMBLE, PREAMBLE};

const HEAD: usize = 6;

/// What salvage answers, as at6000_salvaged has it.
#[repr(C)]
#[derive(Clone, Copy, Default, PartialEq, Debug)]
pub struct Salvaged {
    pub number: u8,
    pub kept: u8,
    pub announced: u8,
    pub end: u8,
    pub offset: usize,
    pub length: usize,
}

/// How many bytes the window has that stands at the front, or the number with which the stream ends in it.
fn window(size: usize, rest: &[u8]) -> Result<usize, u8> {
    let Some(&[_, a, b]) = rest.first_chunk() else { return Err(16) };
    let start = u16::from_be_bytes([a, b]) as usize;
    if start >= size {
        return Err(11);
    }
    let Some(&[_, _, _, c, d]) = rest.first_chunk() else { return Err(16) };
    let end = u16::from_be_bytes([c, d]) as usize;
    if end < start || end >= size {
        return Err(12);
    }
    let length = 5 + end - start + 1;
    if length > rest.len() {
        return Err(16);
    }
    Ok(length)
}

#[inline(never)]
pub fn salvage(kind: u8, s: &[u8], out: &mut [u8]) -> Salvaged {
    let refused = |number| Salvaged { number, ..Salvaged::default() };
    let Some(size) = size_of(kind) else { return refused(1) };
    let Some(head) = s.get(..HEAD) else { return refused(27) };
    if head[0] != PREAMBLE {
        return refused(5);
    }
    let announced = !head[5];
    let mut nulls = [0; 255];
    let (mut kept, mut offset, mut end) = (0, HEAD, None);
    for null in &mut nulls[..announced as usize] {
        match window(size, &s[offset..]) {
            Ok(length) => {
                *null = offset;
                kept += 1;
                offset += length;
            }
            Err(number) => {
                end = Some(number);
                break;
            }
        }
    }
    let end = end.unwrap_or_else(|| match s.get(offset) {
        Some(&POSTAMBLE) => 0,
        Some(&PREAMBLE) if head[1] & 4 != 0 => 9,
        Some(&PREAMBLE) => 10,
        Some(_) => 8,
        None => 16,
    });
    let Some(out) = out.get_mut(..offset + 1) else { return refused(15) };
    out[..offset].copy_from_slice(&s[..offset]);
    out[5] = !kept;
    for &null in &nulls[..kept as usize] {
        out[null] = 0;
    }
    out[offset] = POSTAMBLE;
    Salvaged { number: 0, kept, announced, end, offset, length: offset + 1 }
}
