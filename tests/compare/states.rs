//! Places: well-formed open ones of every awaited byte, closed ones with junk in them, and any bytes at all.

use crate::model::chain::{Chain, Place};
use crate::model::numbers::*;
use crate::random::Random;

/// No run open: the other fields are no part of the state, so they are zero or anything.
pub fn close(random: &mut Random, chain: &mut Chain) {
    chain.place = if random.once_in(2) { Place::default() } else { any_place(random) };
    chain.place.running = 0;
}

/// Any value in every field.
pub fn any_place(random: &mut Random) -> Place {
    let bytes = random.eight();
    let wide = random.eight();
    Place {
        running: bytes[0],
        mode: bytes[1],
        check: bytes[2],
        device: bytes[3],
        awaited: bytes[4],
        left: bytes[5],
        control: bytes[6],
        start: u16::from_le_bytes([wide[0], wide[1]]),
        end: u16::from_le_bytes([wide[2], wide[3]]),
        next: u16::from_le_bytes([wide[4], wide[5]]),
        taken: random.next() as u32,
        mismatches: random.next() as u32,
    }
}

/// A count of bytes: small, any, or about to pass 2^32.
fn counter(random: &mut Random) -> u32 {
    match random.below(4) {
        0 => random.below(300) as u32,
        1 => random.next() as u32,
        2 => u32::MAX - random.below(3) as u32,
        _ => random.pick(&[0, 0x7FFF_FFFF, 0x8000_0000, 0xFFFF, 0x1_0000]),
    }
}

/// A cell of a device: its first and last, the edges of a high byte, the one after its first, or any.
pub fn cell(random: &mut Random, size: usize) -> usize {
    let any = random.below(size);
    match random.below(7) {
        0 => 0,
        1 => size - 1,
        2 => (any | 0xFF).min(size - 1),
        3 => any & 0xFF00,
        4 => (any & 0xFF00 | 1).min(size - 1),
        _ => any,
    }
}

/// A high byte about a start's or a size's, or any.
pub fn high(random: &mut Random, about: usize, size: usize) -> u16 {
    let near = random.pick(&[about / 256, about / 256 + 1, size / 256, (size / 256).saturating_sub(1), size / 256 + 1]);
    if random.once_in(8) {
        random.pick(&[0x00, 0x7F, 0x80, 0xFF])
    } else if size > 256 && random.once_in(3) {
        random.below(size / 256 + 1) as u16
    } else {
        near as u16
    }
}

/// A well-formed open place of any awaited byte, write or check.
pub fn open(random: &mut Random, chain: &mut Chain) {
    // Data and check bytes have most to go wrong.
    let awaited = random.pick(&[
        0,
        1,
        2,
        3,
        4,
        5,
        6,
        7,
        8,
        9,
        10,
        11,
        AT_DATA,
        AT_DATA,
        AT_CHECK_BYTE,
        AT_CHECK_BYTE,
        AT_CHECK_BYTE,
    ]);
    let check = random.below(2) as u8;
    open_at(random, chain, awaited, check);
}

/// A well-formed open place; the current device's register is made to fit where the paper asks it.
pub fn open_at(random: &mut Random, chain: &mut Chain, awaited: u8, check: u8) {
    let mut place = Place { running: 1, awaited, check, ..Place::default() };
    place.mode = if awaited == AT_SECOND_PREAMBLE { TWO_PREAMBLES } else { random.within(1, 6) as u8 };
    place.device = if awaited <= AT_SECOND_PREAMBLE { 0 } else { random.below(chain.count as usize) as u8 };
    if awaited > AT_SECOND_PREAMBLE && random.once_in(2) {
        // A larger kind is rare: where there is one, be there.
        if let Some(large) = chain.kinds.iter().position(|&kind| kind != 0) {
            place.device = large as u8;
        }
    }
    place.taken = counter(random);
    place.mismatches = if check == 1 { counter(random) } else { 0 };
    let stored = &mut chain.registers[place.device as usize];
    if awaited == AT_CONTROL {
        *stored &= if check == 1 { !(BIT_3 | BIT_4) } else { !BIT_4 };
    }
    if awaited > AT_CONTROL {
        *stored &= if check == 1 { !BIT_3 } else { 0xFF };
        place.control = *stored;
    }
    if (AT_NULL..=AT_DATA).contains(&awaited) {
        place.left = random.pick(&[1, 1, 2, 2, 3, 128, 255]);
    }
    let size = chain.size(place.device);
    match awaited {
        AT_START_LOW => place.start = 256 * high(random, 0, size),
        AT_END_HIGH => place.start = cell(random, size) as u16,
        AT_END_LOW => {
            place.start = cell(random, size) as u16;
            place.end = 256 * high(random, place.start as usize, size);
        }
        AT_DATA => {
            let mut cells = [cell(random, size), cell(random, size), cell(random, size)];
            if random.once_in(3) {
                cells[1] = cells[random.pick(&[0, 2])];
            }
            cells.sort();
            let [start, next, end] = cells.map(|one| one as u16);
            place = Place { start, next, end, ..place };
        }
        _ => (),
    }
    chain.place = place;
}
