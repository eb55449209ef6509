//! States that number 17 is given for, each by one condition alone where that can be.

use crate::model::chain::{Chain, Place};
use crate::model::numbers::*;
use crate::random::Random;
use crate::states::{close, open, open_at};

/// An open place that one condition of "Well formed" refuses, or unused kinds or registers that are not zero.
pub fn damage(random: &mut Random, chain: &mut Chain) {
    let count = chain.count as usize;
    let spare = count < 8;
    let check = random.below(2) as u8;
    match random.below(19) {
        0 => {
            open(random, chain);
            chain.place.mode = random.pick(&[0, 7, 8, 9, 14, 128, 255]);
        }
        1 => {
            // All else is as it is at 12 or at 13.
            let awaited = random.pick(&[AT_DATA, AT_CHECK_BYTE]);
            open_at(random, chain, awaited, check);
            chain.place.awaited = random.pick(&[14, 15, 16, 29, 128, 255]);
        }
        2 => bad_device(random, chain, check),
        3 if spare => {
            unused_not_zero(random, chain, true);
        }
        4 if spare => {
            unused_not_zero(random, chain, false);
        }
        5 => {
            let awaited = random.below(14) as u8;
            open_at(random, chain, awaited, 0);
            chain.place.mismatches = random.pick(&[1, 0x100, 0x1_0000, 0x8000_0000, u32::MAX]);
        }
        6 if count > 1 => {
            let awaited = random.below(2) as u8;
            open_at(random, chain, awaited, check);
            chain.place.device = random.within(1, count - 1) as u8;
        }
        7 => {
            open_at(random, chain, AT_SECOND_PREAMBLE, check);
            chain.place.mode = random.within(1, 5) as u8;
        }
        8 => {
            let awaited = random.below(3) as u8;
            open_at(random, chain, awaited, check);
            chain.place.control = 1 << random.below(8);
        }
        9 => {
            let awaited = random.within(3, 13) as u8;
            open_at(random, chain, awaited, check);
            chain.place.control ^= 1 << random.below(8);
        }
        10 => {
            let awaited = random.within(3, 13) as u8;
            // Equal to the register, so that nothing but B3 is wrong.
            open_at(random, chain, awaited, 1);
            chain.place.control |= BIT_3;
            chain.registers[chain.place.device as usize] |= BIT_3;
        }
        11 => {
            open(random, chain);
            let none = chain.place.left == 0;
            chain.place.left = if none { random.pick(&[1, 2, 128, 255]) } else { 0 };
        }
        12 => bad_start(random, chain, check),
        13 => bad_end(random, chain, check),
        14 => bad_next(random, chain, check),
        15 => {
            open_at(random, chain, AT_CONTROL, check);
            let device = chain.place.device as usize;
            chain.registers[device] |= if check == 1 { random.pick(&[BIT_3, BIT_4]) } else { BIT_4 };
        }
        16 => {
            open(random, chain);
            chain.place.running = random.pick(&[2, 3, 128, 129, 254, 255]);
        }
        17 => {
            open(random, chain);
            chain.place.check = random.pick(&[2, 3, 128, 129, 254, 255]);
        }
        _ => {
            open(random, chain);
            flip(random, &mut chain.place);
        }
    }
}

/// A device past the chain, with a place that would be well formed on a teaching array with register zero.
fn bad_device(random: &mut Random, chain: &mut Chain, check: u8) {
    let awaited = random.within(2, 13) as u8;
    let mut other = Chain { count: 1, ..Chain::default() };
    open_at(random, &mut other, awaited, check);
    chain.place = other.place;
    chain.place.device = random.pick(&[chain.count, chain.count, 7.max(chain.count), 8, 9, 255]);
}

/// An unused kind, known or not, or an unused register; the run is open or not.
fn unused_not_zero(random: &mut Random, chain: &mut Chain, kinds: bool) {
    if random.once_in(2) {
        open(random, chain);
    } else {
        close(random, chain);
    }
    let unused = random.within(chain.count as usize, 7);
    if kinds {
        chain.kinds[unused] = random.pick(&[1, 2, 3, 4, 5, 10, 255]);
    } else {
        chain.registers[unused] = 1 << random.below(8);
    }
}

fn not_zero(random: &mut Random) -> u16 {
    1 << random.below(16)
}

fn bad_start(random: &mut Random, chain: &mut Chain, check: u8) {
    let awaited = random.below(14) as u8;
    open_at(random, chain, awaited, check);
    let size = chain.size(chain.place.device) as u16;
    let place = &mut chain.place;
    match awaited {
        AT_START_LOW => place.start |= 1 << random.below(8),
        AT_END_HIGH | AT_END_LOW => place.start = random.pick(&[size, size, size + 1, size + 256, u16::MAX]),
        AT_DATA => place.start = place.next + random.pick(&[1, 1, 2, 256]),
        _ => place.start = not_zero(random),
    }
}

fn bad_end(random: &mut Random, chain: &mut Chain, check: u8) {
    let awaited = random.below(14) as u8;
    open_at(random, chain, awaited, check);
    let size = chain.size(chain.place.device) as u16;
    let place = &mut chain.place;
    match awaited {
        AT_END_LOW => place.end |= 1 << random.below(8),
        AT_DATA => place.end = random.pick(&[size, size, size + 1, size + 256, u16::MAX]),
        _ => place.end = not_zero(random),
    }
}

fn bad_next(random: &mut Random, chain: &mut Chain, check: u8) {
    let awaited = random.below(14) as u8;
    open_at(random, chain, awaited, check);
    let place = &mut chain.place;
    match awaited {
        AT_DATA if place.start > 0 && random.once_in(2) => place.next = place.start - 1,
        AT_DATA => place.next = place.end + 1,
        _ => place.next = not_zero(random),
    }
}

/// One bit of one field.
fn flip(random: &mut Random, place: &mut Place) {
    let bit = random.below(32);
    let byte = 1 << (bit % 8);
    let word = 1 << (bit % 16);
    match random.below(12) {
        0 => place.running ^= byte,
        1 => place.mode ^= byte,
        2 => place.check ^= byte,
        3 => place.device ^= byte,
        4 => place.awaited ^= byte,
        5 => place.left ^= byte,
        6 => place.control ^= byte,
        7 => place.start ^= word,
        8 => place.end ^= word,
        9 => place.next ^= word,
        10 => place.taken ^= 1 << bit,
        _ => place.mismatches ^= 1 << bit,
    }
}
