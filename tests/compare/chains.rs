//! Chains and their memories: sound ones, mostly small, and such as number 1 is given for.

use crate::model::chain::Chain;
use crate::model::kinds::{size_of, KINDS};
use crate::model::numbers::{BIT_2, BIT_3, BIT_4};
use crate::random::Random;

/// A state and the memory lent with it.
#[derive(Clone)]
pub struct Lent {
    pub chain: Chain,
    pub memory: Vec<u8>,
}

/// Chains close to 65,536 bytes: 65,524, 65,490 and 65,456 are taken, 65,542, 65,576 and 81,905 are not.
const JUST_TAKEN: [&[u8]; 3] = [&[10, 10, 10, 10], &[3, 10, 3, 10, 5, 10], &[10, 5, 3, 3, 10, 3, 3, 5]];
const JUST_OVER: [&[u8]; 5] =
    [&[0, 3, 3, 5, 10, 10, 10], &[10, 10, 10, 10, 0], &[0, 10, 10, 10, 10], &[10; 5], &[10, 10, 5, 10, 3, 3, 0]];

fn set_kinds(chain: &mut Chain, kinds: &[u8]) {
    chain.count = kinds.len() as u8;
    chain.kinds = [0; 8];
    chain.kinds[..kinds.len()].copy_from_slice(kinds);
}

/// The sizes of the known kinds below the count, added up.
fn total(chain: &Chain) -> usize {
    chain.kinds.iter().take(chain.count as usize).map(|&kind| size_of(kind).unwrap_or(0)).sum()
}

/// A sound chain with no run open: any registers, right memory. Most are of the teaching array.
pub fn sound(random: &mut Random) -> Lent {
    let mut chain = Chain::default();
    if random.once_in(5000) {
        set_kinds(&mut chain, random.pick(&JUST_TAKEN));
    } else {
        chain.count = if random.once_in(4) { random.within(1, 8) as u8 } else { random.within(1, 3) as u8 };
        if random.once_in(24) {
            chain.count = random.within(1, 3) as u8;
            chain.kinds[random.below(chain.count as usize)] = 2;
        } else if random.once_in(200) {
            chain.count = random.within(2, 4) as u8;
            for device in 0..chain.count as usize {
                chain.kinds[device] = random.pick(&[0, 2, 3]);
            }
        } else if random.once_in(400) {
            chain.count = random.within(1, 2) as u8;
            chain.kinds[random.below(chain.count as usize)] = random.pick(&KINDS).0;
        }
    }
    for device in 0..chain.count as usize {
        chain.registers[device] = register(random);
    }
    let memory = cells(random, total(&chain));
    Lent { chain, memory }
}

/// A sound chain whose first device is of a larger kind: its addresses have high bytes.
pub fn large(random: &mut Random) -> Lent {
    let mut chain = Chain::default();
    let kind = random.pick(&[2, 2, 2, 2, 2, 2, 2, 3, 3, 5, 10]);
    set_kinds(&mut chain, &[kind, 0][..random.within(1, 2)]);
    chain.registers[0] = register(random);
    let memory = cells(random, total(&chain));
    Lent { chain, memory }
}

/// A control byte or register: B2, B3 and B4 come up alone and together.
pub fn register(random: &mut Random) -> u8 {
    match random.below(8) {
        0..=2 => 0,
        3 => random.byte(),
        4 => random.byte() & !(BIT_2 | BIT_3 | BIT_4),
        5 => random.pick(&[BIT_2, BIT_3, BIT_4]),
        6 => random.pick(&[BIT_3 | BIT_4, BIT_2 | BIT_4, BIT_2 | BIT_3]),
        _ => random.pick(&[!BIT_2, !BIT_3, !BIT_4, 0xFF]),
    }
}

/// Present cells: any bytes, or few different ones, so that checks meet equal and unlike cells.
fn cells(random: &mut Random, length: usize) -> Vec<u8> {
    let mut cells = random.bytes(length);
    if random.once_in(3) {
        let few = random.pick(&[0x00, 0x01, 0x11]);
        cells.iter_mut().for_each(|cell| *cell &= few);
    }
    cells
}

/// Number 1, each time by one condition alone: count, kind, total or length of memory.
pub fn make_bad(random: &mut Random, lent: &mut Lent) {
    let right = lent.memory.len();
    match random.below(8) {
        0 => bad_count(random, lent),
        1 => unknown_kind(random, lent),
        2 => lent.memory.truncate(right - 1),
        3 => lent.memory.push(random.byte()),
        4 => lent.memory.clear(),
        5 => {
            let other = random.pick(&[right + 52, right.saturating_sub(52), right / 2, right * 2, right + 256]);
            let other = if random.once_in(50) { right + 65_536 } else { other };
            lent.memory = random.bytes(other);
        }
        _ => {
            if random.once_in(30) {
                over(random, lent)
            } else {
                bad_count(random, lent)
            }
        }
    }
}

/// The memory of a bad count is that of the devices it could mean, if any.
fn bad_count(random: &mut Random, lent: &mut Lent) {
    lent.chain.count = random.pick(&[0, 9, 9, 10, 16, 128, 255]);
    if random.once_in(2) {
        lent.chain.kinds = [0; 8];
    }
    let devices = random.pick(&[lent.chain.count.min(12) as usize, lent.chain.count.min(8) as usize, 1]);
    lent.memory = random.bytes(devices * 52);
}

/// The memory of an unknown kind is that of the known ones, and of none or a teaching array for the unknown one.
fn unknown_kind(random: &mut Random, lent: &mut Lent) {
    let unknown = random.pick(&[1, 4, 6, 7, 8, 9, 11, 12, 50, 128, 254, 255]);
    lent.chain.kinds[random.below(lent.chain.count as usize)] = unknown;
    let length = total(&lent.chain) + random.pick(&[0, 0, 52]);
    lent.memory = random.bytes(length);
}

/// A total over 65,536 with that much memory, or with what is left of it modulo 65,536.
fn over(random: &mut Random, lent: &mut Lent) {
    set_kinds(&mut lent.chain, random.pick(&JUST_OVER));
    lent.chain.registers = [0; 8];
    let length = total(&lent.chain) - random.pick(&[0, 0, 65_536]);
    lent.memory = random.bytes(length);
}
