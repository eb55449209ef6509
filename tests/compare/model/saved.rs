//! "Saved place, 27 bytes": save and pick-up.

use super::chain::{open_number, state_number, Chain, Made, Place};
use super::numbers::*;
use super::output::{put, refused, Written};
use super::well_formed::well_formed;

pub const SAVED_LENGTH: usize = 27;

/// "Bit-packed fields, most significant first: form (1) 4 bits, mode 3, check 1, device 3, awaited 4, zero 1; windows
/// left with the current one 8; zero 8; start, end, next cell 16 each; bytes taken, mismatches 32 each; eight
/// registers; the current control byte."
pub fn pack(place: &Place, registers: &[u8; 8]) -> Vec<u8> {
    let mut bits = Bits { bits: Vec::new() };
    bits.put(1, 4);
    bits.put(place.mode as u32, 3);
    bits.put(place.check as u32, 1);
    bits.put(place.device as u32, 3);
    bits.put(place.awaited as u32, 4);
    bits.put(0, 1);
    bits.put(place.left as u32, 8);
    bits.put(0, 8);
    bits.put(place.start as u32, 16);
    bits.put(place.end as u32, 16);
    bits.put(place.next as u32, 16);
    bits.put(place.taken, 32);
    bits.put(place.mismatches, 32);
    for &register in registers {
        bits.put(register as u32, 8);
    }
    bits.put(place.control as u32, 8);
    bits.bytes()
}

/// The place and the registers of a saved place; none unless "length 27, form 1, zero bits 0".
fn unpack(saved: &[u8]) -> Option<(Place, [u8; 8])> {
    if saved.len() != SAVED_LENGTH {
        return None;
    }
    let mut bits = Bits::of(saved);
    let form = bits.take(4);
    let mut place = Place { running: 1, ..Place::default() };
    place.mode = bits.take(3) as u8;
    place.check = bits.take(1) as u8;
    place.device = bits.take(3) as u8;
    place.awaited = bits.take(4) as u8;
    let zero_bit = bits.take(1);
    place.left = bits.take(8) as u8;
    let zero_byte = bits.take(8);
    place.start = bits.take(16) as u16;
    place.end = bits.take(16) as u16;
    place.next = bits.take(16) as u16;
    place.taken = bits.take(32);
    place.mismatches = bits.take(32);
    let mut registers = [0; 8];
    for register in &mut registers {
        *register = bits.take(8) as u8;
    }
    place.control = bits.take(8) as u8;
    if form == 1 && zero_bit == 0 && zero_byte == 0 {
        Some((place, registers))
    } else {
        None
    }
}

/// "Saving leaves the run open." "Closing and save: 4, 15", after 1 and 17 of the state.
pub fn save(chain: &Chain, memory_length: usize, output: &mut [u8]) -> Written {
    if let Some(number) = open_number(chain, memory_length) {
        return refused(number);
    }
    put(&pack(&chain.place, &chain.registers), output)
}

/// "Picking up into a state with no open run, same chain and memory, gives the state saved, registers included".
/// "Pick-up: after the state's own, 3, then 17 for the place."
pub fn pick_up(chain: Chain, memory_length: usize, saved: &[u8]) -> Made {
    if let Some(number) = state_number(&chain, memory_length) {
        return Made { chain, number };
    }
    if chain.place.running != 0 {
        return Made { chain, number: RUN_OPEN };
    }
    match unpack(saved) {
        Some((place, registers)) if well_formed(&chain, &place, &registers) => {
            Made { chain: Chain { registers, place, ..chain }, number: DONE }
        }
        _ => Made { chain, number: ILL_FORMED },
    }
}

/// A row of bits, most significant first.
struct Bits {
    bits: Vec<bool>,
}

impl Bits {
    fn of(bytes: &[u8]) -> Bits {
        let mut bits = Bits { bits: Vec::new() };
        for &byte in bytes {
            bits.put(byte as u32, 8);
        }
        bits.bits.reverse();
        bits
    }

    fn put(&mut self, value: u32, width: u32) {
        for place in (0..width).rev() {
            self.bits.push(value >> place & 1 == 1);
        }
    }

    /// From a reversed row: the next bits of the bytes it was made of.
    fn take(&mut self, width: u32) -> u32 {
        let mut value = 0;
        for _ in 0..width {
            value = value * 2 + self.bits.pop().unwrap_or(false) as u32;
        }
        value
    }

    fn bytes(&self) -> Vec<u8> {
        self.bits.chunks(8).map(|eight| eight.iter().fold(0, |byte, &bit| byte * 2 + bit as u8)).collect()
    }
}
