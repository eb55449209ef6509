//! The byte machine: start, slice, byte, drop.

use super::chain::{open_number, state_number, Chain, Made, Place};
use super::numbers::*;

#[derive(Clone, Copy, PartialEq, Eq, Debug)]
pub struct Answer {
    pub number: u8,
    pub taken: u32,
    pub mismatches: u32,
}

/// The answer of byte and slice.
#[derive(Clone, Copy, PartialEq, Eq, Debug)]
pub struct Fed {
    pub chain: Chain,
    pub answer: Answer,
}

/// Opens a run. "Order: 1, 17 for the state, 2, 3"; "start sets both to zero". `check` 0 writes, all else checks.
pub fn start(chain: Chain, memory_length: usize, mode: u8, check: u8) -> Made {
    if let Some(number) = state_number(&chain, memory_length) {
        return Made { chain, number };
    }
    if !is_mode(mode) {
        return Made { chain, number: BAD_MODE };
    }
    if chain.place.running != 0 {
        return Made { chain, number: RUN_OPEN };
    }
    let place = Place { running: 1, mode, check: (check != 0) as u8, awaited: AT_PREAMBLE, ..Place::default() };
    Made { chain: Chain { place, ..chain }, number: DONE }
}

/// "A whole-slice call feeds an open run and stops at its end; later bytes are not looked at." It answers "the number
/// and the run's bytes taken and mismatches so far, 0 and 0 where 1, 17 or 4 is given".
pub fn slice(mut chain: Chain, memory: &mut [u8], stream: &[u8]) -> Fed {
    if let Some(number) = open_number(&chain, memory.len()) {
        return Fed { chain, answer: Answer { number, taken: 0, mismatches: 0 } };
    }
    let mut number = MORE;
    for &byte in stream {
        number = step(&mut chain, memory, byte);
        if number != MORE {
            break;
        }
    }
    let answer = Answer { number, taken: chain.place.taken, mismatches: chain.place.mismatches };
    if number != MORE {
        // "A run ends when accepted or refused."
        chain.place = Place::default();
    }
    Fed { chain, answer }
}

/// "A byte call is a slice of one."
pub fn byte(chain: Chain, memory: &mut [u8], byte: u8) -> Fed {
    slice(chain, memory, &[byte])
}

/// "Drops an open run without touching memory or registers": 1, 17, 4. "All other refusals change nothing."
pub fn drop(chain: Chain, memory_length: usize) -> Made {
    match open_number(&chain, memory_length) {
        Some(number) => Made { chain, number },
        None => Made { chain: Chain { place: Place::default(), ..chain }, number: DONE },
    }
}

/// Takes one byte of a well-formed open run: 16 where the run goes on, else the number that ends it. "A refused byte
/// counts as taken, closes the run and changes no cell or register".
pub fn step(chain: &mut Chain, memory: &mut [u8], byte: u8) -> u8 {
    chain.place.taken = chain.place.taken.wrapping_add(1);
    let device = chain.place.device;
    let check = chain.place.check == 1;
    let size = chain.size(device) as u32;
    match chain.place.awaited {
        AT_PREAMBLE => {
            if byte != PREAMBLE {
                return NO_PREAMBLE;
            }
            if chain.place.mode == TWO_PREAMBLES {
                // "B2 that would begin a device (in mode 6 the second)": the first begins none.
                chain.place.awaited = AT_SECOND_PREAMBLE;
                return MORE;
            }
            begin(chain, device)
        }
        AT_SECOND_PREAMBLE => {
            if byte != PREAMBLE {
                return NO_PREAMBLE;
            }
            begin(chain, device)
        }
        AT_CONTROL => {
            // "check, and ... the control byte sets B3"
            if check && byte & BIT_3 != 0 {
                return NO_CHECK;
            }
            // "In a write the control byte is loaded when taken." Document 02: "a check stores the control byte too, after
            // the test for 7."
            chain.registers[device as usize] = byte;
            chain.place.control = byte;
            chain.place.awaited = AT_ADDRESS_LOW;
            MORE
        }
        AT_ADDRESS_LOW => await_next(chain, AT_ADDRESS_MIDDLE),
        AT_ADDRESS_MIDDLE => await_next(chain, AT_ADDRESS_HIGH),
        AT_ADDRESS_HIGH => await_next(chain, AT_COUNT),
        AT_COUNT => {
            // "The count byte is the ones' complement of the number of windows". "No windows: 6 goes to 13."
            chain.place.left = 255 - byte;
            await_next(chain, if byte == 255 { AT_CHECK_BYTE } else { AT_NULL })
        }
        // "The null byte may have any value."
        AT_NULL => await_next(chain, AT_START_HIGH),
        AT_START_HIGH => {
            chain.place.start = byte as u16 * 256;
            await_next(chain, AT_START_LOW)
        }
        AT_START_LOW => {
            chain.place.start += byte as u16;
            if chain.place.start as u32 >= size {
                return BAD_START;
            }
            await_next(chain, AT_END_HIGH)
        }
        AT_END_HIGH => {
            chain.place.end = byte as u16 * 256;
            await_next(chain, AT_END_LOW)
        }
        AT_END_LOW => {
            chain.place.end += byte as u16;
            if chain.place.end < chain.place.start || chain.place.end as u32 >= size {
                return BAD_END;
            }
            chain.place.next = chain.place.start;
            await_next(chain, AT_DATA)
        }
        AT_DATA => {
            data(chain, memory, byte);
            MORE
        }
        _ => check_byte(chain, byte),
    }
}

fn await_next(chain: &mut Chain, awaited: u8) -> u8 {
    chain.place.awaited = awaited;
    MORE
}

/// Begins a device at its control byte, or refuses: 6, then 7, both of the device's stored register.
fn begin(chain: &mut Chain, device: u8) -> u8 {
    let stored = chain.registers[device as usize];
    if stored & BIT_4 != 0 {
        return BARRED;
    }
    if chain.place.check == 1 && stored & BIT_3 != 0 {
        return NO_CHECK;
    }
    chain.place.device = device;
    chain.place.control = 0;
    await_next(chain, AT_CONTROL)
}

/// "A write stores the data byte in the cell at once. A check stores nothing, counts data bytes that differ from their
/// cells, and goes on." "A window covers start to end inclusive", and after each window 7 again or 13.
fn data(chain: &mut Chain, memory: &mut [u8], byte: u8) {
    let cell = chain.base(chain.place.device) + chain.place.next as usize;
    let place = &mut chain.place;
    if place.check == 0 {
        memory[cell] = byte;
    } else if memory[cell] != byte {
        place.mismatches = place.mismatches.wrapping_add(1);
    }
    if place.next < place.end {
        place.next += 1;
        return;
    }
    place.left -= 1;
    place.start = 0;
    place.end = 0;
    place.next = 0;
    place.awaited = if place.left > 0 { AT_NULL } else { AT_CHECK_BYTE };
}

/// "At 13: 4D accepts; B2 begins the next device at 2; all else is refused." "At 13: 8, 9, 10, 6, 7."
fn check_byte(chain: &mut Chain, byte: u8) -> u8 {
    if byte == POSTAMBLE {
        return DONE;
    }
    if byte != PREAMBLE {
        return BAD_CHECK_BYTE;
    }
    // The bit of the control byte kept in the place.
    if chain.place.control & BIT_2 != 0 {
        return ENDS_HERE;
    }
    if chain.place.device + 1 == chain.count {
        return LAST_DEVICE;
    }
    begin(chain, chain.place.device + 1)
}
