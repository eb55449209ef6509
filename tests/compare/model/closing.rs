//! "Closing bytes": they end a stopped run and change no cell and no register. "They are written, not fed."

use super::chain::{open_number, Chain};
use super::numbers::*;
use super::output::{put, refused, Written};

/// "Closing and save: 4, 15", after 1 and 17 of the state.
pub fn closing(chain: &Chain, memory: &[u8], output: &mut [u8]) -> Written {
    if let Some(number) = open_number(chain, memory.len()) {
        return refused(number);
    }
    put(&closing_bytes(chain, memory), output)
}

/// "By awaited byte, with size that of the current device".
fn closing_bytes(chain: &Chain, memory: &[u8]) -> Vec<u8> {
    let place = &chain.place;
    let size = chain.size(place.device);
    let stored = chain.registers[place.device as usize];
    match place.awaited {
        AT_PREAMBLE | AT_SECOND_PREAMBLE => vec![0x00],
        // Document 02: "In a check at 2, send 08 alone: number 7 ends it."
        AT_CONTROL if place.check == 1 => vec![0x08],
        AT_CONTROL => vec![stored, 0x00, 0x00, 0x00, 0xFF, 0x4D],
        // "3 to 5: the missing address bytes as 00, then FF 4D."
        AT_ADDRESS_LOW => vec![0x00, 0x00, 0x00, 0xFF, 0x4D],
        AT_ADDRESS_MIDDLE => vec![0x00, 0x00, 0xFF, 0x4D],
        AT_ADDRESS_HIGH => vec![0x00, 0xFF, 0x4D],
        AT_COUNT => vec![0xFF, 0x4D],
        AT_NULL => vec![0x00, 0xFF, 0xFF],
        AT_START_HIGH => vec![0xFF, 0xFF],
        AT_START_LOW => {
            // "9: FF, then FF FF if that start is below size."
            let that_start = place.start as usize + 255;
            if that_start < size {
                vec![0xFF, 0xFF, 0xFF]
            } else {
                vec![0xFF]
            }
        }
        AT_END_HIGH => vec![0xFF, 0xFF],
        AT_END_LOW => at_end_low(chain, memory, size),
        AT_DATA => {
            // "12: present values of the remaining cells, then the tail."
            let mut bytes = cells(chain, memory, place.next as usize, place.end as usize);
            bytes.extend(tail(chain));
            bytes
        }
        _ => vec![0x4D],
    }
}

/// "11, with end high byte h". Document 02: "send 00 when h equals the start's high byte and the start's low byte is not
/// zero: the end is then below start." Then document 01: "FF if 256h + 255 is not below size or is below start. Otherwise
/// the start's low byte if h is the start's high byte, else 00", and either is 00 by now; "then the window's present
/// cells, then the tail."
fn at_end_low(chain: &Chain, memory: &[u8], size: usize) -> Vec<u8> {
    let start = chain.place.start as usize;
    let h = chain.place.end as usize / 256;
    if h == start / 256 && start % 256 != 0 {
        return vec![0x00];
    }
    if 256 * h + 255 >= size || 256 * h + 255 < start {
        return vec![0xFF];
    }
    let mut bytes = vec![0x00];
    bytes.extend(cells(chain, memory, start, 256 * h));
    bytes.extend(tail(chain));
    bytes
}

/// The present values of the current device's cells, first to last inclusive.
fn cells(chain: &Chain, memory: &[u8], first: usize, last: usize) -> Vec<u8> {
    let base = chain.base(chain.place.device);
    memory[base + first..=base + last].to_vec()
}

/// "Tail: 00 FF FF if windows remain after this one, else 4D."
fn tail(chain: &Chain) -> Vec<u8> {
    if chain.place.left > 1 {
        vec![0x00, 0xFF, 0xFF]
    } else {
        vec![0x4D]
    }
}
