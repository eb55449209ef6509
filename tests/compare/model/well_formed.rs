//! "Well formed": of an open place in a state and of a saved place alike.

use super::chain::{Chain, Place};
use super::numbers::*;

/// The place and the registers on the chain's devices. Length, form and zero bits of a saved place are its own concern;
/// `check` is a byte in a state, so other values than 0 and 1 are not well formed. The chain itself is sound.
pub fn well_formed(chain: &Chain, place: &Place, registers: &[u8; 8]) -> bool {
    let device = place.device;
    // "mode 1 to 6, awaited 0 to 13, device in the chain"
    if place.check > 1 || !is_mode(place.mode) || place.awaited > AT_CHECK_BYTE || device >= chain.count {
        return false;
    }
    let check = place.check == 1;
    let stored = registers[device as usize];
    let size = chain.size(device);
    let (start, end, next) = (place.start as usize, place.end as usize, place.next as usize);

    // "unused registers 0, mismatches 0 in a write"
    if registers[chain.count as usize..].iter().any(|&register| register != 0) {
        return false;
    }
    if !check && place.mismatches != 0 {
        return false;
    }
    // "Awaited 0 and 1 only on device 0, 1 only in mode 6."
    if place.awaited <= AT_SECOND_PREAMBLE && device != 0 {
        return false;
    }
    if place.awaited == AT_SECOND_PREAMBLE && place.mode != TWO_PREAMBLES {
        return false;
    }
    // "Control byte 0 before it is taken"; after, "in a check with B3 clear". Document 02: "the current control byte
    // equals the stored register in both sorts of run."
    let control = if place.awaited <= AT_CONTROL {
        place.control == 0
    } else {
        place.control == stored && (!check || place.control & BIT_3 == 0)
    };
    if !control {
        return false;
    }
    let windows = match place.awaited {
        // "Awaited 0 to 6 and 13: windows, start, end, next 0."
        AT_PREAMBLE..=AT_COUNT | AT_CHECK_BYTE => place.left == 0 && start == 0 && end == 0 && next == 0,
        // "7 to 12: windows at least 1. 7, 8: start, end, next 0."
        AT_NULL | AT_START_HIGH => place.left >= 1 && start == 0 && end == 0 && next == 0,
        // "9: start's low byte 0, end and next 0."
        AT_START_LOW => place.left >= 1 && start % 256 == 0 && end == 0 && next == 0,
        // "10: start below size, end and next 0."
        AT_END_HIGH => place.left >= 1 && start < size && end == 0 && next == 0,
        // "11: start below size, end's low byte 0, next 0."
        AT_END_LOW => place.left >= 1 && start < size && end % 256 == 0 && next == 0,
        // "12: start <= next <= end < size."
        _ => place.left >= 1 && start <= next && next <= end && end < size,
    };
    if !windows {
        return false;
    }
    // "At 2: stored B4 clear, in a check B3 too."
    if place.awaited == AT_CONTROL {
        return stored & BIT_4 == 0 && (!check || stored & BIT_3 == 0);
    }
    true
}
