//! The state of a chain, number 1 and number 17 of a state, new and reset.

use super::kinds::size_of;
use super::numbers::*;
use super::well_formed::well_formed;

/// The open place: `running` 0 is none, 1 is one; the other fields are then no part, or a part, of the state.
#[derive(Clone, Copy, PartialEq, Eq, Debug, Default)]
pub struct Place {
    pub running: u8,
    pub mode: u8,
    pub check: u8,
    pub device: u8,
    pub awaited: u8,
    /// "windows left with the current one"
    pub left: u8,
    pub control: u8,
    pub start: u16,
    pub end: u16,
    pub next: u16,
    pub taken: u32,
    pub mismatches: u32,
}

#[derive(Clone, Copy, PartialEq, Eq, Debug, Default)]
pub struct Chain {
    pub count: u8,
    pub kinds: [u8; 8],
    pub registers: [u8; 8],
    pub place: Place,
}

/// The answer of new, reset, start, drop and pick-up.
#[derive(Clone, Copy, PartialEq, Eq, Debug)]
pub struct Made {
    pub chain: Chain,
    pub number: u8,
}

/// "A chain has 1 to 8 devices and at most 65,536 bytes in all."
pub const MOST_DEVICES: usize = 8;
pub const MOST_BYTES: usize = 65_536;

impl Chain {
    /// The size of one device; 0 where its kind is unknown.
    pub fn size(&self, device: u8) -> usize {
        size_of(self.kinds[device as usize]).unwrap_or(0)
    }

    /// "Its memories lie one after another in one lent buffer": where a device's memory begins.
    pub fn base(&self, device: u8) -> usize {
        (0..device).map(|before| self.size(before)).sum()
    }
}

/// Number 1: "count not 1 to 8, unknown kind, total over 65,536, or lent memory of another length". Kinds past the
/// count are not looked at.
pub fn bad_chain(count: u8, kinds: &[u8; 8], memory_length: usize) -> bool {
    let count = count as usize;
    if count < 1 || count > MOST_DEVICES {
        return true;
    }
    let mut total = 0;
    for device in 0..count {
        match size_of(kinds[device]) {
            None => return true,
            Some(size) => total += size,
        }
    }
    total > MOST_BYTES || memory_length != total
}

/// Number 17 of a state: "a lent state (reset excepted) whose unused kinds or registers are not zero or whose open
/// place is not well formed". Asked only where number 1 is not given.
fn ill_formed(chain: &Chain) -> bool {
    for unused in chain.count as usize..MOST_DEVICES {
        if chain.kinds[unused] != 0 || chain.registers[unused] != 0 {
            return true;
        }
    }
    match chain.place.running {
        0 => false,
        1 => !well_formed(chain, &chain.place, &chain.registers),
        _ => true,
    }
}

/// "Order: 1, 17 for the state", and the call's own numbers after that.
pub fn state_number(chain: &Chain, memory_length: usize) -> Option<u8> {
    if bad_chain(chain.count, &chain.kinds, memory_length) {
        Some(BAD_CHAIN)
    } else if ill_formed(chain) {
        Some(ILL_FORMED)
    } else {
        None
    }
}

/// 1, 17, then 4: "byte, slice, closing or save with no run open", and drop.
pub fn open_number(chain: &Chain, memory_length: usize) -> Option<u8> {
    let no_run = if chain.place.running == 0 { Some(NO_RUN) } else { None };
    state_number(chain, memory_length).or(no_run)
}

/// "A new state is made from a count and eight kinds, those past the count taken as zero, with zero registers and no
/// open run. It leaves memory as lent; refused, it is all zero."
pub fn new(count: u8, kinds: &[u8; 8], memory: &[u8]) -> Made {
    if bad_chain(count, kinds, memory.len()) {
        return Made { chain: Chain::default(), number: BAD_CHAIN };
    }
    let mut chain = Chain { count, ..Chain::default() };
    for device in 0..count as usize {
        chain.kinds[device] = kinds[device];
    }
    Made { chain, number: DONE }
}

/// "Reset (mode 0) is taken even with a run open: it zeroes memory, all registers and unused kinds and closes the run."
/// Number 17 is not its own; refused, state and memory are as lent.
pub fn reset(chain: Chain, memory: &mut [u8]) -> Made {
    if bad_chain(chain.count, &chain.kinds, memory.len()) {
        return Made { chain, number: BAD_CHAIN };
    }
    memory.fill(0);
    new(chain.count, &chain.kinds, memory)
}
