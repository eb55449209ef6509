//! EPROM boards: a fetcher with its counter, and a run whose bytes it fetches one by one.

use super::chain::{state_number, Chain, Place};
use super::machine::{step, Answer};
use super::numbers::*;

/// "A fetcher's 17-bit counter": 00000 to 1FFFF.
pub const COUNTS: u32 = 1 << 17;

/// The one mode that counts down.
const DOWN: u8 = 2;

/// "Beside the saved place a stop keeps the counter, that device's control and address bytes (zero until taken) and
/// whether its first null was taken": `nulled` 0 is not yet, all else is taken.
#[derive(Clone, Copy, PartialEq, Eq, Debug, Default)]
pub struct Fetcher {
    pub counter: u32,
    pub control: u8,
    pub address: [u8; 3],
    pub nulled: u8,
}

/// The answer of fetch.
#[derive(Clone, Copy, PartialEq, Eq, Debug)]
pub struct Fetched {
    pub chain: Chain,
    pub answer: Answer,
    pub fetcher: Fetcher,
}

/// "starts at 00000 (1FFFF in mode 2)"
pub fn home(mode: u8) -> u32 {
    match mode {
        DOWN => COUNTS - 1,
        _ => 0,
    }
}

pub fn fetcher_new(mode: u8) -> Fetcher {
    Fetcher { counter: home(mode), ..Fetcher::default() }
}

/// "boot in modes 1, 2 and 5"
pub fn boots(mode: u8) -> bool {
    matches!(mode, 1 | 2 | 5)
}

/// "steps up by one each byte (down in mode 2), wrapping past either end"
pub fn next(mode: u8, counter: u32) -> u32 {
    let one = if mode == DOWN { COUNTS - 1 } else { 1 };
    (counter + one) % COUNTS
}

/// Fetches `count` bytes and feeds them, or as many as the run takes. 1, 17 ("for a lent counter above 1FFFF" too), 4
/// with 0 and 0; "2, after 4, for any other mode" with the run's counts so far; all is then as lent.
pub fn fetch(mut chain: Chain, mut fetcher: Fetcher, memory: &mut [u8], eprom: &[u8], count: u64) -> Fetched {
    let lent = Fetched { chain, answer: Answer { number: DONE, taken: 0, mismatches: 0 }, fetcher };
    let mut number = state_number(&chain, memory.len());
    if number.is_none() && fetcher.counter >= COUNTS {
        number = Some(ILL_FORMED);
    }
    if number.is_none() && chain.place.running == 0 {
        number = Some(NO_RUN);
    }
    if let Some(number) = number {
        return Fetched { answer: Answer { number, ..lent.answer }, ..lent };
    }
    let mode = chain.place.mode;
    if !boots(mode) {
        let Place { taken, mismatches, .. } = chain.place;
        return Fetched { answer: Answer { number: BAD_MODE, taken, mismatches }, ..lent };
    }
    let mut number = MORE;
    for _ in 0..count {
        // "18 when the counter is not below the EPROM's length: no byte is taken, the run stays open"
        let Some(&byte) = eprom.get(fetcher.counter as usize) else {
            number = PAST_EPROM;
            break;
        };
        number = fetch_one(&mut chain, &mut fetcher, memory, byte);
        if number != MORE {
            break;
        }
    }
    let Place { taken, mismatches, .. } = chain.place;
    if number != MORE && number != PAST_EPROM {
        chain.place = Place::default();
        // "B0 of that control byte decides: clear resets the counter for that run's mode, set keeps its next value."
        // What was kept belonged to the run.
        let counter = if fetcher.control & BIT_0 == 0 { home(mode) } else { fetcher.counter };
        fetcher = Fetcher { counter, ..Fetcher::default() };
    }
    Fetched { chain, answer: Answer { number, taken, mismatches }, fetcher }
}

/// One fetched byte: the machine's number for it, or 19. The counter goes on, and so does what is kept.
pub fn fetch_one(chain: &mut Chain, fetcher: &mut Fetcher, memory: &mut [u8], byte: u8) -> u8 {
    let Place { mode, device, awaited, .. } = chain.place;
    let mut to = next(mode, fetcher.counter);
    let mut astray = false;
    match (device, awaited) {
        // The first preamble begins a run: of an earlier one nothing is kept.
        (0, AT_PREAMBLE) => *fetcher = Fetcher { counter: fetcher.counter, ..Fetcher::default() },
        // Taken, even where 7 refuses it.
        (0, AT_CONTROL) => fetcher.control = byte,
        (0, AT_ADDRESS_LOW) => fetcher.address[0] = byte,
        (0, AT_ADDRESS_MIDDLE) => fetcher.address[1] = byte,
        (0, AT_ADDRESS_HIGH) => fetcher.address[2] = byte,
        // "the counter takes the external address after that section's first null byte"
        (0, AT_NULL) if fetcher.nulled == 0 => {
            fetcher.nulled = 1;
            let [low, middle, high] = fetcher.address.map(u32::from);
            let address = low + 256 * middle + 65_536 * high;
            if fetcher.control & BIT_1 != 0 {
                astray = address >= COUNTS;
                to = if astray { to } else { address };
            }
        }
        _ => (),
    }
    fetcher.counter = to;
    if astray {
        // "19 for a jump above 1FFFF, at the null byte, which counts as taken and closes the run"
        chain.place.taken = chain.place.taken.wrapping_add(1);
        return BAD_JUMP;
    }
    step(chain, memory, byte)
}
