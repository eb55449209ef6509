//! What fetch has met: how the counter went, what it was lent, and how the run ended. A run of the comparison that never
//! met one of these sorts says too little.

use crate::call::Eprom;
use crate::model::chain::{state_number, Chain};
use crate::model::eprom::{boots, fetch, fetch_one, Fetched, Fetcher, COUNTS};
use crate::model::numbers::*;

const LAST: u32 = COUNTS - 1;

/// How many bytes a fetch in mode 2 turns round at once: a longer one goes in more than one piece.
const TURNED: usize = 768;

/// A byte that was fetched: where the run stood before it, and the fetcher before and after.
struct Took {
    device: u8,
    awaited: u8,
    before: Fetcher,
    after: Fetcher,
}

impl Took {
    fn first_null(&self) -> bool {
        self.device == 0 && self.awaited == AT_NULL && self.before.nulled == 0
    }

    fn jumps(&self) -> bool {
        self.first_null() && self.before.control & BIT_1 != 0
    }
}

/// The bytes that are fetched, one by one.
fn walked(mut chain: Chain, mut fetcher: Fetcher, memory: &[u8], eprom: &[u8], count: u64) -> Vec<Took> {
    let mut memory = memory.to_vec();
    let mut took = Vec::new();
    while (took.len() as u64) < count {
        let Some(&byte) = eprom.get(fetcher.counter as usize) else { break };
        let (before, place) = (fetcher, chain.place);
        let number = fetch_one(&mut chain, &mut fetcher, &mut memory, byte);
        took.push(Took { device: place.device, awaited: place.awaited, before, after: fetcher });
        if number != MORE {
            break;
        }
    }
    took
}

/// Each sort, and whether a fetch is of it.
pub fn sorts(chain: &Chain, memory: &[u8], lent: &Fetcher, eprom: &Eprom, count: u64) -> Vec<(&'static str, bool)> {
    let bytes = eprom.bytes();
    let Fetched { answer, fetcher: left, .. } = fetch(*chain, *lent, &mut memory.to_vec(), &bytes, count);
    let (number, place) = (answer.number, &chain.place);
    let goes = ![BAD_CHAIN, ILL_FORMED, NO_RUN, BAD_MODE].contains(&number);
    let took = if goes { walked(*chain, *lent, memory, &bytes, count) } else { Vec::new() };
    let some = |holds: &dyn Fn(&Took) -> bool| took.iter().any(holds);
    let ends = goes && number != MORE && number != PAST_EPROM;
    let mode = place.mode;
    let last = took.last();
    let ends_with = |bit: bool| ends && last.is_some_and(|byte| (byte.after.control & BIT_0 != 0) == bit);
    let ends_at =
        |device: u8, awaited: u8| ends && last.is_some_and(|byte| (byte.device, byte.awaited) == (device, awaited));
    let wraps =
        |byte: &Took, from: u32, to: u32| (byte.before.counter, byte.after.counter) == (from, to) && !byte.jumps();
    let up = |byte: &Took| wraps(byte, LAST, 0);
    let down = |byte: &Took| wraps(byte, 0, LAST);
    let jumped = some(&|byte| byte.jumps()) && number != BAD_JUMP;
    let lent_address = |byte: &Took| byte.jumps() && byte.before.address == lent.address;
    let sound = state_number(chain, memory.len()).is_none();
    let over = lent.counter > LAST;
    let closed = place.running == 0;
    let kept = (lent.control, lent.address, lent.nulled) != (0, [0; 3], 0);
    let begins = some(&|byte| byte.device == 0 && byte.awaited == AT_PREAMBLE);
    vec![
        ("mode 1", mode == 1 && !took.is_empty()),
        ("mode 2", mode == 2 && !took.is_empty()),
        ("mode 5", mode == 5 && !took.is_empty()),
        ("mode 1, from the first preamble to 4D", mode == 1 && begins && number == DONE),
        ("mode 2, from the first preamble to 4D", mode == 2 && begins && number == DONE),
        ("mode 5, from the first preamble to 4D", mode == 5 && begins && number == DONE),
        ("two devices from the first preamble to 4D", begins && ends_at(1, AT_CHECK_BYTE) && number == DONE),
        ("a check that counts mismatches", goes && answer.mismatches != place.mismatches),
        ("1FFFF to 00000, mode 1", mode == 1 && some(&up)),
        ("1FFFF to 00000, mode 5", mode == 5 && some(&up)),
        ("00000 to 1FFFF, mode 2", mode == 2 && some(&down)),
        ("1FFFF to 00000 within data", some(&|byte| up(byte) && byte.awaited == AT_DATA)),
        ("00000 to 1FFFF within data", some(&|byte| down(byte) && byte.awaited == AT_DATA)),
        ("1FFFF to 00000 behind a jump", jumped && some(&up)),
        ("00000 to 1FFFF behind a jump", jumped && some(&down)),
        ("1FFFF to 00000 before the control byte", some(&|byte| up(byte) && byte.awaited == AT_PREAMBLE)),
        ("00000 to 1FFFF before the control byte", some(&|byte| down(byte) && byte.awaited == AT_PREAMBLE)),
        ("1FFFF to 00000 in an EPROM longer than that", some(&up) && bytes.len() > COUNTS as usize),
        ("a kept next value that wrapped", ends_with(true) && last.is_some_and(|byte| up(byte) || down(byte))),
        ("more than 768 bytes, mode 1", mode == 1 && took.len() > TURNED),
        ("more than 768 bytes, mode 2", mode == 2 && took.len() > TURNED),
        ("more than 1,536 bytes, mode 2", mode == 2 && took.len() > 2 * TURNED),
        ("768 bytes, mode 2", mode == 2 && took.len() == TURNED),
        ("more than 768 bytes round 1FFFF, mode 2", mode == 2 && took.len() > TURNED && some(&down)),
        ("a jump, mode 1", mode == 1 && jumped),
        ("a jump, mode 2", mode == 2 && jumped),
        ("a jump, mode 5", mode == 5 && jumped),
        ("a jump of a run begun in this call", jumped && begins),
        ("a jump by an address lent", jumped && !begins && some(&lent_address)),
        ("a jump at the first byte fetched", jumped && took.first().is_some_and(Took::jumps)),
        ("a jump at the last byte fetched", jumped && last.is_some_and(Took::jumps)),
        ("a jump, and fetched on", jumped && last.is_some_and(|byte| !byte.jumps())),
        ("a jump to 1FFFF", jumped && some(&|byte| byte.jumps() && byte.after.counter == LAST)),
        ("a jump to 00000", jumped && some(&|byte| byte.jumps() && byte.after.counter == 0)),
        ("a jump and a later null byte", jumped && some(&|byte| byte.awaited == AT_NULL && !byte.first_null())),
        ("19, bit 0 set", number == BAD_JUMP && ends_with(true)),
        ("19, bit 0 clear", number == BAD_JUMP && ends_with(false)),
        ("19 for 020000", number == BAD_JUMP && some(&|byte| byte.jumps() && byte.before.address == [0, 0, 2])),
        ("19 for 800000 and more", number == BAD_JUMP && some(&|byte| byte.jumps() && byte.before.address[2] >= 128)),
        ("19 in mode 2", number == BAD_JUMP && mode == 2),
        ("19 in a check", number == BAD_JUMP && place.check == 1),
        ("19 at the last of n", number == BAD_JUMP && took.len() as u64 == count),
        ("19, and n is more", number == BAD_JUMP && (took.len() as u64) < count),
        ("19, and the counter wraps", number == BAD_JUMP && ends_with(true) && [0, LAST].contains(&left.counter)),
        ("no jump: bit 1 is clear", some(&|byte| byte.first_null() && !byte.jumps())),
        ("no jump: bit 1 is clear, an address too high", {
            some(&|byte| byte.first_null() && !byte.jumps() && byte.before.address[2] > 1)
        }),
        ("no jump: the null byte was taken", {
            some(&|byte| {
                byte.device == 0 && byte.awaited == AT_NULL && byte.before.nulled == 1 && byte.before.control & 2 != 0
            })
        }),
        ("no jump: nulled lent above 1, which stays", {
            some(&|byte| {
                byte.device == 0 && byte.awaited == AT_NULL && byte.after.nulled > 1 && byte.before.control & 2 != 0
            })
        }),
        ("no jump: a null byte of a later device", {
            some(&|byte| {
                byte.device > 0 && byte.awaited == AT_NULL && byte.before.nulled == 0 && byte.before.control & 2 != 0
            })
        }),
        ("no jump: bit 1, and no windows", {
            begins
                && ends_at(0, AT_CHECK_BYTE)
                && last.is_some_and(|byte| byte.after.nulled == 0 && byte.after.control & 2 != 0)
        }),
        ("no windows, and an address too high", {
            begins
                && ends_at(0, AT_CHECK_BYTE)
                && last.is_some_and(|byte| byte.after.nulled == 0 && byte.after.address[2] > 1)
        }),
        ("accepted, bit 0 set", number == DONE && ends_with(true)),
        ("accepted, bit 0 clear", number == DONE && ends_with(false)),
        ("accepted, bit 0 clear, mode 2", number == DONE && ends_with(false) && mode == 2),
        ("refused, bit 0 set", ends_with(true) && number != DONE && number != BAD_JUMP),
        ("refused, bit 0 clear", ends_with(false) && number != DONE && number != BAD_JUMP),
        (
            "refused on a later device, bit 0 set",
            ends_with(true) && number != DONE && last.is_some_and(|byte| byte.device > 0),
        ),
        ("7 for the control byte, bit 0 set", ends_at(0, AT_CONTROL) && ends_with(true)),
        ("7 for the control byte, bit 0 clear", ends_at(0, AT_CONTROL) && ends_with(false)),
        ("7 for a later device's control byte", number == NO_CHECK && last.is_some_and(|byte| byte.device > 0)),
        ("5 at the first preamble, bit 0 lent set", number == NO_PREAMBLE && lent.control & BIT_0 != 0),
        (
            "6 at the first preamble, bit 0 lent set",
            ends_at(0, AT_PREAMBLE) && number == BARRED && lent.control & BIT_0 != 0,
        ),
        (
            "7 at the first preamble, bit 0 lent set",
            ends_at(0, AT_PREAMBLE) && number == NO_CHECK && lent.control & BIT_0 != 0,
        ),
        ("what was lent is put away at the first preamble", begins && kept),
        ("put away, and a jump after it", begins && lent.nulled != 0 && jumped),
        ("18 at once", number == PAST_EPROM && took.is_empty()),
        (
            "18 at once, and what was lent stays",
            number == PAST_EPROM && took.is_empty() && place.awaited == AT_PREAMBLE && kept,
        ),
        ("18 after bytes", number == PAST_EPROM && !took.is_empty()),
        ("18 within data", number == PAST_EPROM && last.is_some_and(|byte| byte.awaited == AT_DATA)),
        ("18 right after a jump", number == PAST_EPROM && last.is_some_and(Took::jumps)),
        ("18 after the wrap to 1FFFF", number == PAST_EPROM && mode == 2 && last.is_some_and(down)),
        ("18 in an empty EPROM", number == PAST_EPROM && bytes.is_empty()),
        (
            "the last byte of an EPROM, and 16",
            number == MORE && some(&|byte| byte.before.counter as usize + 1 == bytes.len()),
        ),
        ("n is 0", number == MORE && count == 0),
        ("n is 0, and past the EPROM", number == MORE && count == 0 && bytes.len() <= lent.counter as usize),
        ("n is just what the run takes", ends && took.len() as u64 == count),
        ("n is more than the run takes", ends && (took.len() as u64) < count),
        ("n is more than 2^32", ends && count >= 1 << 32),
        ("2 with counts", number == BAD_MODE && answer.taken > 0),
        ("2 in mode 3", number == BAD_MODE && mode == 3),
        ("2 in mode 4", number == BAD_MODE && mode == 4),
        ("2 in mode 6", number == BAD_MODE && mode == 6),
        ("2 and n is 0", number == BAD_MODE && count == 0),
        ("a counter too high: 020000", number == ILL_FORMED && sound && lent.counter == COUNTS),
        ("a counter too high, and no run", number == ILL_FORMED && sound && over && closed),
        ("a counter too high, and another mode", number == ILL_FORMED && sound && over && !closed && !boots(mode)),
        ("a counter too high, and a bad chain", number == BAD_CHAIN && over),
        ("a counter too high, and an ill-formed state", number == ILL_FORMED && !sound && over),
        ("a counter too high, and n is 0", number == ILL_FORMED && sound && over && count == 0),
        ("a state that is ill formed", number == ILL_FORMED && !over),
        ("no run, and an empty EPROM", number == NO_RUN && bytes.is_empty()),
    ]
}
