//! One random call on a state, refusals and their combinations included, so that the order of the numbers shows.

use crate::boards;
use crate::call::{Call, Room};
use crate::chains::{large, make_bad, register, sound, Lent};
use crate::damage::damage;
use crate::disks;
use crate::model::chain::{state_number, Chain};
use crate::model::closing::closing;
use crate::model::numbers::{AT_DATA, AT_END_LOW, AT_START_LOW};
use crate::model::output::Written;
use crate::model::saved::{pack, SAVED_LENGTH};
use crate::random::Random;
use crate::sheets;
use crate::stateless;
use crate::states::{any_place, close, open, open_at};
use crate::streams;

/// A state and its memory: a run open or not; now and then ill formed, a bad chain, both, or any bytes at all.
pub fn lent(random: &mut Random, often_open: bool) -> Lent {
    let mut lent = sound(random);
    if random.once_in(10) != often_open {
        open(random, &mut lent.chain);
    } else {
        close(random, &mut lent.chain);
    }
    if random.once_in(6) {
        damage(random, &mut lent.chain);
    }
    if random.once_in(12) {
        make_bad(random, &mut lent);
    }
    if random.once_in(60) {
        lent.chain.place = any_place(random);
        lent.chain.registers = random.eight();
        if random.once_in(2) {
            lent.chain.kinds = random.eight();
        }
    }
    lent
}

pub fn sound_run(lent: &Lent) -> bool {
    lent.chain.place.running == 1 && state_number(&lent.chain, lent.memory.len()).is_none()
}

/// A mode: mostly one of the six, at times any byte.
pub fn mode(random: &mut Random) -> u8 {
    match random.below(8) {
        0 => random.pick(&[0, 7, 8, 255]),
        1 => random.byte(),
        _ => random.within(1, 6) as u8,
    }
}

/// Room for what is needed: just so, one short, none, more.
pub fn room(random: &mut Random, needed: usize) -> Room {
    let length = match random.below(8) {
        0 => needed.saturating_sub(1),
        1 => random.below(needed + 1),
        2 => 0,
        3 | 4 => needed + random.within(1, 9),
        _ => needed,
    };
    Room { length, fill: random.byte() }
}

/// A call of any name.
pub fn any(random: &mut Random) -> Call {
    match random.below(144) {
        0..=5 => new(random),
        6..=10 => reset(random),
        11..=19 => start(random),
        20..=39 => byte(random),
        40..=49 => slice(random),
        50..=63 => closing_call(random),
        64..=70 => save(random),
        71..=82 => pick_up(random),
        83..=88 => stateless::hunt_call(random),
        89..=94 => stateless::write_call(random),
        95..=99 => stateless::list_call(random),
        100..=107 => stateless::tidy_call(random),
        108..=115 => disks::salvage_call(random),
        116..=129 => boards::fetch_call(random),
        130 => Call::FetcherNew { mode: mode(random) },
        131..=138 => sheets::sheet_call(random),
        _ => drop(random),
    }
}

fn new(random: &mut Random) -> Call {
    let mut lent = sound(random);
    if random.once_in(3) {
        make_bad(random, &mut lent);
    }
    let mut kinds = lent.chain.kinds;
    if random.once_in(2) {
        // "those past the count taken as zero": known or not.
        for unused in (lent.chain.count as usize).min(8)..8 {
            kinds[unused] = random.byte();
        }
    }
    Call::New { count: lent.chain.count, kinds, memory: lent.memory }
}

fn reset(random: &mut Random) -> Call {
    let open = random.once_in(2);
    let Lent { chain, memory } = lent(random, open);
    Call::Reset { chain, memory }
}

fn start(random: &mut Random) -> Call {
    let Lent { chain, memory } = lent(random, false);
    let check = random.pick(&[0, 0, 1, 1, 2, 128, 255]);
    Call::Start { chain, memory, mode: mode(random), check }
}

fn byte(random: &mut Random) -> Call {
    let lent = lent(random, true);
    let byte = if sound_run(&lent) && !random.once_in(6) {
        streams::likely(random, &lent.chain, &lent.memory)
    } else {
        random.byte()
    };
    Call::Byte { chain: lent.chain, memory: lent.memory, byte }
}

fn slice(random: &mut Random) -> Call {
    let lent = if random.once_in(20) { large_window(random) } else { lent(random, true) };
    let mut stream = if random.once_in(8) {
        closing_bytes(&lent.chain, &lent.memory)
    } else if sound_run(&lent) {
        let most = random.pick(&[0, 1, 2, 5, 20, 200, 900]);
        streams::walk(random, &lent.chain, &lent.memory, most)
    } else {
        let noise = random.below(9);
        random.bytes(noise)
    };
    if random.once_in(4) {
        streams::damage(random, &mut stream);
    }
    Call::Slice { chain: lent.chain, memory: lent.memory, stream }
}

/// An open run inside a window of a larger kind: closing at 9 and 11 turns on high bytes.
pub fn large_window(random: &mut Random) -> Lent {
    let mut lent = large(random);
    let awaited = random.pick(&[AT_START_LOW, AT_END_LOW, AT_END_LOW, AT_DATA]);
    let check = random.below(2) as u8;
    open_at(random, &mut lent.chain, awaited, check);
    lent
}

/// The bytes that end this run; none where closing is refused.
fn closing_bytes(chain: &Chain, memory: &[u8]) -> Vec<u8> {
    let mut output = vec![0; 16_381 + 3];
    let Written { length, .. } = closing(chain, memory, &mut output);
    output.truncate(length as usize);
    output
}

fn closing_call(random: &mut Random) -> Call {
    let Lent { chain, memory } = if random.once_in(8) { large_window(random) } else { lent(random, true) };
    let needed = closing_bytes(&chain, &memory).len();
    Call::Closing { chain, memory, room: room(random, needed) }
}

fn save(random: &mut Random) -> Call {
    let Lent { chain, memory } = lent(random, true);
    Call::Save { chain, memory, room: room(random, SAVED_LENGTH) }
}

fn drop(random: &mut Random) -> Call {
    let Lent { chain, memory } = lent(random, true);
    Call::Drop { chain, memory }
}

/// A place of the same chain, sound or damaged in one condition, or with one bit or its length changed, or of another
/// chain.
fn pick_up(random: &mut Random) -> Call {
    let Lent { chain, memory } = lent(random, false);
    let mut from: Chain = if random.once_in(12) { sound(random).chain } else { chain };
    from.count = from.count.clamp(1, 8);
    if state_number(&from, memory.len()).is_some() {
        from = sound(random).chain;
    }
    for device in 0..from.count as usize {
        from.registers[device] = register(random);
    }
    if random.once_in(3) {
        damage(random, &mut from);
    } else {
        open(random, &mut from);
    }
    let mut saved = pack(&from.place, &from.registers);
    match random.below(8) {
        0 | 1 => saved[random.below(SAVED_LENGTH)] ^= 1 << random.below(8),
        2 if random.once_in(2) => saved.truncate(random.pick(&[0, 1, 18, 26, 26])),
        2 => saved.extend(vec![0; random.pick(&[1, 1, 2, 27, 256])]),
        3 if random.once_in(4) => saved = random.bytes(SAVED_LENGTH),
        _ => (),
    }
    Call::PickUp { chain, memory, saved }
}
