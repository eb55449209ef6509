//! "EPROM boards": runs whose bytes are fetched. Single calls from any place with any fetcher; and whole boots, of which
//! it is known from how the EPROM was laid what they store and where they leave the counter. The calls are compared like
//! all others; what they gave is then held to the document's own words, so that model and archive are not wrong alike.

use crate::call::{written, Call, Eprom, Part, Room, MOST_EPROM};
use crate::calls::{large_window, lent, sound_run};
use crate::chains::{sound, Lent};
use crate::model::chain::{Chain, Place};
use crate::model::eprom::{boots, fetch_one, home, Fetched, Fetcher, COUNTS};
use crate::model::numbers::*;
use crate::patches::{few, put_window};
use crate::random::Random;
use crate::runs::Make;
use crate::states::open_at;
use crate::streams;

/// A counter: where its mode starts it, about either end, about a whole number of high bytes, or any.
fn counter(random: &mut Random, mode: u8) -> u32 {
    let some = random.below(12) as u32;
    match random.below(8) {
        0 => home(mode),
        1 => some,
        2 => COUNTS - 1 - some,
        3 => random.pick(&[0xFF, 0x100, 0xFFFF, 0x1_0000, 0xFF_FF + some]),
        4..=6 => random.below(3000) as u32,
        _ => random.below(COUNTS as usize) as u32,
    }
}

/// A control byte: B0 and B1 come up alone and together.
fn control(random: &mut Random) -> u8 {
    let other = if random.once_in(3) { random.byte() & 0xFC } else { 0 };
    other | random.below(4) as u8
}

/// An external address, low byte first: mostly one that can be jumped to, the last of them and the first above.
fn address(random: &mut Random) -> [u8; 3] {
    let any = random.next() as u32;
    let to = match random.below(10) {
        0 => random.pick(&[0x1_FFFF, 0x2_0000]),
        1 => random.pick(&[0x2_0001, 0x3_0000, 0x80_0000, 0xFF_FFFF, any]),
        _ => counter(random, 1),
    };
    let [low, middle, high, _] = to.to_le_bytes();
    [low, middle, high]
}

fn fetcher(random: &mut Random, mode: u8) -> Fetcher {
    let any = random.next() as u32;
    let counter = match random.below(24) {
        0 => random.pick(&[COUNTS, COUNTS + 1, u32::MAX, any | COUNTS]),
        _ => counter(random, mode),
    };
    let nulled = random.pick(&[0, 0, 0, 1, 1, 2, 255]);
    Fetcher { counter, control: control(random), address: address(random), nulled }
}

/// Puts a control byte and an external address where the run from this place takes those of the first device.
fn put_head(random: &mut Random, place: &Place, bytes: &mut [u8]) {
    let (control, address) = (control(random), address(random));
    let head = [control, address[0], address[1], address[2]];
    // "Awaited bytes, in order": 0 is followed by 2 in these modes.
    for (awaited, value) in (AT_CONTROL..).zip(head) {
        let at = match place.awaited {
            AT_PREAMBLE => awaited - 1,
            now if now <= awaited => awaited - now,
            _ => continue,
        };
        if let Some(byte) = bytes.get_mut(at as usize) {
            *byte = value;
        }
    }
}

/// The bytes where the fetcher comes by, one after another, as long as the run takes them.
fn laid(lent: &Lent, mut fetcher: Fetcher, bytes: &[u8]) -> Vec<(u32, u8)> {
    let (mut chain, mut memory) = (lent.chain, lent.memory.clone());
    let mut laid = Vec::new();
    for &byte in bytes {
        laid.push((fetcher.counter, byte));
        if fetch_one(&mut chain, &mut fetcher, &mut memory, byte) != MORE {
            break;
        }
    }
    laid
}

/// One random call.
pub fn fetch_call(random: &mut Random) -> Call {
    let large = random.once_in(12);
    let mut lent = if large { large_window(random) } else { lent(random, true) };
    if !large && random.once_in(3) && lent.chain.place.running == 1 && sound_run(&lent) {
        let check = random.below(2) as u8;
        open_at(random, &mut lent.chain, AT_PREAMBLE, check);
        lent.chain.registers[0] &= if random.once_in(8) { 0xFF } else { !(BIT_3 | BIT_4) };
    }
    let open = sound_run(&lent);
    let place = &mut lent.chain.place;
    if open && place.awaited != AT_SECOND_PREAMBLE && !random.once_in(10) {
        place.mode = random.pick(&[1, 2, 2, 5]);
    }
    let place = *place;
    let mut fetcher = fetcher(random, place.mode);
    if place.device == 0 && place.awaited <= AT_NULL && random.once_in(12) {
        // The first null byte is the last before the counter wraps.
        let before = if place.awaited == AT_PREAMBLE { 6 } else { (AT_NULL - place.awaited) as u32 };
        fetcher.counter = if place.mode == 2 { before } else { COUNTS - 1 - before };
    }
    let mut bytes = if open {
        let most =
            random.pick(if large { &[767, 768, 769, 775, 776, 777, 1544, 1545, 5000] } else { &[1, 2, 5, 20, 200, 900] });
        if place.awaited == AT_PREAMBLE && !random.once_in(6) {
            streams::stream(random, &lent.chain, &lent.memory, place.mode)
        } else {
            streams::walk(random, &lent.chain, &lent.memory, most)
        }
    } else {
        random.bytes(9)
    };
    if place.device == 0 && !random.once_in(8) {
        put_head(random, &place, &mut bytes);
    }
    if random.once_in(6) {
        streams::damage(random, &mut bytes);
    }
    let taken = open && boots(place.mode) && fetcher.counter < COUNTS;
    let laid = if taken { laid(&lent, fetcher, &bytes) } else { Vec::new() };
    let eprom = Eprom { length: length(random, fetcher.counter as usize, &laid), laid };
    let count = bytes.len() as u64;
    let count = match random.below(10) {
        0 => 0,
        1 => random.below(bytes.len() + 1) as u64,
        2 => count.saturating_sub(1),
        3 => count + random.within(1, 9) as u64,
        4 => random.pick(&[u64::MAX, 1 << 32, 1 << 63, count + 5000]),
        _ => count,
    };
    Call::Fetch { chain: lent.chain, memory: lent.memory, fetcher, eprom, count }
}

/// How long the EPROM is: all that a counter reaches, just what is fetched, less, none, more.
fn length(random: &mut Random, counter: usize, laid: &[(u32, u8)]) -> usize {
    let top = laid.iter().map(|&(address, _)| address as usize + 1).max().unwrap_or(0);
    let length = match random.below(10) {
        0..=2 => COUNTS as usize,
        3..=5 => top,
        6 => random.below(top + 1),
        7 => random.pick(&[0, 0, counter, counter + 1, top.saturating_sub(1)]),
        8 => COUNTS as usize + random.within(1, 128),
        _ => top + random.within(1, 9),
    };
    length.min(MOST_EPROM)
}

/// A whole stream for the chain's first devices, that loads as a write or a check; and whether it can jump.
fn whole(random: &mut Random, chain: &Chain) -> (Vec<u8>, bool) {
    let mut stream = vec![PREAMBLE];
    let sections = random.within(1, chain.count as usize);
    let mut jumps = false;
    for device in 0..sections {
        let last = device + 1 == sections;
        let control = control(random) & !(BIT_3 | BIT_4) & if last { 0xFF } else { !BIT_2 };
        let size = chain.size(device as u8);
        let windows = if random.once_in(4) { Vec::new() } else { few(random, size) };
        if device == 0 {
            jumps = control & BIT_1 != 0 && !windows.is_empty();
        }
        stream.push(control);
        stream.extend(address(random));
        stream.push(255 - windows.len() as u8);
        for window in windows {
            let (null, data) = (random.byte(), random.bytes(window.1 - window.0 + 1));
            put_window(&mut stream, null, window, &data);
        }
        stream.push(if last { POSTAMBLE } else { PREAMBLE });
    }
    (stream, jumps)
}

/// The counter so many bytes later, with no jump between.
fn later(mode: u8, counter: u32, bytes: usize) -> u32 {
    let bytes = bytes as i64;
    (counter as i64 + if mode == 2 { -bytes } else { bytes }).rem_euclid(COUNTS as i64) as u32
}

/// "starts at 00000 (1FFFF in mode 2)"
fn first_of(mode: u8) -> u32 {
    if mode == 2 {
        0x1_FFFF
    } else {
        0x0_0000
    }
}

/// The head of a stream up to its first null byte: preamble, control byte, address, count, null.
const HEAD: usize = 7;

/// The stream in an EPROM, from a counter on, after the first null byte from another; nothing where it would lie over
/// itself.
fn burnt(mode: u8, first: u32, to: Option<u32>, stream: &[u8]) -> Option<Eprom> {
    let mut laid: Vec<(u32, u8)> = Vec::new();
    for (index, &byte) in stream.iter().enumerate() {
        let at = match to {
            Some(to) if index >= HEAD => later(mode, to, index - HEAD),
            _ => later(mode, first, index),
        };
        laid.push((at, byte));
    }
    let mut places: Vec<u32> = laid.iter().map(|&(at, _)| at).collect();
    places.sort();
    places.dedup();
    (places.len() == laid.len()).then_some(Eprom { length: COUNTS as usize, laid })
}

/// A board that is being booted, on both sides.
struct Board<'a, 'b> {
    make: &'a mut Make<'b>,
    chain: Chain,
    memory: Vec<u8>,
    fetcher: Fetcher,
}

impl Board<'_, '_> {
    fn parts(&mut self, call: impl FnOnce(Chain, Vec<u8>) -> Call) -> Vec<Part> {
        let parts = (self.make)(call(self.chain, self.memory.clone()));
        for part in &parts {
            match part {
                Part::Made(made) => self.chain = made.chain,
                Part::Fed(fed) => self.chain = fed.chain,
                Part::Fetched(Fetched { chain, fetcher, .. }) => (self.chain, self.fetcher) = (*chain, *fetcher),
                Part::Memory(memory) => self.memory = memory.clone(),
                _ => (),
            }
        }
        parts
    }

    fn start(&mut self, mode: u8, check: u8) {
        self.parts(|chain, memory| Call::Start { chain, memory, mode, check });
    }

    /// Number and bytes taken.
    fn fetch(&mut self, eprom: &Eprom, count: usize) -> (u8, u32) {
        let (fetcher, eprom, count) = (self.fetcher, eprom.clone(), count as u64);
        match self.parts(|chain, memory| Call::Fetch { chain, memory, fetcher, eprom, count }).first() {
            Some(Part::Fetched(fetched)) => (fetched.answer.number, fetched.answer.taken),
            _ => (MORE, 0),
        }
    }

    /// "bytes fed directly": the closing bytes.
    fn close(&mut self) {
        let room = Room { length: 16_384, fill: 0 };
        let room = if self.memory.len() < 1000 { Room { length: 55, ..room } } else { room };
        let stream = written(&(self.make)(Call::Closing { chain: self.chain, memory: self.memory.clone(), room }));
        self.parts(|chain, memory| Call::Slice { chain, memory, stream });
    }

    fn left(&self) -> (Chain, Vec<u8>, Fetcher) {
        (self.chain, self.memory.clone(), self.fetcher)
    }
}

/// Boots one board from its EPROM: at once, in parts, stopped and closed, stopped and picked up; gives the sentences that
/// do not hold.
pub fn one_board(random: &mut Random, make: &mut Make) -> Vec<String> {
    let Lent { mut chain, memory } = sound(random);
    chain.registers = chain.registers.map(|register| register & !(BIT_3 | BIT_4));
    let (mode, check) = (random.pick(&[1, 2, 2, 5]), random.once_in(4) as u8);
    let first = counter(random, mode);
    let (stream, jumps) = whole(random, &chain);
    let address = u32::from_le_bytes([stream[2], stream[3], stream[4], 0]);
    let astray = jumps && address >= COUNTS;
    let to = (jumps && !astray).then_some(address);
    let Some(eprom) = burnt(mode, first, to, &stream) else { return Vec::new() };
    let length = stream.len();
    let keeps = stream[1] & BIT_0 != 0;
    let lent = Fetcher { counter: first, ..fetcher(random, mode) };

    let mut wrong = Vec::new();
    let mut sentence = |text: &str, holds: bool| {
        if !holds {
            wrong.push(format!("{text}: does not hold"));
        }
    };
    let mut board = Board { make, chain, memory, fetcher: lent };
    board.start(mode, check);
    let fresh = board.left();
    let begin = |board: &mut Board| (board.chain, board.memory, board.fetcher) = fresh.clone();

    let told = board.fetch(&eprom, length + random.below(3));
    if astray {
        sentence("19 at the null byte, which counts as taken", told == (BAD_JUMP, HEAD as u32));
        let counter = if keeps { later(mode, first, HEAD) } else { first_of(mode) };
        sentence("19 leaves the counter as any end", board.fetcher == Fetcher { counter, ..Fetcher::default() });
        sentence(
            "19 closes the run, and changes no cell",
            board.chain.place == Place::default() && board.memory == fresh.1,
        );
        return wrong;
    }
    sentence("a fetched stream loads whole", told == (DONE, length as u32));
    let counter = match (keeps, to) {
        (false, _) => first_of(mode),
        (true, Some(to)) => later(mode, to, length - HEAD),
        (true, None) => later(mode, first, length),
    };
    sentence("the counter is home, or its next value", board.fetcher == Fetcher { counter, ..Fetcher::default() });
    let unbroken = board.left();

    begin(&mut board);
    let fed = stream.clone();
    board.parts(|chain, memory| Call::Slice { chain, memory, stream: fed });
    let as_fed = (board.chain, &board.memory) == (unbroken.0, &unbroken.1);
    sentence("a fetched run equals the machine fed with its bytes", as_fed);

    begin(&mut board);
    for _ in 0..random.within(1, 4) {
        board.fetch(&eprom, random.below(length / 2 + 1));
        if board.chain.place.running == 0 {
            break;
        }
    }
    if board.chain.place.running == 1 {
        board.fetch(&eprom, length);
    }
    sentence("fetched in parts it is the same run", board.left() == unbroken);

    // "18 .. no byte is taken, the run stays open": an EPROM that lacks the byte at its highest address.
    begin(&mut board);
    let top = eprom.laid.iter().map(|&(at, _)| at).max().unwrap_or(0);
    let before = eprom.laid.iter().position(|&(at, _)| at == top).unwrap_or(0);
    let short = Eprom { length: top as usize, laid: eprom.laid.clone() };
    sentence("18 before the byte that is not there", board.fetch(&short, length) == (PAST_EPROM, before as u32));
    board.fetch(&eprom, length);
    sentence("after 18 it goes on", board.left() == unbroken);

    // "the fresh start is lent the counter that the stopped run began with"
    begin(&mut board);
    let stop = if random.once_in(3) { random.below(length.min(HEAD + 6)) } else { random.below(length) };
    board.fetch(&eprom, stop);
    let stopped = board.left();
    board.close();
    let same = (board.chain.registers, &board.memory) == (stopped.0.registers, &stopped.1);
    sentence("closing bytes fed directly leave cells and registers", same && board.chain.place.running == 0);
    board.start(mode, check);
    board.fetcher.counter = first;
    board.fetch(&eprom, length);
    sentence("stopped, closed, started afresh from its first counter: as unbroken", board.left() == unbroken);

    (board.chain, board.memory, board.fetcher) = stopped.clone();
    let room = Room { length: 27, fill: 0xEE };
    let saved = written(&(board.make)(Call::Save { chain: board.chain, memory: board.memory.clone(), room }));
    board.parts(|chain, memory| Call::Drop { chain, memory });
    board.parts(|chain, memory| Call::PickUp { chain, memory, saved });
    board.fetch(&eprom, length);
    sentence("stopped, saved with its fetcher, picked up: as unbroken", board.left() == unbroken);
    wrong
}
