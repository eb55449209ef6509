//! "Three people write one patch with different windows": what they wrote tidies to equal bytes, and to other bytes
//! where it means something else; and a tidied stream loads as the given one does. The calls are compared like all
//! others; what they gave is then held to the document's own words, so that model and archive are not wrong alike.

use crate::call::{written, Call, Part, Room};
use crate::model::chain::{Chain, Place};
use crate::model::kinds::size_of;
use crate::model::numbers::*;
use crate::patches::{few, put_window, shuffle, Window};
use crate::random::Random;
use crate::runs::Make;

/// What a patch means: its control byte, its address, and for each cell its value, if it has one.
#[derive(Clone, PartialEq)]
struct Meaning {
    kind: u8,
    head: [u8; 4],
    cells: Vec<Option<u8>>,
}

/// Writes one patch in two ways and another patch in a third; gives the sentences that do not hold.
pub fn one_patch(random: &mut Random, make: &mut Make) -> Vec<String> {
    let meaning = any(random);
    let other = changed(random, &meaning);
    let (Some(one), Some(two), Some(three)) = (a_way(random, &meaning), a_way(random, &meaning), a_way(random, &other))
    else {
        return Vec::new();
    };
    let mut wrong = Vec::new();
    let mut sentence = |text: &str, holds: bool| {
        if !holds {
            wrong.push(format!("{text}: does not hold"));
        }
    };
    let mut tidied = |stream: &[u8], kind: u8| {
        // "an output as long as the stream always has room"
        let room = Room { length: stream.len(), fill: 0xEE };
        written(&make(Call::Tidy { kind, stream: stream.to_vec(), room }))
    };
    let first = tidied(&one, meaning.kind);
    sentence("an output as long as the stream has room", !first.is_empty());
    sentence("one meaning tidies to equal bytes", first == tidied(&two, meaning.kind));
    let third = tidied(&three, other.kind);
    sentence("another meaning tidies to other bytes", (first == third) == (meaning == other));
    let memory = random.bytes(meaning.cells.len());
    let left = loaded(make, meaning.kind, &one, &memory);
    sentence("a tidied stream loads as the given one", left == loaded(make, meaning.kind, &first, &memory));
    let meant: Vec<u8> = memory.iter().zip(&meaning.cells).map(|(&old, cell)| cell.unwrap_or(old)).collect();
    sentence("a patch loads as it means", left == (DONE, meant));
    wrong
}

fn any(random: &mut Random) -> Meaning {
    let kind = if random.once_in(20) { 2 } else { 0 };
    let head = random.bytes(4);
    let mut cells = vec![None; size_of(kind).unwrap_or(0)];
    for (start, end) in few(random, cells.len()) {
        for cell in &mut cells[start..=end] {
            *cell = Some(random.byte());
        }
    }
    Meaning { kind, head: [head[0], head[1], head[2], head[3]], cells }
}

/// Another value, a cell more or less, another control byte or address; at times nothing at all.
fn changed(random: &mut Random, meaning: &Meaning) -> Meaning {
    let mut other = meaning.clone();
    let at = random.below(other.cells.len());
    match random.below(5) {
        0 => other.cells[at] = Some(random.byte()),
        1 => other.cells[at] = None,
        2 => other.cells[at] = other.cells[at].map(|value| value ^ 1 << random.below(8)),
        3 => other.head[random.below(4)] ^= 1 << random.below(8),
        _ => (),
    }
    other
}

/// A stream that means this: each run of cells cut into windows that may overlap, in any order, behind windows with
/// other data that they cover. None where it would take more than 255.
fn a_way(random: &mut Random, meaning: &Meaning) -> Option<Vec<u8>> {
    let cells = &meaning.cells;
    let mut last: Vec<Window> = Vec::new();
    let mut at = 0;
    while at < cells.len() {
        if cells[at].is_none() {
            at += 1;
            continue;
        }
        let mut end = at;
        let most = at + random.pick(&[0, 1, 3, 8, cells.len()]);
        while end < most && end + 1 < cells.len() && cells[end + 1].is_some() {
            end += 1;
        }
        let mut start = at;
        while start > 0 && cells[start - 1].is_some() && random.once_in(3) {
            start -= 1;
        }
        last.push((start, end));
        at = end + 1;
    }
    shuffle(random, &mut last);
    let behind: Vec<Window> = last.iter().copied().filter(|_| random.once_in(3)).collect();
    if behind.len() + last.len() > 255 {
        return None;
    }
    let mut stream = vec![PREAMBLE];
    stream.extend(meaning.head);
    stream.push(!((behind.len() + last.len()) as u8));
    for (start, end) in behind {
        let noise = random.bytes(end - start + 1);
        put_window(&mut stream, random.byte(), (start, end), &noise);
    }
    for (start, end) in last {
        let data: Vec<u8> = cells[start..=end].iter().map(|cell| cell.unwrap_or(0)).collect();
        put_window(&mut stream, random.byte(), (start, end), &data);
    }
    stream.push(POSTAMBLE);
    Some(stream)
}

/// The number that a write of the stream gives on one fresh device, and the memory that it leaves.
pub fn loaded(make: &mut Make, kind: u8, stream: &[u8], memory: &[u8]) -> (u8, Vec<u8>) {
    let place = Place { running: 1, mode: 1, ..Place::default() };
    let chain = Chain { count: 1, kinds: [kind, 0, 0, 0, 0, 0, 0, 0], place, ..Chain::default() };
    match &make(Call::Slice { chain, memory: memory.to_vec(), stream: stream.to_vec() })[..] {
        [Part::Fed(fed), Part::Memory(memory), ..] => (fed.answer.number, memory.clone()),
        _ => (MORE, Vec::new()),
    }
}
