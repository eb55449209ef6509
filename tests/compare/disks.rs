//! "Salvage of the old disks": streams in mode 1 for one device that break off or carry a bad byte. What each has of
//! whole windows is known from how it was broken, before any reader has seen it. The calls are compared like all others;
//! what they gave is then held to the document's own words, so that model and archive are not wrong alike.

use crate::call::{written, Call, Part, Room};
use crate::calls::room;
use crate::meanings::loaded;
use crate::model::kinds::{size_of, KINDS};
use crate::model::lister::Listed;
use crate::model::numbers::*;
use crate::model::salvage::{salvage, Salvaged};
use crate::model::writer::Order;
use crate::patches::{few, many, put_window, Window};
use crate::random::Random;
use crate::runs::Make;
use crate::stateless::kind;
use crate::streams;

const HEAD: usize = 6;
const MOST: usize = 255;

/// A stream as it was broken, its whole windows before that, the number with which it ends.
struct Disk {
    stream: Vec<u8>,
    kept: Vec<(Window, Vec<u8>)>,
    end: u8,
}

/// A stream of these windows: sound, cut, with a bad start, end or check byte, or with more windows announced.
fn disk(random: &mut Random, size: usize, windows: &[Window]) -> Disk {
    let way = random.below(8);
    let count = windows.len();
    let bad = if random.once_in(3) { count.saturating_sub(1) } else { random.below(count) };
    let announced = match way {
        0 if count < MOST => {
            let any = random.within(count + 1, MOST);
            random.pick(&[count + 1, MOST, any])
        }
        _ => count,
    };
    let mut stream = vec![PREAMBLE];
    stream.extend(random.bytes(4));
    stream.push(255 - announced as u8);
    let (mut kept, mut ends, mut refused) = (Vec::new(), Vec::new(), None);
    for (index, &(first, last)) in windows.iter().enumerate() {
        let (mut start, mut end) = (first, last);
        match way {
            1 if index == bad => {
                let any = random.within(size, 65_535);
                start = random.pick(&[size, size, any]);
                refused = Some(BAD_START);
            }
            2 if index == bad => {
                let below = random.below(first);
                end = if first > 0 { random.pick(&[first - 1, below, size]) } else { size };
                refused = Some(BAD_END);
            }
            _ => (),
        }
        let data = random.bytes(last - first + 1);
        let null = if random.once_in(2) { 0 } else { random.byte() };
        put_window(&mut stream, null, (start, end), &data);
        kept.push(((first, last), data));
        ends.push(stream.len());
    }
    let end = match (refused, way) {
        (Some(number), _) => {
            kept.truncate(bad);
            stream.push(POSTAMBLE);
            number
        }
        (None, 0) if announced > count => MORE,
        (None, 3..=5) => {
            // Cut anywhere, or in the last window; "before .. the end": a window is whole whose last byte is there.
            let least = if random.once_in(3) { ends.iter().rev().nth(1).copied().unwrap_or(HEAD) } else { HEAD };
            let at = random.within(least, stream.len());
            stream.truncate(at);
            kept.truncate(ends.iter().filter(|&&end| end <= stream.len()).count());
            MORE
        }
        (None, 6) => {
            let any = random.byte();
            let check = random.pick(&[PREAMBLE, any, 0x00, 0xFF]);
            stream.push(check);
            match check {
                POSTAMBLE => DONE,
                PREAMBLE if stream[1] & BIT_2 != 0 => ENDS_HERE,
                PREAMBLE => LAST_DEVICE,
                _ => BAD_CHECK_BYTE,
            }
        }
        _ => {
            stream.push(POSTAMBLE);
            DONE
        }
    };
    if end != MORE && random.once_in(4) {
        // Not looked at.
        let more = random.pick(&[1, 1, 7, 60]);
        stream.extend(random.bytes(more));
    }
    Disk { stream, kept, end }
}

/// One random call: a disk as above, at times with damage anywhere, a short head, no preamble, another count.
pub fn salvage_call(random: &mut Random) -> Call {
    let large = random.once_in(10);
    let kind = if large { random.pick(&KINDS).0 } else { kind(random) };
    let size = size_of(kind).unwrap_or(52);
    let windows = if large { many(random, size) } else { few(random, size) };
    let mut stream = disk(random, size, &windows).stream;
    match random.below(16) {
        0 | 1 => streams::damage(random, &mut stream),
        2 => stream.truncate(random.pick(&[0, 1, 4, 5, 5, 6, 7])),
        3 => stream[0] = random.pick(&[0x00, 0xFF, POSTAMBLE, PREAMBLE ^ 1, PREAMBLE ^ 0x80]),
        4 => {
            stream[0] = random.byte();
            stream.truncate(random.within(1, 6));
        }
        5 => stream[5] = random.byte(),
        _ => (),
    }
    let Salvaged { number, length, .. } = salvage(kind, &stream, &mut vec![0; stream.len() + 1]);
    // A refusal, too, is to leave an output that has bytes.
    let needed = if number == DONE { length as usize } else { stream.len() };
    Call::Salvage { kind, stream, room: room(random, needed) }
}

/// Salvages one disk, and lists, loads and writes what came out; gives the sentences that do not hold.
pub fn one_disk(random: &mut Random, make: &mut Make) -> Vec<String> {
    let kind = if random.once_in(20) { 2 } else { 0 };
    let size = size_of(kind).unwrap_or(0);
    let windows = few(random, size);
    let Disk { stream, kept, end } = disk(random, size, &windows);
    let mut wrong = Vec::new();
    let mut sentence = |text: &str, holds: bool| {
        if !holds {
            wrong.push(format!("{text}: does not hold"));
        }
    };
    let mut sound = stream[..5].to_vec();
    sound.push(255 - kept.len() as u8);
    for (window, data) in &kept {
        put_window(&mut sound, 0x00, *window, data);
    }
    let offset = sound.len();
    sound.push(POSTAMBLE);

    // "a byte more than s has always has room"
    let room = Room { length: stream.len() + 1, fill: 0xEE };
    let parts = make(Call::Salvage { kind, stream: stream.clone(), room });
    let count = kept.len() as u8;
    let (length, announced) = (sound.len() as u64, 255 - stream[5]);
    let told = Salvaged { number: DONE, kept: count, announced, end, offset: offset as u64, length };
    sentence("the change list tells how the disk was broken", parts.first() == Some(&Part::Salvaged(told)));
    sentence("the whole windows come out, and nothing else", written(&parts) == sound);

    let memory = random.bytes(size);
    let left = loaded(make, kind, &sound, &memory);
    let there = loaded(make, kind, &stream[..offset], &memory);
    sentence("the offset is where the last kept window ends", there == (MORE, left.1.clone()));
    let mut meant = memory.clone();
    for ((first, last), data) in &kept {
        meant[*first..=*last].copy_from_slice(data);
    }
    sentence("loading the result stores exactly the kept windows", left == (DONE, meant));
    sentence("the end is the machine's number", end == loaded(make, kind, &stream, &memory).0);

    let (listed, again) = written_again(make, kind, &sound);
    sentence("the result lists as the kept windows", (listed.number, listed.windows) == (DONE, count));
    sentence("the result is what its listing is written as", again == sound);
    if end == DONE {
        let (listed, again) = written_again(make, kind, &stream);
        sentence("an accepted stream is listed", (listed.number, listed.windows) == (DONE, count));
        sentence("an accepted stream comes out as its listing is written", again == sound);
    }
    wrong
}

/// What the lister says of a stream, and the stream that the writer makes of that.
fn written_again(make: &mut Make, kind: u8, stream: &[u8]) -> (Listed, Vec<u8>) {
    let call = Call::List { kind, mode: 1, stream: stream.to_vec(), lengths: [MOST; 3], fill: 0xEE };
    let parts = make(call);
    let [Part::Listed(listed), Part::Starts(starts), Part::Ends(ends), Part::Offsets(offsets)] = &parts[..] else {
        return (Listed::default(), Vec::new());
    };
    let count = listed.windows as usize;
    let (starts, ends) = (starts[..count].to_vec(), ends[..count].to_vec());
    let mut data = Vec::new();
    for ((start, end), offset) in starts.iter().zip(&ends).zip(offsets) {
        let from = *offset as usize;
        data.extend(&stream[from..=from + (end - start) as usize]);
    }
    let order = Order { kind, mode: 1, control: listed.control, address: listed.address, starts, ends, data };
    let room = Room { length: stream.len(), fill: 0xEE };
    (*listed, written(&make(Call::Write { order, room })))
}
