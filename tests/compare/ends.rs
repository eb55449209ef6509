//! What salvage has met: where a stream broke off or was refused, how much of it was whole, and how much room there
//! was. A run of the comparison that never met one of these sorts says too little.

use crate::call::Room;
use crate::model::chain::{new, Place};
use crate::model::kinds::size_of;
use crate::model::machine::{slice, start};
use crate::model::numbers::*;
use crate::model::salvage::salvage;
use crate::shapes::{some, windows_of};

/// Where a write of the stream into one reset device stands at its end, and how many bytes it took.
fn stopped(kind: u8, size: usize, stream: &[u8]) -> (Place, usize) {
    let mut memory = vec![0; size];
    let fresh = new(1, &[kind, 0, 0, 0, 0, 0, 0, 0], &memory).chain;
    let fed = slice(start(fresh, size, 1, 0).chain, &mut memory, stream);
    (fed.chain.place, fed.answer.taken as usize)
}

/// Each sort, and whether a stream with an output of that length is of it.
pub fn sorts(kind: u8, stream: &[u8], room: &Room) -> Vec<(&'static str, bool)> {
    let length = stream.len();
    let mut sound = vec![0; length + 1];
    let told = salvage(kind, stream, &mut sound);
    sound.truncate(told.length as usize);
    let done = told.number == DONE;
    let (place, taken) = stopped(kind, size_of(kind).unwrap_or(0), stream);
    let (windows, offsets, _) = windows_of(kind, &sound);
    let (offset, needed) = (told.offset as usize, told.length as usize);
    let ends = |number| done && told.end == number;
    let awaits = |byte| ends(MORE) && place.awaited == byte;
    let of = |kept, announced| done && (told.kept, told.announced) == (kept, announced);
    let bad = ends(BAD_START) || ends(BAD_END);
    let begins = stream.first() == Some(&PREAMBLE);
    vec![
        ("accepted", ends(DONE)),
        ("a bad check byte", ends(BAD_CHECK_BYTE)),
        ("a second device, and bit 2 is set", ends(ENDS_HERE)),
        ("a second device, and bit 2 is clear", ends(LAST_DEVICE)),
        ("a bad start", ends(BAD_START)),
        ("a bad end", ends(BAD_END)),
        ("used up before a null byte", awaits(AT_NULL)),
        ("used up before the first byte of a start", awaits(AT_START_HIGH)),
        ("used up before the second byte of a start", awaits(AT_START_LOW)),
        ("used up before the first byte of an end", awaits(AT_END_HIGH)),
        ("used up before the second byte of an end", awaits(AT_END_LOW)),
        ("used up before data", awaits(AT_DATA) && place.next == place.start),
        ("used up within data", awaits(AT_DATA) && place.next > place.start),
        ("used up before the last byte of data", awaits(AT_DATA) && place.start < place.end && place.next == place.end),
        ("used up before the check byte", awaits(AT_CHECK_BYTE)),
        ("the first window is bad", bad && told.kept == 0),
        ("a later window is bad", bad && told.kept > 0),
        ("bytes after the refused one", done && told.end != DONE && told.end != MORE && taken < length),
        ("bytes after the postamble", ends(DONE) && taken < length),
        ("none announced", of(0, 0)),
        ("none announced, and not accepted", of(0, 0) && told.end != DONE),
        ("none kept of one", of(0, 1)),
        ("none kept of more", done && told.kept == 0 && told.announced > 1),
        ("one kept of two", of(1, 2)),
        ("all kept, and not accepted", done && told.kept > 0 && told.kept == told.announced && told.end != DONE),
        ("255 announced, all kept, accepted", of(255, 255) && told.end == DONE),
        ("255 announced, all kept, not accepted", of(255, 255) && told.end != DONE),
        ("255 announced, 254 kept", of(254, 255)),
        ("255 announced, few there", done && told.kept < 10 && told.announced == 255),
        ("kept windows that overlap", some(&windows, |a, b| a.0 <= b.1 && b.0 <= a.1)),
        ("a kept null byte that was not 0", offsets.iter().any(|&data| stream[data - 5] != 0)),
        ("comes out as it was given", done && stream[..taken] == sound),
        ("comes out with 16,000 bytes and more", needed >= 16_000),
        ("comes out with a byte more than it has", done && offset == length),
        ("just enough room", done && room.length == needed),
        ("more room than needed", done && room.length > needed),
        ("one byte less than needed", done && room.length + 1 == needed),
        ("no room at all", done && room.length == 0),
        ("room for less than the stream, and enough", done && needed <= room.length && room.length < length),
        ("no byte at all", told.number == NO_HEAD && length == 0),
        ("five bytes", told.number == NO_HEAD && length == 5 && begins),
        ("six bytes", done && length == 6),
        ("fewer than six bytes, and no preamble", told.number == NO_HEAD && length > 0 && !begins),
        ("fewer than six bytes, and no room", told.number == NO_HEAD && room.length == 0),
        ("no preamble", told.number == NO_PREAMBLE),
        ("no preamble, and no room", told.number == NO_PREAMBLE && room.length == 0),
        ("an unknown kind", told.number == BAD_CHAIN),
        ("an unknown kind, and fewer than six bytes", told.number == BAD_CHAIN && length < 6),
        ("an unknown kind, and no preamble", told.number == BAD_CHAIN && length >= 6 && !begins),
        ("kind 0", done && kind == 0),
        ("kind 2", done && kind == 2),
        ("kind 3", done && kind == 3),
        ("kind 5", done && kind == 5),
        ("kind 10", done && kind == 10),
    ]
}
