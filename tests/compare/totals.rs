//! What load sheets have met: how streams ended and where they stopped, how their windows met, at which bit they began, and
//! what was refused. A run of the comparison that never met one of these sorts says too little.

use crate::model::kinds::size_of;
use crate::model::numbers::*;
use crate::model::sheet::{is_serial, refusal, rows, Row, FIGURES, MOST_LENGTHS};

/// Each sort, and whether a sheet is of it.
pub fn sorts(kind: u8, mode: u8, streams: &[u8], lengths: &[u32], tables: [usize; 2]) -> Vec<(&'static str, bool)> {
    let [numbers, figures] = tables;
    let count = lengths.len();
    let refused = refusal(kind, mode, streams.len(), lengths, numbers, figures);
    let met = if refused.is_none() { rows(kind, mode, streams, lengths) } else { Vec::new() };
    let serial = is_serial(mode);
    let some = |is: &dyn Fn(&Row) -> bool| met.iter().any(is);
    let ends = |number| !serial && some(&|row| row.number == number);
    let ends_serial = |number| serial && some(&|row| row.number == number && row.figures[0] > 0);
    let stops = |awaited| some(&|row: &Row| row.number == MORE && row.place.awaited == awaited && row.bytes > 0);
    let then = |first: u8, next: &dyn Fn(&Row) -> bool| {
        met.windows(2).any(|two| two[0].number == first && next(&two[1]))
    };
    let stored = |row: &Row| row.figures[1] > 0;
    let sum: u128 = lengths.iter().map(|&length| length as u128).sum();
    let fits = sum == streams.len() as u128 && count <= MOST_LENGTHS;
    let is = |number| refused == Some(number);
    let (known, moded) = (size_of(kind).is_some(), is_mode(mode));
    let short = numbers < count || figures < FIGURES * count;
    let taken = refused.is_none();
    vec![
        ("no stream", taken && count == 0),
        ("one stream", taken && count == 1),
        ("more than six streams", taken && count > 6),
        ("65,535 or 65,536 streams", taken && count + 1 >= MOST_LENGTHS),
        ("65,536 streams", taken && count == MOST_LENGTHS),
        ("kind 0", taken && kind == 0 && count > 0),
        ("kind 2", taken && kind == 2 && count > 0),
        ("kind 3", taken && kind == 3 && count > 0),
        ("kind 5", taken && kind == 5 && count > 0),
        ("kind 10", taken && kind == 10 && count > 0),
        ("mode 1", taken && mode == 1 && count > 0),
        ("mode 2", taken && mode == 2 && count > 0),
        ("mode 3", taken && mode == 3 && count > 0),
        ("mode 4", taken && mode == 4 && count > 0),
        ("mode 5", taken && mode == 5 && count > 0),
        ("mode 6", taken && mode == 6 && count > 0),
        ("an empty stream, parallel", ends(MORE) && some(&|row| row.bytes == 0)),
        ("a failed hunt", serial && some(&|row| row.number == NO_PREAMBLE && row.figures[0] == 0)),
        ("accepted", ends(DONE)),
        ("no preamble", ends(NO_PREAMBLE)),
        ("no second preamble", mode == 6 && some(&|row| row.number == NO_PREAMBLE && row.figures[0] == 2)),
        ("barred", ends(BARRED)),
        ("barred in mode 6, at the second byte", mode == 6 && some(&|row| row.number == BARRED && row.figures[0] == 2)),
        ("a bad check byte", ends(BAD_CHECK_BYTE)),
        ("a second device, and bit 2 is set", ends(ENDS_HERE)),
        ("a second device, and bit 2 is clear", ends(LAST_DEVICE)),
        ("a bad start", ends(BAD_START)),
        ("a bad end", ends(BAD_END)),
        ("used up", ends(MORE)),
        ("serial, accepted", ends_serial(DONE)),
        ("serial, barred", ends_serial(BARRED)),
        ("serial, a bad check byte", ends_serial(BAD_CHECK_BYTE)),
        ("serial, a second device, and bit 2 is set", ends_serial(ENDS_HERE)),
        ("serial, a second device, and bit 2 is clear", ends_serial(LAST_DEVICE)),
        ("serial, a bad start", ends_serial(BAD_START)),
        ("serial, a bad end", ends_serial(BAD_END)),
        ("serial, used up", ends_serial(MORE)),
        ("used up before the second preamble", stops(AT_SECOND_PREAMBLE)),
        ("used up before the control byte", stops(AT_CONTROL)),
        ("used up before the address", stops(AT_ADDRESS_LOW)),
        ("used up before its second byte", stops(AT_ADDRESS_MIDDLE)),
        ("used up before its third byte", stops(AT_ADDRESS_HIGH)),
        ("used up before the count", stops(AT_COUNT)),
        ("used up before a null byte", stops(AT_NULL)),
        ("used up before the first byte of a start", stops(AT_START_HIGH)),
        ("used up before the second byte of a start", stops(AT_START_LOW)),
        ("used up before the first byte of an end", stops(AT_END_HIGH)),
        ("used up before the second byte of an end", stops(AT_END_LOW)),
        ("used up before or within data", stops(AT_DATA)),
        ("used up before the check byte", stops(AT_CHECK_BYTE)),
        ("used up, then a stream that stores", then(MORE, &stored)),
        ("used up, then a barred one", then(MORE, &|row| row.number == BARRED)),
        ("refused after data, then a stream that stores", met.windows(2).any(|two| {
            two[0].number != DONE && two[0].number != MORE && stored(&two[0]) && stored(&two[1])
        })),
        ("accepted, then a stream that stores", then(DONE, &stored)),
        ("barred, then barred", then(BARRED, &|row| row.number == BARRED)),
        ("barred, then used up or no preamble", then(BARRED, &|row| row.number != BARRED)),
        ("data, and no cell again", some(&|row| stored(row) && row.figures[3] == 0)),
        ("a cell stored twice", some(&|row| row.most == 2)),
        ("a cell stored three times or more", some(&|row| row.most > 2)),
        ("every cell stored again", some(&|row| stored(row) && row.figures[2] == row.figures[3])),
        ("some cells stored again, and not all", some(&|row| row.figures[3] > 0 && row.figures[2] > row.figures[3])),
        ("all of the device", some(&|row| Some(row.figures[2] as usize) == size_of(kind))),
        ("used up after a cell stored again", some(&|row| row.number == MORE && row.figures[3] > 0)),
        ("serial, a cell stored again", serial && some(&|row| row.figures[3] > 0)),
        ("data, and no bit changed", some(&|row| stored(row) && row.figures[4] == 0)),
        ("p is 0", serial && some(&|row| row.figures[0] > 0 && row.p == 0)),
        ("p is 1 to 7", serial && some(&|row| (1..8).contains(&row.p))),
        ("p is whole bytes", serial && some(&|row| row.p > 0 && row.p % 8 == 0)),
        ("p is more than a byte, and not whole ones", serial && some(&|row| row.p > 8 && row.p % 8 != 0)),
        ("p is 64", serial && some(&|row| row.p == 64)),
        ("bits left over", serial && some(&|row| row.left > 0)),
        ("bits left over, and used up", serial && some(&|row| row.left > 0 && row.number == MORE)),
        ("p, and refused", serial && some(&|row| row.p > 0 && ![DONE, MORE].contains(&row.number))),
        ("bytes after the run's end", !serial && some(&|row| row.bytes > row.figures[0] as usize && row.number == DONE)),
        ("serial, bytes after the run's end", serial && some(&|row| row.bytes > row.figures[0] as usize)),
        ("65,537 lengths", is(BAD_LENGTHS) && count == MOST_LENGTHS + 1),
        ("lengths of a byte too many", is(BAD_LENGTHS) && sum == streams.len() as u128 + 1),
        ("lengths of a byte too few", is(BAD_LENGTHS) && sum + 1 == streams.len() as u128),
        ("lengths right modulo 2^32 alone", !fits && sum > 1 << 31 && sum as u32 as usize == streams.len()),
        ("no length, and bytes", is(BAD_LENGTHS) && count == 0),
        ("bad lengths and an unknown kind", is(BAD_LENGTHS) && !known),
        ("bad lengths and no mode", is(BAD_LENGTHS) && !moded),
        ("bad lengths and short tables", is(BAD_LENGTHS) && short),
        ("an unknown kind", is(BAD_CHAIN) && moded && !short),
        ("an unknown kind and no mode", is(BAD_CHAIN) && !moded),
        ("an unknown kind and short tables", is(BAD_CHAIN) && short),
        ("no mode", is(BAD_MODE) && !short),
        ("no mode and short tables", is(BAD_MODE) && short),
        ("one number short", is(TOO_SHORT) && numbers + 1 == count && figures >= FIGURES * count),
        ("one figure short", is(TOO_SHORT) && numbers >= count && figures + 1 == FIGURES * count),
        ("tables just long enough", taken && numbers == count && figures == FIGURES * count && count > 0),
        ("tables longer than needed", taken && numbers > count && figures > FIGURES * count),
    ]
}
