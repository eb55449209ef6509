//! What goes through the pipes: a request, and a reply in parts; archive.c has the other end. A frame is a length of
//! four bytes and that many bytes; all numbers go low byte first; a state goes field by field.

use crate::call::{Call, Part, Room};
use crate::model::chain::{Chain, Made, Place};
use crate::model::eprom::{Fetched, Fetcher};
use crate::model::hunt::Hunted;
use crate::model::lister::Listed;
use crate::model::machine::{Answer, Fed};
use crate::model::output::Written;
use crate::model::salvage::Salvaged;
use crate::model::sheet::{Sheet, FIGURES};

const MADE: u8 = 1;
const FED: u8 = 2;
const WRITTEN: u8 = 3;
const LISTED: u8 = 4;
const MEMORY: u8 = 5;
const OUTPUT: u8 = 6;
const STARTS: u8 = 7;
const ENDS: u8 = 8;
const OFFSETS: u8 = 9;
const HUNTED: u8 = 10;
const SALVAGED: u8 = 11;
const FETCHER: u8 = 12;
const FETCHED: u8 = 13;
const SHEET: u8 = 14;
const FIGURES_LEFT: u8 = 15;

fn put16(to: &mut Vec<u8>, value: u16) {
    to.extend(value.to_le_bytes());
}

fn put32(to: &mut Vec<u8>, value: usize) {
    to.extend((value as u32).to_le_bytes());
}

fn put_bytes(to: &mut Vec<u8>, bytes: &[u8]) {
    put32(to, bytes.len());
    to.extend(bytes);
}

fn put_words(to: &mut Vec<u8>, words: &[u16]) {
    put32(to, words.len());
    for &word in words {
        put16(to, word);
    }
}

fn put_room(to: &mut Vec<u8>, room: &Room) {
    put32(to, room.length);
    to.push(room.fill);
}

fn put_chain(to: &mut Vec<u8>, chain: &Chain) {
    let place = &chain.place;
    to.push(chain.count);
    to.extend(chain.kinds);
    to.extend(chain.registers);
    to.extend([place.running, place.mode, place.check, place.device, place.awaited, place.left, place.control]);
    put16(to, place.start);
    put16(to, place.end);
    put16(to, place.next);
    put32(to, place.taken as usize);
    put32(to, place.mismatches as usize);
}

fn put_fetcher(to: &mut Vec<u8>, fetcher: &Fetcher) {
    put32(to, fetcher.counter as usize);
    to.push(fetcher.control);
    to.extend(fetcher.address);
    to.push(fetcher.nulled);
}

/// Puts one request, its length first.
pub fn put_request(to: &mut Vec<u8>, call: &Call) {
    let front = to.len();
    put32(to, 0);
    match call {
        Call::New { count, kinds, memory } => {
            to.extend([0, *count]);
            to.extend(kinds);
            put_bytes(to, memory);
        }
        Call::Reset { chain, memory } => put_state(to, 1, chain, memory),
        Call::Start { chain, memory, mode, check } => {
            put_state(to, 2, chain, memory);
            to.extend([*mode, *check]);
        }
        Call::Byte { chain, memory, byte } => {
            put_state(to, 3, chain, memory);
            to.push(*byte);
        }
        Call::Slice { chain, memory, stream } => {
            put_state(to, 4, chain, memory);
            put_bytes(to, stream);
        }
        Call::Closing { chain, memory, room } => {
            put_state(to, 5, chain, memory);
            put_room(to, room);
        }
        Call::Save { chain, memory, room } => {
            put_state(to, 6, chain, memory);
            put_room(to, room);
        }
        Call::PickUp { chain, memory, saved } => {
            put_state(to, 7, chain, memory);
            put_bytes(to, saved);
        }
        Call::Hunt { stream, room } => {
            to.push(8);
            put_bytes(to, stream);
            put_room(to, room);
        }
        Call::Write { order, room } => {
            to.extend([9, order.kind, order.mode, order.control]);
            to.extend(order.address);
            put_words(to, &order.starts);
            put_words(to, &order.ends);
            put_bytes(to, &order.data);
            put_room(to, room);
        }
        Call::List { kind, mode, stream, lengths, fill } => {
            to.extend([10, *kind, *mode]);
            put_bytes(to, stream);
            for &length in lengths {
                put32(to, length);
            }
            to.push(*fill);
        }
        Call::Drop { chain, memory } => put_state(to, 11, chain, memory),
        Call::Tidy { kind, stream, room } => {
            to.extend([12, *kind]);
            put_bytes(to, stream);
            put_room(to, room);
        }
        Call::Salvage { kind, stream, room } => {
            to.extend([13, *kind]);
            put_bytes(to, stream);
            put_room(to, room);
        }
        Call::FetcherNew { mode } => to.extend([14, *mode]),
        Call::Fetch { chain, memory, fetcher, eprom, count } => {
            put_state(to, 15, chain, memory);
            put_fetcher(to, fetcher);
            put32(to, eprom.length);
            put32(to, eprom.laid.len());
            for &(address, byte) in &eprom.laid {
                put32(to, address as usize);
                to.push(byte);
            }
            to.extend(count.to_le_bytes());
        }
        Call::LoadSheet { kind, mode, streams, lengths, tables, fill } => {
            to.extend([16, *kind, *mode]);
            put_bytes(to, streams);
            put32(to, lengths.len());
            for &length in lengths {
                put32(to, length as usize);
            }
            for &length in tables {
                put32(to, length);
            }
            to.push(*fill);
        }
        Call::Month { kind, mode, stream, times, more } => {
            to.extend([17, *kind, *mode]);
            put_bytes(to, stream);
            put32(to, *times as usize);
            put32(to, *more as usize);
        }
    }
    let length = (to.len() - front - 4) as u32;
    to[front..front + 4].copy_from_slice(&length.to_le_bytes());
}

fn put_state(to: &mut Vec<u8>, call: u8, chain: &Chain, memory: &[u8]) {
    to.push(call);
    put_chain(to, chain);
    put_bytes(to, memory);
}

/// The reply, without its length, that says these parts and no fault.
pub fn reply_of(parts: &[Part]) -> Vec<u8> {
    let mut to = vec![0];
    for part in parts {
        put_part(&mut to, part);
    }
    to
}

fn put_part(to: &mut Vec<u8>, part: &Part) {
    match part {
        Part::Made(made) => {
            to.extend([MADE, made.number]);
            put_chain(to, &made.chain);
        }
        Part::Fed(fed) => {
            to.extend([FED, fed.answer.number]);
            put32(to, fed.answer.taken as usize);
            put32(to, fed.answer.mismatches as usize);
            put_chain(to, &fed.chain);
        }
        Part::Written(written) => {
            to.extend([WRITTEN, written.number]);
            to.extend(written.length.to_le_bytes());
        }
        Part::Hunted(hunted) => {
            to.extend([HUNTED, hunted.number, hunted.p, hunted.left]);
            to.extend(hunted.length.to_le_bytes());
        }
        Part::Listed(listed) => {
            to.extend([LISTED, listed.number, listed.windows, listed.control]);
            to.extend(listed.address);
            put32(to, listed.taken as usize);
        }
        Part::Salvaged(salvaged) => {
            to.extend([SALVAGED, salvaged.number, salvaged.kept, salvaged.announced, salvaged.end]);
            to.extend(salvaged.offset.to_le_bytes());
            to.extend(salvaged.length.to_le_bytes());
        }
        Part::Fetcher(fetcher) => {
            to.push(FETCHER);
            put_fetcher(to, fetcher);
        }
        Part::Fetched(fetched) => {
            to.extend([FETCHED, fetched.answer.number]);
            put32(to, fetched.answer.taken as usize);
            put32(to, fetched.answer.mismatches as usize);
            put_chain(to, &fetched.chain);
            put_fetcher(to, &fetched.fetcher);
        }
        Part::Sheet(sheet) => {
            to.extend([SHEET, sheet.number]);
            for sum in sheet.sums {
                put32(to, sum as usize);
            }
        }
        Part::Figures(wide) => put_table(to, FIGURES_LEFT, wide, |number| number.to_le_bytes()),
        Part::Memory(bytes) => put_table(to, MEMORY, bytes, |&byte| [byte]),
        Part::Output(bytes) => put_table(to, OUTPUT, bytes, |&byte| [byte]),
        Part::Starts(words) => put_table(to, STARTS, words, |word| word.to_le_bytes()),
        Part::Ends(words) => put_table(to, ENDS, words, |word| word.to_le_bytes()),
        Part::Offsets(wide) => put_table(to, OFFSETS, wide, |number| number.to_le_bytes()),
    }
}

fn put_table<T, const N: usize>(to: &mut Vec<u8>, tag: u8, table: &[T], bytes: fn(&T) -> [u8; N]) {
    to.push(tag);
    put32(to, N * table.len());
    for entry in table {
        to.extend(bytes(entry));
    }
}

/// A reply read back, for a report: its faults and its parts, as far as they can be read.
pub fn read_reply(reply: &[u8]) -> (u8, Vec<Part>) {
    let mut from = Reader { rest: reply };
    let faults = from.take(1).map_or(255, |one| one[0]);
    let mut parts = Vec::new();
    while let Some(part) = from.part() {
        parts.push(part);
    }
    (faults, parts)
}

struct Reader<'a> {
    rest: &'a [u8],
}

impl<'a> Reader<'a> {
    fn take(&mut self, length: usize) -> Option<&'a [u8]> {
        if length > self.rest.len() {
            return None;
        }
        let (front, rest) = self.rest.split_at(length);
        self.rest = rest;
        Some(front)
    }

    fn number(&mut self, width: usize) -> Option<u64> {
        Some(self.take(width)?.iter().rev().fold(0, |number, &byte| number * 256 + byte as u64))
    }

    fn byte(&mut self) -> Option<u8> {
        Some(self.number(1)? as u8)
    }

    fn table(&mut self, width: usize) -> Option<Vec<u64>> {
        let length = self.number(4)? as usize;
        let bytes = self.take(length)?;
        Some(bytes.chunks(width).map(|entry| Reader { rest: entry }.number(width).unwrap_or(0)).collect())
    }

    fn eight(&mut self) -> Option<[u8; 8]> {
        self.take(8)?.try_into().ok()
    }

    fn chain(&mut self) -> Option<Chain> {
        Some(Chain { count: self.byte()?, kinds: self.eight()?, registers: self.eight()?, place: self.place()? })
    }

    fn place(&mut self) -> Option<Place> {
        Some(Place {
            running: self.byte()?,
            mode: self.byte()?,
            check: self.byte()?,
            device: self.byte()?,
            awaited: self.byte()?,
            left: self.byte()?,
            control: self.byte()?,
            start: self.number(2)? as u16,
            end: self.number(2)? as u16,
            next: self.number(2)? as u16,
            taken: self.number(4)? as u32,
            mismatches: self.number(4)? as u32,
        })
    }

    fn fetcher(&mut self) -> Option<Fetcher> {
        Some(Fetcher {
            counter: self.number(4)? as u32,
            control: self.byte()?,
            address: [self.byte()?, self.byte()?, self.byte()?],
            nulled: self.byte()?,
        })
    }

    fn part(&mut self) -> Option<Part> {
        Some(match self.byte()? {
            MADE => {
                let number = self.byte()?;
                Part::Made(Made { chain: self.chain()?, number })
            }
            FED => {
                let number = self.byte()?;
                let answer = Answer { number, taken: self.number(4)? as u32, mismatches: self.number(4)? as u32 };
                Part::Fed(Fed { chain: self.chain()?, answer })
            }
            WRITTEN => Part::Written(Written { number: self.byte()?, length: self.number(8)? }),
            HUNTED => Part::Hunted(Hunted {
                number: self.byte()?,
                p: self.byte()?,
                left: self.byte()?,
                length: self.number(8)?,
            }),
            LISTED => Part::Listed(Listed {
                number: self.byte()?,
                windows: self.byte()?,
                control: self.byte()?,
                address: [self.byte()?, self.byte()?, self.byte()?],
                taken: self.number(4)? as u32,
            }),
            SALVAGED => Part::Salvaged(Salvaged {
                number: self.byte()?,
                kept: self.byte()?,
                announced: self.byte()?,
                end: self.byte()?,
                offset: self.number(8)?,
                length: self.number(8)?,
            }),
            FETCHER => Part::Fetcher(self.fetcher()?),
            FETCHED => {
                let number = self.byte()?;
                let answer = Answer { number, taken: self.number(4)? as u32, mismatches: self.number(4)? as u32 };
                Part::Fetched(Fetched { chain: self.chain()?, answer, fetcher: self.fetcher()? })
            }
            SHEET => {
                let number = self.byte()?;
                let mut sums = [0; FIGURES];
                for sum in &mut sums {
                    *sum = self.number(4)? as u32;
                }
                Part::Sheet(Sheet { number, sums })
            }
            FIGURES_LEFT => Part::Figures(self.table(4)?.iter().map(|&entry| entry as u32).collect()),
            MEMORY => Part::Memory(self.table(1)?.iter().map(|&entry| entry as u8).collect()),
            OUTPUT => Part::Output(self.table(1)?.iter().map(|&entry| entry as u8).collect()),
            STARTS => Part::Starts(self.table(2)?.iter().map(|&entry| entry as u16).collect()),
            ENDS => Part::Ends(self.table(2)?.iter().map(|&entry| entry as u16).collect()),
            OFFSETS => Part::Offsets(self.table(4)?.iter().map(|&entry| entry as u32).collect()),
            _ => return None,
        })
    }
}
