//! How often each call gave each number, at which awaited bytes closing, byte and drop met an open run, which closing
//! bytes were written where there is more than one sort, which sorts of streams the tidier and salvage met, and which sorts
//! of fetches and of load sheets there were; what a run of the comparison must have met.

use crate::call::{written, Call, Part};
use crate::ends;
use crate::jumps;
use crate::model::numbers::*;
use crate::shapes;
use crate::totals;

const NAMES: [&str; 20] = [
    "new",
    "reset",
    "start",
    "byte",
    "slice",
    "closing",
    "save",
    "pick_up",
    "hunt",
    "write",
    "list",
    "drop",
    "tidy",
    "salvage",
    "fetcher_new",
    "fetch",
    "start_in",
    "slice_in",
    "pick_up_in",
    "load_sheet",
];

const RUNS: [&str; 6] = ["closing write", "closing check", "byte write", "byte check", "drop write", "drop check"];

const AWAITED: [&str; 14] = [
    "byte at 0",
    "byte at 1",
    "byte at 2",
    "byte at 3",
    "byte at 4",
    "byte at 5",
    "byte at 6",
    "byte at 7",
    "byte at 8",
    "byte at 9",
    "byte at 10",
    "byte at 11",
    "byte at 12",
    "byte at 13",
];

/// Closing bytes at 2, and the three sorts of them at 11. At 2 a write and a check have each their own.
const CLOSED: [&str; 4] = ["at 2", "at 11: 00", "at 11: FF", "at 11: longer"];

/// The numbers that each call can give: all of them must be met, and no other may be.
const NUMBERS: [&[u8]; 20] = [
    &[0, 1],
    &[0, 1],
    &[0, 1, 2, 3, 17],
    &[0, 1, 4, 5, 6, 7, 8, 9, 10, 11, 12, 16, 17],
    &[0, 1, 4, 5, 6, 7, 8, 9, 10, 11, 12, 16, 17],
    &[0, 1, 4, 15, 17],
    &[0, 1, 4, 15, 17],
    &[0, 1, 3, 17],
    &[0, 5, 15],
    &[0, 1, 2, 11, 12, 13, 14, 15],
    &[0, 1, 2, 5, 8, 9, 10, 11, 12, 15, 16],
    &[0, 1, 4, 17],
    &[0, 1, 5, 8, 9, 10, 11, 12, 15, 16],
    &[0, 1, 5, 15, 27],
    &[0],
    &[0, 1, 2, 4, 5, 6, 7, 8, 9, 10, 11, 12, 16, 17, 18, 19],
    &[0, 1, 2, 3, 17],
    &[0, 1, 4, 5, 6, 7, 8, 9, 10, 11, 12, 16, 17],
    &[0, 1, 3, 17],
    &[0, 1, 2, 15, 23],
];

/// The numbers that a byte call can give at each awaited byte of an open run; 6 and 7 at the preamble, in mode 6 at the
/// second, and at the check byte.
const AT: [&[u8]; 14] = [
    &[5, 6, 7, 16],
    &[5, 6, 7, 16],
    &[7, 16],
    &[16],
    &[16],
    &[16],
    &[16],
    &[16],
    &[16],
    &[11, 16],
    &[16],
    &[12, 16],
    &[16],
    &[0, 6, 7, 8, 9, 10, 16],
];

/// The largest number.
const MOST: usize = NO_HEAD as usize;

const PICK_UP: usize = 7;
const TIDY: usize = 12;
const SALVAGE: usize = 13;
const FETCH: usize = 15;
const LOAD_SHEET: usize = 19;

/// The row of a call, and that of the call made right after it: its in-place twin, the pick-up of what was saved, or
/// the tidying of what was tidied, the salvage of what was salvaged, the same fetch in two parts.
pub fn rows(call: &Call) -> (usize, Option<usize>) {
    match call {
        Call::New { .. } => (0, None),
        Call::Reset { .. } => (1, None),
        Call::Start { .. } => (2, Some(16)),
        Call::Byte { .. } => (3, None),
        Call::Slice { .. } => (4, Some(17)),
        Call::Closing { .. } => (5, None),
        Call::Save { .. } => (6, Some(PICK_UP)),
        Call::PickUp { .. } => (PICK_UP, Some(18)),
        Call::Hunt { .. } => (8, None),
        Call::Write { .. } => (9, None),
        Call::List { .. } => (10, None),
        Call::Drop { .. } => (11, None),
        Call::Tidy { .. } => (TIDY, Some(TIDY)),
        Call::Salvage { .. } => (SALVAGE, Some(SALVAGE)),
        Call::FetcherNew { .. } => (14, None),
        Call::Fetch { .. } => (FETCH, Some(FETCH)),
        Call::LoadSheet { .. } | Call::Month { .. } => (LOAD_SHEET, None),
    }
}

pub fn name(call: &Call) -> &'static str {
    NAMES[rows(call).0]
}

/// How often each sort was met.
type Sorts = Vec<(&'static str, u64)>;

fn meet(sorts: &mut Sorts, met: Vec<(&'static str, bool)>) {
    if sorts.is_empty() {
        *sorts = met.iter().map(|&(name, _)| (name, 0)).collect();
    }
    for ((_, count), (_, met)) in sorts.iter_mut().zip(met) {
        *count += met as u64;
    }
}

#[derive(Default)]
pub struct Tally {
    numbers: [[u64; MOST + 1]; 20],
    /// as in RUNS
    awaited: [[u64; 14]; 6],
    /// The numbers of byte, by awaited byte.
    at: [[u64; MOST + 1]; 14],
    /// The sorts of CLOSED, each in a write and in a check.
    closed: [[u64; 2]; 4],
    /// The accepted streams that the tidier was given, by sort.
    tidied: Sorts,
    /// The streams that salvage was given, by sort.
    salvaged: Sorts,
    /// The fetches, by sort.
    fetched: Sorts,
    /// The load sheets, by sort.
    sheets: Sorts,
}

/// The row of CLOSED that these closing bytes belong to.
fn sort_of(awaited: u8, bytes: &[u8]) -> Option<usize> {
    match (awaited, bytes) {
        (AT_CONTROL, _) => Some(0),
        (AT_END_LOW, [0x00]) => Some(1),
        (AT_END_LOW, [0xFF]) => Some(2),
        (AT_END_LOW, _) => Some(3),
        _ => None,
    }
}

impl Tally {
    pub fn count(&mut self, call: &Call, parts: &[Part]) {
        let (row, next) = rows(call);
        let mut answers = parts.iter().filter_map(Part::number);
        let first = answers.next().unwrap_or(0);
        self.numbers[row][first as usize] += 1;
        if let (Some(row), Some(second)) = (next, answers.next()) {
            self.numbers[row][second as usize] += 1;
        }
        if let Call::Tidy { kind, stream, room } = call {
            meet(&mut self.tidied, shapes::sorts(*kind, stream, room));
        }
        if let Call::Salvage { kind, stream, room } = call {
            meet(&mut self.salvaged, ends::sorts(*kind, stream, room));
        }
        if let Call::Fetch { chain, memory, fetcher, eprom, count } = call {
            meet(&mut self.fetched, jumps::sorts(chain, memory, fetcher, eprom, *count));
        }
        if let Call::LoadSheet { kind, mode, streams, lengths, tables, .. } = call {
            meet(&mut self.sheets, totals::sorts(*kind, *mode, streams, lengths, *tables));
        }
        let (table, place) = match call {
            Call::Closing { chain, .. } => (0, &chain.place),
            Call::Byte { chain, .. } => (2, &chain.place),
            Call::Drop { chain, .. } => (4, &chain.place),
            _ => return,
        };
        // Neither the state nor the memory was refused, and a run is open.
        if ![BAD_CHAIN, ILL_FORMED, NO_RUN].contains(&first) {
            let run = self.awaited.get_mut(table + place.check as usize);
            if let Some(count) = run.and_then(|row| row.get_mut(place.awaited as usize)) {
                *count += 1;
            }
            if let (0, DONE, Some(sort)) = (table, first, sort_of(place.awaited, &written(parts))) {
                self.closed[sort][place.check as usize] += 1;
            }
            if let (2, Some(row)) = (table, self.at.get_mut(place.awaited as usize)) {
                row[first as usize] += 1;
            }
        }
    }

    pub fn calls(&self) -> u64 {
        self.numbers.iter().flatten().sum()
    }

    pub fn print(&self) {
        println!("How often each call gave each number:");
        table(&NAMES, &self.numbers);
        println!("Open runs met, by awaited byte:");
        table(&RUNS, &self.awaited);
        println!("How often a byte of an open run gave each number, by awaited byte:");
        table(&AWAITED, &self.at);
        println!("Closing bytes written at 2 and at 11, in a write and in a check:");
        table(&CLOSED, &self.closed);
        println!("Accepted streams that the tidier was given, by sort:");
        for (name, count) in &self.tidied {
            println!("{name:<38}{count:>8}");
        }
        println!("Streams that salvage was given, by sort:");
        for (name, count) in &self.salvaged {
            println!("{name:<46}{count:>8}");
        }
        println!("Fetches, by sort:");
        for (name, count) in &self.fetched {
            println!("{name:<50}{count:>8}");
        }
        println!("Load sheets, by sort:");
        for (name, count) in &self.sheets {
            println!("{name:<50}{count:>8}");
        }
    }

    /// What should have been met and was not, or the other way round.
    pub fn complaints(&self) -> Vec<String> {
        let mut complaints = Vec::new();
        hold(&NAMES, &self.numbers, &NUMBERS, &mut complaints);
        hold(&AWAITED, &self.at, &AT, &mut complaints);
        for (name, counts) in RUNS.iter().zip(&self.awaited) {
            for (awaited, _) in counts.iter().enumerate().filter(|(_, &count)| count == 0) {
                complaints.push(format!("{name} never met an open run at {awaited}"));
            }
        }
        for (name, counts) in CLOSED.iter().zip(&self.closed) {
            for (check, _) in counts.iter().enumerate().filter(|(_, &count)| count == 0) {
                complaints.push(format!("closing bytes {name} were never written, check {check}"));
            }
        }
        for (name, _) in self.tidied.iter().filter(|(_, count)| *count == 0) {
            complaints.push(format!("the tidier was never given a stream of the sort: {name}"));
        }
        for (name, _) in self.salvaged.iter().filter(|(_, count)| *count == 0) {
            complaints.push(format!("salvage was never given a stream of the sort: {name}"));
        }
        for (name, _) in self.fetched.iter().filter(|(_, count)| *count == 0) {
            complaints.push(format!("there was never a fetch of the sort: {name}"));
        }
        for (name, _) in self.sheets.iter().filter(|(_, count)| *count == 0) {
            complaints.push(format!("there was never a load sheet of the sort: {name}"));
        }
        complaints
    }
}

/// Holds counts of numbers to the numbers that can be given.
fn hold<const N: usize>(
    names: &[&str; N],
    counts: &[[u64; MOST + 1]; N],
    can: &[&[u8]; N],
    complaints: &mut Vec<String>,
) {
    for row in 0..N {
        for (number, &count) in counts[row].iter().enumerate() {
            match (can[row].contains(&(number as u8)), count) {
                (true, 0) => complaints.push(format!("{} never gave {number}", names[row])),
                (false, 1..) => complaints.push(format!("{} gave {number}, which it cannot", names[row])),
                _ => (),
            }
        }
    }
}

fn table<const N: usize, const M: usize>(names: &[&str; N], counts: &[[u64; M]; N]) {
    let line = |name: &str, entries: Vec<String>| {
        println!("{name:<14}{}", entries.iter().map(|entry| format!("{entry:>7}")).collect::<String>())
    };
    // A number that no row has is left out.
    let met: Vec<usize> = (0..M).filter(|&number| counts.iter().any(|row| row[number] > 0)).collect();
    let entry = |count: u64| if count == 0 { ".".to_string() } else { count.to_string() };
    line("", met.iter().map(|number| number.to_string()).collect());
    for (name, counts) in names.iter().zip(counts) {
        line(name, met.iter().map(|&number| entry(counts[number])).collect());
    }
}
