//! The same loader as one would write it in safe Rust for speed: an open run is an `Option`, the awaited byte an enum, data bytes go by
//! the slices' own copy and compare. Each call tests the state that it is lent, as document 01 asks. It is here to be raced.
use std::ops::Range;

pub const PREAMBLE: u8 = 0xb2;
pub const POSTAMBLE: u8 = 0x4d;
pub const SAVED_LENGTH: usize = 27;
const SIZES: [(u8, usize); 5] = [(0, 52), (2, 2665), (3, 4141), (5, 8065), (10, 16381)];

pub fn size_of(kind: u8) -> Option<usize> {
    SIZES.iter().find(|row| row.0 == kind).map(|row| row.1)
}

#[derive(Clone, Copy, PartialEq, Debug)]
pub enum Awaited {
    Preamble,
    Second,
    Control,
    Address(u8),
    Count,
    Null,
    StartHigh,
    StartLow,
    EndHigh,
    EndLow,
    Data,
    Check,
}
use Awaited::*;

impl Awaited {
    pub fn number(self) -> u8 {
        match self {
            Preamble => 0,
            Second => 1,
            Control => 2,
            Address(n) => 3 + n,
            Count => 6,
            Null => 7,
            StartHigh => 8,
            StartLow => 9,
            EndHigh => 10,
            EndLow => 11,
            Data => 12,
            Check => 13,
        }
    }

    fn of(number: u8) -> Option<Awaited> {
        Some(match number {
            0 => Preamble,
            1 => Second,
            2 => Control,
            3..=5 => Address(number - 3),
            6 => Count,
            7 => Null,
            8 => StartHigh,
            9 => StartLow,
            10 => EndHigh,
            11 => EndLow,
            12 => Data,
            13 => Check,
            _ => return None,
        })
    }
}

#[derive(Clone, Copy, PartialEq, Debug)]
pub struct Run {
    pub mode: u8,
    pub check: bool,
    pub device: usize,
    pub awaited: Awaited,
    pub left: u8,
    pub control: u8,
    pub start: usize,
    pub end: usize,
    pub next: usize,
    pub taken: u32,
    pub mismatches: u32,
}

#[derive(Clone, Copy, PartialEq, Debug)]
pub struct Chain {
    pub count: usize,
    pub kinds: [u8; 8],
    pub registers: [u8; 8],
    pub run: Option<Run>,
}

#[derive(Clone, Copy, PartialEq, Debug)]
pub struct Answer {
    pub number: u8,
    pub taken: u32,
    pub mismatches: u32,
}

/// How the data bytes of a check are counted.
pub type Differ = fn(&[u8], &[u8]) -> u32;

/// As one writes it first.
pub fn differ(a: &[u8], b: &[u8]) -> u32 {
    a.iter().zip(b).filter(|(x, y)| x != y).count() as u32
}

/// In blocks with a counter of one byte, which a compiler turns into vector code.
pub fn differ_tuned(a: &[u8], b: &[u8]) -> u32 {
    let few = |x: &[u8], y: &[u8]| x.iter().zip(y).map(|(p, q)| (p != q) as u8).sum::<u8>();
    a.chunks(240).zip(b.chunks(240)).map(|(x, y)| few(x, y) as u32).sum()
}

/// Closing bytes without a cell among them.
fn few(out: &mut [u8], bytes: &[u8]) -> (u8, usize) {
    let Some(out) = out.get_mut(..bytes.len()) else { return (15, 0) };
    out.copy_from_slice(bytes);
    (0, bytes.len())
}

fn barred(register: u8, check: bool) -> Option<u8> {
    if register & 16 != 0 {
        Some(6)
    } else if check && register & 8 != 0 {
        Some(7)
    } else {
        None
    }
}

impl Chain {
    pub fn new(kinds: &[u8]) -> Chain {
        let mut all = [0; 8];
        all[..kinds.len()].copy_from_slice(kinds);
        Chain { count: kinds.len(), kinds: all, registers: [0; 8], run: None }
    }

    fn cells(&self, device: usize) -> Range<usize> {
        let size = |k: &u8| size_of(*k).unwrap_or(0);
        let base = self.kinds[..device].iter().map(size).sum();
        base..base + size(&self.kinds[device])
    }

    fn bad_chain(&self, memory: usize) -> bool {
        if !(1..=8).contains(&self.count) {
            return true;
        }
        let total: Option<usize> = self.kinds[..self.count].iter().map(|k| size_of(*k)).sum();
        total.map_or(true, |t| t > 65536 || t != memory)
    }

    fn well_formed(&self, run: &Run) -> bool {
        if !(1..=6).contains(&run.mode) || run.device >= self.count || (!run.check && run.mismatches != 0) {
            return false;
        }
        let size = size_of(self.kinds[run.device]).unwrap_or(0);
        let register = self.registers[run.device];
        let (start, end, next) = (run.start, run.end, run.next);
        let fields = match run.awaited {
            Preamble | Second | Control | Address(_) | Count | Check => run.left == 0 && start == 0 && end == 0 && next == 0,
            Null | StartHigh => run.left > 0 && start == 0 && end == 0 && next == 0,
            StartLow => run.left > 0 && start & 255 == 0 && end == 0 && next == 0,
            EndHigh => run.left > 0 && start < size && end == 0 && next == 0,
            EndLow => run.left > 0 && start < size && end & 255 == 0 && next == 0,
            Data => run.left > 0 && start <= next && next <= end && end < size,
        };
        let control = match run.awaited {
            Preamble => run.control == 0 && run.device == 0,
            Second => run.control == 0 && run.device == 0 && run.mode == 6,
            Control => run.control == 0 && barred(register, run.check).is_none(),
            _ => run.control == register && !(run.check && run.control & 8 != 0),
        };
        fields && control
    }

    pub fn refusal(&self, memory: usize) -> Option<u8> {
        if self.bad_chain(memory) {
            return Some(1);
        }
        let unused = self.kinds[self.count..].iter().chain(&self.registers[self.count..]).any(|b| *b != 0);
        if unused || self.run.map_or(false, |r| !self.well_formed(&r)) {
            return Some(17);
        }
        None
    }

    #[inline(never)]
    pub fn start(&mut self, memory: &[u8], mode: u8, check: bool) -> u8 {
        if let Some(n) = self.refusal(memory.len()) {
            return n;
        }
        if !(1..=6).contains(&mode) {
            return 2;
        }
        if self.run.is_some() {
            return 3;
        }
        self.run = Some(Run {
            mode,
            check,
            device: 0,
            awaited: Preamble,
            left: 0,
            control: 0,
            start: 0,
            end: 0,
            next: 0,
            taken: 0,
            mismatches: 0,
        });
        0
    }

    #[inline(never)]
    pub fn slice(&mut self, memory: &mut [u8], bytes: &[u8]) -> Answer {
        self.feed(memory, bytes, differ)
    }

    #[inline(never)]
    pub fn slice_tuned(&mut self, memory: &mut [u8], bytes: &[u8]) -> Answer {
        self.feed(memory, bytes, differ_tuned)
    }

    #[inline(never)]
    pub fn byte(&mut self, memory: &mut [u8], b: u8) -> Answer {
        self.feed(memory, &[b], differ)
    }

    #[inline(always)]
    fn feed(&mut self, memory: &mut [u8], bytes: &[u8], differ: Differ) -> Answer {
        let refused = |number| Answer { number, taken: 0, mismatches: 0 };
        if let Some(n) = self.refusal(memory.len()) {
            return refused(n);
        }
        let Some(run) = self.run else { return refused(4) };
        self.taken(run, memory, bytes, differ)
    }

    /// The bytes of an open run, the state tested before.
    #[inline(always)]
    pub fn taken(&mut self, mut run: Run, memory: &mut [u8], bytes: &[u8], differ: Differ) -> Answer {
        let mut cells = self.cells(run.device);
        let mut rest = bytes;
        while let Some((&b, after)) = rest.split_first() {
            if run.awaited == Data {
                let n = rest.len().min(run.end - run.next + 1);
                let (data, after) = rest.split_at(n);
                let window = &mut memory[cells.clone()][run.next..run.next + n];
                if run.check {
                    run.mismatches = run.mismatches.wrapping_add(differ(window, data));
                } else {
                    window.copy_from_slice(data);
                }
                run.taken = run.taken.wrapping_add(n as u32);
                run.next += n;
                if run.next > run.end {
                    run.left -= 1;
                    (run.start, run.end, run.next) = (0, 0, 0);
                    run.awaited = if run.left == 0 { Check } else { Null };
                }
                rest = after;
            } else {
                run.taken = run.taken.wrapping_add(1);
                let device = run.device;
                if let Some(number) = self.step(&mut run, cells.len(), b) {
                    self.run = None;
                    return Answer { number, taken: run.taken, mismatches: run.mismatches };
                }
                if run.device != device {
                    cells = self.cells(run.device);
                }
                rest = after;
            }
        }
        self.run = Some(run);
        Answer { number: 16, taken: run.taken, mismatches: run.mismatches }
    }

    /// One byte that is no data; a number where the run ends.
    #[inline(always)]
    fn step(&mut self, run: &mut Run, size: usize, b: u8) -> Option<u8> {
        match run.awaited {
            Preamble | Second if b != PREAMBLE => return Some(5),
            Preamble if run.mode == 6 => run.awaited = Second,
            Preamble | Second => {
                if let Some(n) = barred(self.registers[0], run.check) {
                    return Some(n);
                }
                run.awaited = Control;
            }
            Control => {
                if run.check && b & 8 != 0 {
                    return Some(7);
                }
                self.registers[run.device] = b;
                run.control = b;
                run.awaited = Address(0);
            }
            Address(2) => run.awaited = Count,
            Address(n) => run.awaited = Address(n + 1),
            Count => {
                run.left = !b;
                run.awaited = if run.left == 0 { Check } else { Null };
            }
            Null => run.awaited = StartHigh,
            StartHigh => {
                run.start = (b as usize) << 8;
                run.awaited = StartLow;
            }
            StartLow => {
                run.start |= b as usize;
                if run.start >= size {
                    return Some(11);
                }
                run.awaited = EndHigh;
            }
            EndHigh => {
                run.end = (b as usize) << 8;
                run.awaited = EndLow;
            }
            EndLow => {
                run.end |= b as usize;
                if run.end < run.start || run.end >= size {
                    return Some(12);
                }
                run.next = run.start;
                run.awaited = Data;
            }
            Data => {}
            Check => {
                if b == POSTAMBLE {
                    return Some(0);
                }
                if b != PREAMBLE {
                    return Some(8);
                }
                if run.control & 4 != 0 {
                    return Some(9);
                }
                if run.device + 1 >= self.count {
                    return Some(10);
                }
                if let Some(n) = barred(self.registers[run.device + 1], run.check) {
                    return Some(n);
                }
                run.device += 1;
                run.control = 0;
                run.awaited = Control;
            }
        }
        None
    }

    /// The closing bytes: a few, or in a window a byte or none, its present cells, and what follows it.
    #[inline(never)]
    pub fn closing(&self, memory: &[u8], out: &mut [u8]) -> (u8, usize) {
        if let Some(n) = self.refusal(memory.len()) {
            return (n, 0);
        }
        let Some(run) = self.run else { return (4, 0) };
        let cells = &memory[self.cells(run.device)];
        let (lead, window): (&[u8], &[u8]) = match run.awaited {
            Preamble | Second => return few(out, &[0]),
            Control if run.check => return few(out, &[8]),
            Control => return few(out, &[self.registers[run.device], 0, 0, 0, 0xff, POSTAMBLE]),
            Address(0) => return few(out, &[0, 0, 0, 0xff, POSTAMBLE]),
            Address(1) => return few(out, &[0, 0, 0xff, POSTAMBLE]),
            Address(_) => return few(out, &[0, 0xff, POSTAMBLE]),
            Count => return few(out, &[0xff, POSTAMBLE]),
            Null => return few(out, &[0, 0xff, 0xff]),
            StartHigh | EndHigh => return few(out, &[0xff, 0xff]),
            StartLow if run.start + 255 < cells.len() => return few(out, &[0xff, 0xff, 0xff]),
            EndLow if run.end >> 8 == run.start >> 8 && run.start & 255 != 0 => return few(out, &[0]),
            EndLow if run.end + 255 < cells.len() && run.start <= run.end + 255 => (&[0], &cells[run.start..=run.end]),
            StartLow | EndLow => return few(out, &[0xff]),
            Data => (&[], &cells[run.next..=run.end]),
            Check => return few(out, &[POSTAMBLE]),
        };
        let tail: &[u8] = if run.left > 1 { &[0, 0xff, 0xff] } else { &[POSTAMBLE] };
        let length = lead.len() + window.len() + tail.len();
        let Some(out) = out.get_mut(..length) else { return (15, 0) };
        let (front, rest) = out.split_at_mut(lead.len());
        let (middle, back) = rest.split_at_mut(window.len());
        front.copy_from_slice(lead);
        middle.copy_from_slice(window);
        back.copy_from_slice(tail);
        (0, length)
    }

    #[inline(never)]
    pub fn save(&self, memory: &[u8], out: &mut [u8]) -> (u8, usize) {
        if let Some(n) = self.refusal(memory.len()) {
            return (n, 0);
        }
        let Some(run) = self.run else { return (4, 0) };
        let Some(out) = out.get_mut(..SAVED_LENGTH) else { return (15, 0) };
        out[0] = 1 << 4 | run.mode << 1 | run.check as u8;
        out[1] = (run.device as u8) << 5 | run.awaited.number() << 1;
        out[2] = run.left;
        out[3] = 0;
        for (two, field) in out[4..10].chunks_exact_mut(2).zip([run.start, run.end, run.next]) {
            two.copy_from_slice(&(field as u16).to_be_bytes());
        }
        out[10..14].copy_from_slice(&run.taken.to_be_bytes());
        out[14..18].copy_from_slice(&run.mismatches.to_be_bytes());
        out[18..26].copy_from_slice(&self.registers);
        out[26] = run.control;
        (0, SAVED_LENGTH)
    }

    #[inline(never)]
    pub fn drop(&mut self, memory: &[u8]) -> u8 {
        if let Some(n) = self.refusal(memory.len()) {
            return n;
        }
        match self.run.take() {
            Some(_) => 0,
            None => 4,
        }
    }

    pub fn pick_up(&mut self, memory: &[u8], saved: &[u8]) -> u8 {
        if let Some(n) = self.refusal(memory.len()) {
            return n;
        }
        if self.run.is_some() {
            return 3;
        }
        match self.unpack(saved) {
            Some(chain) => {
                *self = chain;
                0
            }
            None => 17,
        }
    }

    fn unpack(&self, saved: &[u8]) -> Option<Chain> {
        let s: &[u8; SAVED_LENGTH] = saved.try_into().ok()?;
        let two = |i: usize| u16::from_be_bytes([s[i], s[i + 1]]) as usize;
        let four = |i: usize| u32::from_be_bytes([s[i], s[i + 1], s[i + 2], s[i + 3]]);
        if s[0] >> 4 != 1 || s[1] & 1 != 0 || s[3] != 0 {
            return None;
        }
        let run = Run {
            mode: s[0] >> 1 & 7,
            check: s[0] & 1 != 0,
            device: (s[1] >> 5) as usize,
            awaited: Awaited::of(s[1] >> 1 & 15)?,
            left: s[2],
            control: s[26],
            start: two(4),
            end: two(6),
            next: two(8),
            taken: four(10),
            mismatches: four(14),
        };
        let mut chain = Chain { run: Some(run), ..*self };
        chain.registers.copy_from_slice(&s[18..26]);
        let unused = chain.registers[chain.count..].iter().any(|b| *b != 0);
        (!unused && chain.well_formed(&run)).then_some(chain)
    }
}
