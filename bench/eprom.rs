//! A fetcher in safe Rust, to be raced: byte by byte up to the first device's first null byte, then in blocks, as they stand in the EPROM;
//! in mode 2 as many as a small buffer holds are turned round first.
use crate::loader::{differ, Answer, Awaited, Chain};

pub const COUNTS: u32 = 1 << 17;
const DOWN: u8 = 2;
const TURNED: usize = 1024;

/// As at6000_fetcher has it.
#[repr(C)]
#[derive(Clone, Copy, Default, PartialEq, Debug)]
pub struct Fetcher {
    pub counter: u32,
    pub control: u8,
    pub address: [u8; 3],
    pub nulled: u8,
}

fn home(mode: u8) -> u32 {
    if mode == DOWN {
        COUNTS - 1
    } else {
        0
    }
}

impl Fetcher {
    pub fn new(mode: u8) -> Fetcher {
        Fetcher { counter: home(mode), ..Fetcher::default() }
    }

    fn step(&mut self, mode: u8, n: usize) {
        let n = n as u32;
        self.counter = if mode == DOWN { self.counter.wrapping_sub(n) } else { self.counter + n } % COUNTS;
    }

    /// One byte of the first device's section, its first null byte at the latest; true where the jump is too far.
    fn keep(&mut self, mode: u8, awaited: Awaited, b: u8) -> bool {
        self.step(mode, 1);
        match awaited {
            Awaited::Preamble => *self = Fetcher { counter: self.counter, ..Fetcher::default() },
            Awaited::Control => self.control = b,
            Awaited::Address(i) => self.address[i as usize] = b,
            Awaited::Null => {
                self.nulled = 1;
                if self.control & 2 != 0 {
                    let [low, middle, high] = self.address;
                    let to = u32::from_le_bytes([low, middle, high, 0]);
                    if to >= COUNTS {
                        return true;
                    }
                    self.counter = to;
                }
            }
            _ => {}
        }
        false
    }
}

#[inline(never)]
pub fn fetch(c: &mut Chain, f: &mut Fetcher, memory: &mut [u8], eprom: &[u8], n: usize) -> Answer {
    let refused = |number| Answer { number, taken: 0, mismatches: 0 };
    if let Some(number) = c.refusal(memory.len()) {
        return refused(number);
    }
    if f.counter >= COUNTS {
        return refused(17);
    }
    let Some(run) = c.run else { return refused(4) };
    let mode = run.mode;
    let mut answer = Answer { number: 16, taken: run.taken, mismatches: run.mismatches };
    if ![1, DOWN, 5].contains(&mode) {
        return Answer { number: 2, ..answer };
    }
    let mut left = n;
    while let (Some(run), 1..) = (c.run, left) {
        let at = f.counter as usize;
        let Some(&b) = eprom.get(at) else {
            answer.number = 18;
            return answer;
        };
        let kept = run.device == 0 && run.awaited.number() <= Awaited::Null.number() && (f.nulled == 0 || run.awaited == Awaited::Preamble);
        let before = answer.taken;
        if kept {
            if f.keep(mode, run.awaited, b) {
                c.run = None;
                answer = Answer { number: 19, taken: before.wrapping_add(1), ..answer };
                break;
            }
            answer = c.taken(run, memory, &[b], differ);
            left -= 1;
        } else if mode == DOWN {
            let n = left.min(at + 1).min(TURNED);
            let mut turned = [0; TURNED];
            for (to, from) in turned.iter_mut().zip(eprom[at + 1 - n..=at].iter().rev()) {
                *to = *from;
            }
            answer = c.taken(run, memory, &turned[..n], differ);
            f.step(mode, answer.taken.wrapping_sub(before) as usize);
            left -= n;
        } else {
            let end = eprom.len().min(COUNTS as usize).min(at.saturating_add(left));
            answer = c.taken(run, memory, &eprom[at..end], differ);
            f.step(mode, answer.taken.wrapping_sub(before) as usize);
            left -= end - at;
        }
    }
    if c.run.is_none() {
        let counter = if f.control & 1 != 0 { f.counter } else { home(mode) };
        *f = Fetcher { counter, ..Fetcher::default() };
    }
    answer
}
