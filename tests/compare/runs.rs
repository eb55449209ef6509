//! Long runs: a stream cut into slices, the state carried over from call to call, with the other calls in between.

use crate::call::{written, Call, Part, Room};
use crate::chains::{sound, Lent};
use crate::model::chain::Chain;
use crate::model::numbers::*;
use crate::model::writer::Order;
use crate::random::Random;
use crate::streams;

/// Makes one call on both sides and gives what it left.
pub type Make<'a> = dyn FnMut(Call) -> Vec<Part> + 'a;

struct Run<'a, 'b> {
    random: &'a mut Random,
    make: &'a mut Make<'b>,
    chain: Chain,
    memory: Vec<u8>,
}

pub fn run(random: &mut Random, make: &mut Make) {
    let Lent { chain, memory } = sound(random);
    let mut run = Run { random, make, chain, memory };
    run.go();
}

impl Run<'_, '_> {
    fn go(&mut self) {
        let registers = self.chain.registers;
        let (count, kinds) = (self.chain.count, self.chain.kinds);
        let made = self.make(|_, memory| Call::New { count, kinds, memory });
        if made != DONE {
            return;
        }
        if self.random.once_in(3) {
            // Registers as an earlier run may have left them; without B4 in most, so that later devices are reached.
            let kept = if self.random.once_in(3) { 0xFF } else { !(BIT_3 | BIT_4) };
            self.chain.registers = registers.map(|register| register & kept);
        }
        for _ in 0..self.random.within(1, 3) {
            if self.random.once_in(6) {
                self.written_stream();
            } else {
                self.one_stream();
            }
            if self.random.once_in(4) {
                self.make(|chain, memory| Call::Reset { chain, memory });
            }
        }
    }

    /// What the writer writes for the first device: hunted in the serial modes, listed, and loaded.
    fn written_stream(&mut self) {
        let mode = self.random.within(1, 6) as u8;
        let (kind, size) = (self.chain.kinds[0], self.chain.size(0));
        let (mut starts, mut ends, mut length) = (Vec::new(), Vec::new(), 0);
        for _ in 0..self.random.below(4) {
            let start = self.random.below(size);
            let end = (start + self.random.below(20)).min(size - 1);
            starts.push(start as u16);
            ends.push(end as u16);
            length += end - start + 1;
        }
        let windows = starts.len();
        let (control, data) = (self.random.byte(), self.random.bytes(length));
        let order = Order { kind, mode, control, address: [1, 2, 3], starts, ends, data };
        let room = Room { length: 8 + 5 * windows + length, fill: self.random.byte() };
        let mut stream = written(&self.parts(|_, _| Call::Write { order, room }));
        if mode == 3 || mode == 4 {
            let room = Room { length: stream.len(), fill: self.random.byte() };
            stream = written(&self.parts(|_, _| Call::Hunt { stream, room }));
        }
        let lengths = [windows; 3];
        let copy = stream.clone();
        self.parts(|_, _| Call::List { kind, mode, stream: copy, lengths, fill: control });
        if self.make(|chain, memory| Call::Start { chain, memory, mode, check: 0 }) == DONE {
            self.make(|chain, memory| Call::Slice { chain, memory, stream });
        }
        if self.chain.place.running == 1 {
            self.stop();
        }
    }

    fn one_stream(&mut self) {
        let mode = self.random.within(1, 6) as u8;
        let check = self.random.below(2) as u8;
        if self.make(|chain, memory| Call::Start { chain, memory, mode, check }) != DONE {
            return;
        }
        if self.random.once_in(8) {
            // As a picked-up place may have them: "kept modulo 2^32".
            self.chain.place.taken = u32::MAX - self.random.below(40) as u32;
            self.chain.place.mismatches = if check == 1 { u32::MAX - self.random.below(3) as u32 } else { 0 };
        }
        let mut stream = streams::stream(self.random, &self.chain, &self.memory, mode);
        if self.random.once_in(3) {
            streams::damage(self.random, &mut stream);
        }
        let mut rest: &[u8] = &stream;
        while self.chain.place.running == 1 && !rest.is_empty() {
            let length =
                self.random.pick(&[0, 1, 1, 2, 5, 12, 40, 128, 255, 256, 257, 600, rest.len()]).min(rest.len());
            let (front, later) = rest.split_at(length);
            rest = later;
            if length == 1 {
                let byte = front[0];
                self.make(|chain, memory| Call::Byte { chain, memory, byte });
            } else {
                let stream = front.to_vec();
                self.make(|chain, memory| Call::Slice { chain, memory, stream });
            }
            self.between();
        }
        if self.chain.place.running == 1 {
            self.stop();
        }
    }

    /// Other calls on the run, open or just ended.
    fn between(&mut self) {
        match self.random.below(12) {
            0 => self.power_off(),
            1 => {
                let room = Room { length: 60, fill: self.random.byte() };
                self.make(|chain, memory| Call::Closing { chain, memory, room });
            }
            2 if self.random.once_in(3) => {
                let mode = self.random.within(1, 6) as u8;
                self.make(|chain, memory| Call::Start { chain, memory, mode, check: 0 });
            }
            _ => (),
        }
    }

    /// Save, drop the run, and pick up what was saved, into a chain whose registers are others by now.
    fn power_off(&mut self) {
        let room = Room { length: 27, fill: self.random.byte() };
        let saved = written(&self.parts(|chain, memory| Call::Save { chain, memory, room }));
        self.make(|chain, memory| Call::Drop { chain, memory });
        let mut chain = self.chain;
        for device in 0..chain.count as usize {
            chain.registers[device] = self.random.byte();
        }
        self.make(|_, memory| Call::PickUp { chain, memory, saved });
    }

    /// Closing bytes, written and fed: they end the run.
    fn stop(&mut self) {
        let room = Room { length: 16_381 + 3, fill: 0 };
        let room = if self.memory.len() < 1000 { Room { length: 55, ..room } } else { room };
        let stream = written(&self.parts(|chain, memory| Call::Closing { chain, memory, room }));
        self.make(|chain, memory| Call::Slice { chain, memory, stream });
    }

    fn parts(&mut self, call: impl FnOnce(Chain, Vec<u8>) -> Call) -> Vec<Part> {
        (self.make)(call(self.chain, self.memory.clone()))
    }

    /// Makes a call and keeps the state and memory that it left; gives its number.
    fn make(&mut self, call: impl FnOnce(Chain, Vec<u8>) -> Call) -> u8 {
        let parts = self.parts(call);
        for part in &parts {
            match part {
                Part::Made(made) => self.chain = made.chain,
                Part::Fed(fed) => self.chain = fed.chain,
                Part::Fetched(fetched) => self.chain = fetched.chain,
                Part::Memory(memory) => self.memory = memory.clone(),
                _ => (),
            }
        }
        parts[0].number().unwrap_or(MORE)
    }
}
