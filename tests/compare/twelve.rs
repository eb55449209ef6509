//! The paper's twelve cases, with its own values: they hold the model to the paper, and are compared like all other
//! calls.

use crate::call::{written, Call, Part, Room};
use crate::model::chain::Chain;
use crate::model::hunt::Hunted;
use crate::model::machine::Answer;
use crate::model::numbers::*;
use crate::model::writer::Order;
use crate::runs::Make;

const STREAM_A: [u8; 15] = [0xB2, 0, 0, 0, 0, 0xFE, 0, 0, 9, 0, 0x0B, 0x11, 0x22, 0x33, 0x4D];

/// One device with its memory zero, mode 1.
struct Device<'a, 'b> {
    make: &'a mut Make<'b>,
    chain: Chain,
    memory: Vec<u8>,
}

impl<'a, 'b> Device<'a, 'b> {
    fn new(make: &'a mut Make<'b>, kind: u8, size: usize) -> Device<'a, 'b> {
        let memory = vec![0; size];
        let parts = make(Call::New { count: 1, kinds: [kind, 0, 0, 0, 0, 0, 0, 0], memory: memory.clone() });
        let mut device = Device { make, chain: Chain::default(), memory };
        device.keep(&parts);
        device
    }

    fn keep(&mut self, parts: &[Part]) {
        for part in parts {
            match part {
                Part::Made(made) => self.chain = made.chain,
                Part::Fed(fed) => self.chain = fed.chain,
                Part::Memory(memory) => self.memory = memory.clone(),
                _ => (),
            }
        }
    }

    /// Starts a write and feeds it: number and bytes taken.
    fn load(&mut self, stream: &[u8]) -> (u8, u32) {
        let parts = (self.make)(Call::Start { chain: self.chain, memory: self.memory.clone(), mode: 1, check: 0 });
        self.keep(&parts);
        let parts =
            (self.make)(Call::Slice { chain: self.chain, memory: self.memory.clone(), stream: stream.to_vec() });
        self.keep(&parts);
        match &parts[0] {
            Part::Fed(fed) => {
                let Answer { number, taken, .. } = fed.answer;
                (number, taken)
            }
            _ => (MORE, 0),
        }
    }

    fn closing(&mut self) -> Vec<u8> {
        let room = Room { length: 55, fill: 0xAA };
        written(&(self.make)(Call::Closing { chain: self.chain, memory: self.memory.clone(), room }))
    }

    /// These cells from 9 on, and all others zero.
    fn holds(&self, cells: &[u8]) -> bool {
        let mut expected = vec![0; self.memory.len()];
        expected[9..9 + cells.len()].copy_from_slice(cells);
        self.memory == expected
    }
}

/// A stream for one window, up to its end's low byte.
fn window(start: u8, end: u8) -> Vec<u8> {
    vec![0xB2, 0, 0, 0, 0, 0xFE, 0, 0, start, 0, end]
}

/// Makes the cases; gives those that do not come out as the paper says.
pub fn twelve(make: &mut Make) -> Vec<String> {
    let mut wrong = Vec::new();
    let mut case = |name: &str, holds: bool| {
        if !holds {
            wrong.push(format!("the paper's case {name} does not hold"));
        }
    };

    let mut device = Device::new(make, 0, 52);
    case("1", device.load(&STREAM_A) == (0, 15) && device.holds(&[0x11, 0x22, 0x33]));

    let mut device = Device::new(make, 0, 52);
    let mut two = STREAM_A[..14].to_vec();
    two[5] = 0xFD;
    two.extend([0, 0, 0x0A, 0, 0x0A, 0x44, 0x4D]);
    case("2", device.load(&two) == (0, 21) && device.holds(&[0x11, 0x44, 0x33]));

    let mut device = Device::new(make, 0, 52);
    case("3", device.load(&[0xB2, 0, 0, 0, 0, 0xFF, 0x4D]) == (0, 7) && device.holds(&[]));
    case("4", Device::new(make, 0, 52).load(&window(9, 51)) == (16, 11));
    case("5", Device::new(make, 0, 52).load(&window(9, 52)) == (12, 11));
    case("6", Device::new(make, 0, 52).load(&window(52, 52)) == (11, 9));
    case("7", Device::new(make, 0, 52).load(&window(11, 9)) == (12, 11));

    let mut device = Device::new(make, 0, 52);
    case("8", device.load(&[0xB2, 0x10, 0, 0, 0, 0xFF, 0x4D]) == (0, 7) && device.load(&STREAM_A) == (6, 1));

    let mut device = Device::new(make, 0, 52);
    case("9", device.load(&STREAM_A[..13]) == (16, 13) && device.closing() == [0x00, 0x4D]);

    let mut device = Device::new(make, 0, 52);
    case("10", device.load(&STREAM_A[..8]) == (16, 8) && device.closing() == [0xFF]);

    let mut device = Device::new(make, 2, 2665);
    case("11", device.load(&STREAM_A[..8]) == (16, 8) && device.closing() == [0xFF, 0xFF, 0xFF]);

    let room = Room { length: 2, fill: 0xAA };
    let parts = make(Call::Hunt { stream: vec![0x64, 0x01], room });
    // "Hunt over 64 01: p = 1": 16 bits are one before the preamble, eight of it, and seven more
    let one = Part::Hunted(Hunted { number: 0, p: 1, left: 7, length: 1 });
    case("12", parts[0] == one && written(&parts) == [0xB2]);

    // "One window over a whole device takes size + 12 bytes in mode 1: 2,677 for kind 2."
    let (starts, ends, data) = (vec![0], vec![2664], vec![0x5A; 2665]);
    let order = Order { kind: 2, mode: 1, control: 0, address: [0; 3], starts, ends, data };
    let room = Room { length: 3000, fill: 0xAA };
    case("of a whole device written", written(&make(Call::Write { order, room })).len() == 2677);
    wrong
}
