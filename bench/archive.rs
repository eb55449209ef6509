//! The archive, through by_pointer.c.
use crate::eprom::Fetcher;
use crate::files::Hunted;
use crate::loader::Answer;
use crate::salvage::Salvaged;
use crate::sheet::Sheet;

#[repr(C)]
#[derive(Clone, Copy)]
struct Place {
    bytes: [u8; 7],
    words: [u16; 3],
    counts: [u32; 2],
}

#[repr(C)]
#[derive(Clone, Copy)]
pub struct Chain {
    count: u8,
    kinds: [u8; 8],
    registers: [u8; 8],
    place: Place,
}

#[repr(C)]
#[derive(Clone, Copy)]
struct Answered {
    number: u8,
    taken: u32,
    mismatches: u32,
}

extern "C" {
    fn raced_start(c: *mut Chain, mem: *const u8, n: usize, mode: u8, check: u8) -> u8;
    fn raced_slice(c: *mut Chain, mem: *mut u8, n: usize, s: *const u8, s_n: usize, a: *mut Answered);
    fn raced_byte(c: *mut Chain, mem: *mut u8, n: usize, b: u8, a: *mut Answered);
    fn raced_fetch(
        c: *mut Chain, f: *mut Fetcher, mem: *mut u8, n: usize, eprom: *const u8, eprom_n: usize, wanted: usize, a: *mut Answered,
    );
    fn raced_drop(c: *mut Chain, mem: *const u8, n: usize) -> u8;
    fn raced_pick_up(c: *mut Chain, mem: *const u8, n: usize, saved: *const u8, saved_n: usize) -> u8;
    fn raced_closing(c: *const Chain, mem: *const u8, n: usize, out: *mut u8, out_n: usize) -> usize;
    fn raced_save(c: *const Chain, mem: *const u8, n: usize, out: *mut u8, out_n: usize) -> usize;
    fn raced_hunt(s: *const u8, s_n: usize, out: *mut u8, out_n: usize, h: &mut Hunted);
    fn raced_write(
        kind: u8, mode: u8, control: u8, address: *const u8, starts: *const u16, starts_n: usize, ends: *const u16, ends_n: usize,
        data: *const u8, data_n: usize, out: *mut u8, out_n: usize,
    ) -> usize;
    fn raced_tidy(kind: u8, s: *const u8, s_n: usize, out: *mut u8, out_n: usize) -> usize;
    fn raced_salvage(kind: u8, s: *const u8, s_n: usize, out: *mut u8, out_n: usize, r: &mut Salvaged);
    fn raced_load_sheet(
        kind: u8, mode: u8, s: *const u8, s_n: usize, lengths: *const u32, lengths_n: usize, numbers: *mut u8, numbers_n: usize,
        figures: *mut u32, figures_n: usize, r: &mut Sheet,
    );
    fn raced_list(
        kind: u8, mode: u8, s: *const u8, s_n: usize, starts: *mut u16, starts_n: usize, ends: *mut u16, ends_n: usize,
        offsets: *mut u32, offsets_n: usize,
    ) -> u32;
}

// Each call lends whole slices that do not overlap, which is all that the archive asks.
impl Chain {
    pub fn new(kinds: &[u8]) -> Chain {
        let mut all = [0; 8];
        all[..kinds.len()].copy_from_slice(kinds);
        let place = Place { bytes: [0; 7], words: [0; 3], counts: [0; 2] };
        Chain { count: kinds.len() as u8, kinds: all, registers: [0; 8], place }
    }

    pub fn start(&mut self, memory: &[u8], mode: u8, check: bool) -> u8 {
        unsafe { raced_start(self, memory.as_ptr(), memory.len(), mode, check as u8) }
    }

    pub fn slice(&mut self, memory: &mut [u8], s: &[u8]) -> Answer {
        let mut a = Answered { number: 0, taken: 0, mismatches: 0 };
        unsafe { raced_slice(self, memory.as_mut_ptr(), memory.len(), s.as_ptr(), s.len(), &mut a) };
        Answer { number: a.number, taken: a.taken, mismatches: a.mismatches }
    }

    pub fn byte(&mut self, memory: &mut [u8], b: u8) -> Answer {
        let mut a = Answered { number: 0, taken: 0, mismatches: 0 };
        unsafe { raced_byte(self, memory.as_mut_ptr(), memory.len(), b, &mut a) };
        Answer { number: a.number, taken: a.taken, mismatches: a.mismatches }
    }

    pub fn fetch(&mut self, f: &mut Fetcher, memory: &mut [u8], eprom: &[u8], n: usize) -> Answer {
        let mut a = Answered { number: 0, taken: 0, mismatches: 0 };
        unsafe { raced_fetch(self, f, memory.as_mut_ptr(), memory.len(), eprom.as_ptr(), eprom.len(), n, &mut a) };
        Answer { number: a.number, taken: a.taken, mismatches: a.mismatches }
    }

    pub fn drop(&mut self, memory: &[u8]) -> u8 {
        unsafe { raced_drop(self, memory.as_ptr(), memory.len()) }
    }

    pub fn pick_up(&mut self, memory: &[u8], saved: &[u8]) -> u8 {
        unsafe { raced_pick_up(self, memory.as_ptr(), memory.len(), saved.as_ptr(), saved.len()) }
    }

    pub fn closing(&self, memory: &[u8], out: &mut [u8]) -> usize {
        unsafe { raced_closing(self, memory.as_ptr(), memory.len(), out.as_mut_ptr(), out.len()) }
    }

    pub fn save(&self, memory: &[u8], out: &mut [u8]) -> usize {
        unsafe { raced_save(self, memory.as_ptr(), memory.len(), out.as_mut_ptr(), out.len()) }
    }
}

pub fn hunt(s: &[u8], out: &mut [u8]) -> Hunted {
    let mut h = Hunted::default();
    unsafe { raced_hunt(s.as_ptr(), s.len(), out.as_mut_ptr(), out.len(), &mut h) };
    h
}

pub fn write(kind: u8, mode: u8, starts: &[u16], ends: &[u16], data: &[u8], out: &mut [u8]) -> usize {
    let (s, e) = (starts, ends);
    let address = [0u8; 3];
    unsafe {
        raced_write(
            kind, mode, 0, address.as_ptr(), s.as_ptr(), s.len(), e.as_ptr(), e.len(), data.as_ptr(), data.len(), out.as_mut_ptr(),
            out.len(),
        )
    }
}

pub fn tidy(kind: u8, s: &[u8], out: &mut [u8]) -> usize {
    unsafe { raced_tidy(kind, s.as_ptr(), s.len(), out.as_mut_ptr(), out.len()) }
}

pub fn salvage(kind: u8, s: &[u8], out: &mut [u8]) -> Salvaged {
    let mut r = Salvaged::default();
    unsafe { raced_salvage(kind, s.as_ptr(), s.len(), out.as_mut_ptr(), out.len(), &mut r) };
    r
}

pub fn load_sheet(kind: u8, mode: u8, s: &[u8], lengths: &[u32], numbers: &mut [u8], figures: &mut [u32]) -> Sheet {
    let mut r = Sheet::default();
    unsafe {
        raced_load_sheet(
            kind, mode, s.as_ptr(), s.len(), lengths.as_ptr(), lengths.len(), numbers.as_mut_ptr(), numbers.len(), figures.as_mut_ptr(),
            figures.len(), &mut r,
        )
    };
    r
}

pub fn list(kind: u8, mode: u8, s: &[u8], starts: &mut [u16], ends: &mut [u16], offsets: &mut [u32]) -> u32 {
    unsafe {
        raced_list(
            kind, mode, s.as_ptr(), s.len(), starts.as_mut_ptr(), starts.len(), ends.as_mut_ptr(), ends.len(), offsets.as_mut_ptr(),
            offsets.len(),
        )
    }
}
