//! The tidier in safe Rust, to be raced: windows are painted in order on arrays as large as the largest device, which are then scanned
//! once. The arrays are kept from call to call, so that no call pays for making them.
use crate::loader::{size_of, POSTAMBLE, PREAMBLE};

const BIG: usize = 16381;
const HEAD: usize = 6;

pub struct Tidier {
    covered: Box<[bool; BIG]>,
    values: Box<[u8; BIG]>,
}

impl Tidier {
    pub fn new() -> Tidier {
        Tidier { covered: Box::new([false; BIG]), values: Box::new([0; BIG]) }
    }

    /// A stream in mode 1 for one device: its number, and how long it is tidied.
    #[inline(never)]
    pub fn tidy(&mut self, kind: u8, s: &[u8], out: &mut [u8]) -> (u8, usize) {
        let Some(size) = size_of(kind) else { return (1, 0) };
        if s.first().is_some_and(|b| *b != PREAMBLE) {
            return (5, 0);
        }
        let Some((head, rest)) = s.split_at_checked(HEAD) else { return (16, 0) };
        let number = self.paint(size, head, rest);
        if number != 0 {
            return (number, 0);
        }
        let mut spans = [(0, 0); 255];
        let (count, cells) = self.spans(size, &mut spans);
        let length = HEAD + 5 * count + cells + 1;
        let Some(out) = out.get_mut(..length) else { return (15, 0) };
        out[..HEAD - 1].copy_from_slice(&head[..HEAD - 1]);
        out[HEAD - 1] = !(count as u8);
        let mut out = &mut out[HEAD..];
        for &(start, end) in &spans[..count] {
            let ([a, b], [c, d]) = ((start as u16).to_be_bytes(), (end as u16).to_be_bytes());
            let (window, after) = out.split_at_mut(5 + end - start + 1);
            window[..5].copy_from_slice(&[0, a, b, c, d]);
            window[5..].copy_from_slice(&self.values[start..=end]);
            out = after;
        }
        out[0] = POSTAMBLE;
        (0, length)
    }

    /// The windows over the arrays, later ones over earlier; the stream's number. What a refused stream has painted is cleared next time.
    fn paint(&mut self, size: usize, head: &[u8], mut rest: &[u8]) -> u8 {
        self.covered[..size].fill(false);
        for _ in 0..!head[HEAD - 1] {
            let Some(&[_, a, b]) = rest.first_chunk() else { return 16 };
            let start = u16::from_be_bytes([a, b]) as usize;
            if start >= size {
                return 11;
            }
            let Some(&[_, _, _, c, d]) = rest.first_chunk() else { return 16 };
            let end = u16::from_be_bytes([c, d]) as usize;
            if end < start || end >= size {
                return 12;
            }
            let next = 5 + end - start + 1;
            let Some(data) = rest.get(5..next) else { return 16 };
            self.covered[start..=end].fill(true);
            self.values[start..=end].copy_from_slice(data);
            rest = &rest[next..];
        }
        match rest.first() {
            Some(&POSTAMBLE) => 0,
            Some(&PREAMBLE) if head[1] & 4 != 0 => 9,
            Some(&PREAMBLE) => 10,
            Some(_) => 8,
            None => 16,
        }
    }

    /// The first and the last of the cells that stand together; how many of these there are, and how many cells in all.
    fn spans(&self, size: usize, spans: &mut [(usize, usize); 255]) -> (usize, usize) {
        let covered = &self.covered[..size];
        let (mut count, mut cells, mut at) = (0, 0, 0);
        while let Some(skipped) = covered[at..].iter().position(|c| *c) {
            let start = at + skipped;
            at = covered[start..].iter().position(|c| !*c).map_or(size, |n| start + n);
            spans[count] = (start, at - 1);
            count += 1;
            cells += at - start;
        }
        (count, cells)
    }
}
