//! The archive raced against safe Rust and against memcpy. A row is one job; its runners do the same work and are held to the same
//! result before they are timed. Printed: nanoseconds, and ratios to the first runner of the row.
mod archive;
mod eprom;
mod files;
mod loader;
mod race;
mod salvage;
mod sheet;
mod tidy;
use loader::{Answer, POSTAMBLE, PREAMBLE};
use race::{race, runner, Runner};
use std::hint::black_box;
use std::time::Instant;

const BIG: usize = 16381;

/// Bytes that no compiler foresees.
fn noise(n: usize, mut x: u64) -> Vec<u8> {
    let mut next = || {
        x ^= x << 13;
        x ^= x >> 7;
        x ^= x << 17;
        x as u8
    };
    (0..n).map(|_| next()).collect()
}

/// The windows of one device of kind 10: how many, how long, from where to where.
fn windows(count: usize, length: usize) -> (Vec<u16>, Vec<u16>) {
    let starts: Vec<u16> = (0..count).map(|i| (i * 64) as u16).collect();
    let ends = starts.iter().map(|s| s + length as u16 - 1).collect();
    (starts, ends)
}

fn section(out: &mut Vec<u8>, starts: &[u16], ends: &[u16], data: &[u8]) {
    out.extend([PREAMBLE, 0, 0, 0, 0, !(starts.len() as u8)]);
    let mut rest = data;
    for (s, e) in starts.iter().zip(ends) {
        let (window, after) = rest.split_at((e - s) as usize + 1);
        out.push(0);
        out.extend(s.to_be_bytes());
        out.extend(e.to_be_bytes());
        out.extend(window);
        rest = after;
    }
}

/// Streams for a load sheet in one slice, and their lengths.
fn month(streams: usize, count: usize, length: usize, step: usize, mode: u8) -> (Vec<u8>, Vec<u32>) {
    let starts: Vec<u16> = (0..count).map(|i| (i * step) as u16).collect();
    let ends: Vec<u16> = starts.iter().map(|s| s + length as u16 - 1).collect();
    let (mut slice, mut lengths) = (Vec::new(), Vec::new());
    for i in 0..streams {
        let mut stream = Vec::new();
        section(&mut stream, &starts, &ends, &noise(count * length, 7 + i as u64));
        stream.push(POSTAMBLE);
        if mode == 3 {
            // from bit 1 on
            stream.push(0);
            let mut carry = 0;
            for b in &mut stream {
                (*b, carry) = (*b << 1 | carry, *b >> 7);
            }
        }
        lengths.push(stream.len() as u32);
        slice.extend(stream);
    }
    (slice, lengths)
}

struct Bench {
    rounds: usize,
}

impl Bench {
    fn row(&self, job: &str, mut runners: Vec<Runner>) {
        let raced = race(self.rounds, &mut runners);
        print!("{job:<34}");
        for (r, t) in runners.iter().zip(&raced) {
            print!(" | {} {:.0} ns", r.name, t.nanoseconds);
            if r.name != runners[0].name {
                print!(", {:.2}", 1.0 / t.ratio);
            }
        }
        println!();
    }

    /// A stream into a fresh chain of devices of kind 10, in one slice: start and slice.
    fn load(&self, job: &str, devices: usize, count: usize, length: usize, check: bool) {
        let kinds = vec![10; devices];
        let data = noise(count * length, 7);
        let (starts, ends) = windows(count, length);
        let mut stream = Vec::new();
        for _ in 0..devices {
            section(&mut stream, &starts, &ends, &data);
        }
        stream.push(POSTAMBLE);
        let s = &stream[..];
        // a check meets what the write left, one cell in 64 changed
        let mut memory = vec![0; devices * BIG];
        let mut c = loader::Chain::new(&kinds);
        c.start(&memory, 1, false);
        assert_eq!(c.slice(&mut memory, s).number, 0);
        let written = memory.clone();
        if check {
            memory.iter_mut().step_by(64).for_each(|b| *b ^= 1);
        }
        let wanted = {
            let (mut c, mut m) = (loader::Chain::new(&kinds), memory.clone());
            c.start(&m, 1, check);
            c.slice(&mut m, s)
        };
        let (mut m1, mut m2, mut m3) = (memory.clone(), memory.clone(), memory.clone());
        let held = |a: Answer| assert_eq!(a, wanted);
        let (c1, c2) = (archive::Chain::new(&kinds), loader::Chain::new(&kinds));
        {
            let mut c = c1;
            c.start(&m1, 1, check);
            held(c.slice(&mut m1, s));
            assert!(m1 == if check { memory.clone() } else { written });
        }
        let mut runners = vec![
            runner("archive", || {
                let mut c = black_box(c1);
                c.start(&m1, 1, check);
                held(c.slice(black_box(&mut m1), black_box(s)));
            }),
            runner("Rust", || {
                let mut c = black_box(c2);
                c.start(&m2, 1, check);
                held(c.slice(black_box(&mut m2), black_box(s)));
            }),
        ];
        if check {
            runners.push(runner("Rust tuned", || {
                let mut c = black_box(c2);
                c.start(&m3, 1, check);
                held(c.slice_tuned(black_box(&mut m3), black_box(s)));
            }));
        }
        let (from, mut to) = (noise(devices * data.len(), 3), vec![0; devices * data.len()]);
        runners.push(runner("memcpy", move || black_box(&mut to[..]).copy_from_slice(black_box(&from))));
        self.row(&format!("{job}, {}", if check { "check" } else { "write" }), runners);
    }

    /// One run of 255 windows of 8, a call for each byte; the figures are for the whole stream.
    fn bytes(&self) {
        let data = noise(255 * 8, 7);
        let (starts, ends) = windows(255, 8);
        let mut stream = Vec::new();
        section(&mut stream, &starts, &ends, &data);
        stream.push(POSTAMBLE);
        let s = &stream[..];
        let (mut m1, mut m2, mut m3) = (vec![0; BIG], vec![0; BIG], vec![0; BIG]);
        let (c1, c2) = (archive::Chain::new(&[10]), loader::Chain::new(&[10]));
        self.row(
            &format!("byte calls, {} in a run", s.len()),
            vec![
                runner("archive", || {
                    let mut c = black_box(c1);
                    c.start(&m1, 1, false);
                    let last = s.iter().fold(16, |_, b| c.byte(black_box(&mut m1), *b).number);
                    assert_eq!(last, 0);
                }),
                runner("Rust", || {
                    let mut c = black_box(c2);
                    c.start(&m2, 1, false);
                    let last = s.iter().fold(16, |_, b| c.byte(black_box(&mut m2), *b).number);
                    assert_eq!(last, 0);
                }),
                runner("archive, in place", || {
                    let mut c = black_box(c1);
                    c.start(&m3, 1, false);
                    let last = s.chunks(1).fold(16, |_, b| c.slice(black_box(&mut m3), b).number);
                    assert_eq!(last, 0);
                }),
            ],
        );
    }

    /// 64 KiB whose preamble stands at a bit position.
    fn hunt(&self, p: usize) {
        let mut s = noise(65536, 5);
        s[..9].fill(0);
        let bits = (PREAMBLE as u16) << (p % 8);
        s[p / 8] |= bits as u8;
        s[p / 8 + 1] |= (bits >> 8) as u8;
        let (mut o1, mut o2, mut o3) = (vec![0; s.len()], vec![0; s.len()], vec![0; s.len()]);
        let found = archive::hunt(&s, &mut o1);
        assert_eq!(found, files::hunt(&s, &mut o2));
        assert!(found.p as usize == p && found.length > 65000 && o1 == o2 && o1[0] == PREAMBLE);
        self.row(
            &format!("hunt of 64 KiB, offset {p}"),
            vec![
                runner("archive", || assert_eq!(archive::hunt(black_box(&s), black_box(&mut o1)), found)),
                runner("Rust", || assert_eq!(files::hunt(black_box(&s), black_box(&mut o2)), found)),
                runner("memcpy", || black_box(&mut o3[..]).copy_from_slice(black_box(&s))),
            ],
        );
    }

    fn write(&self, count: usize, length: usize) {
        let data = noise(count * length, 7);
        let (starts, ends) = windows(count, length);
        let (s, e, d) = (&starts[..], &ends[..], &data[..]);
        let mut o1 = vec![0; data.len() + 5 * count + 7];
        let (mut o2, n) = (o1.clone(), o1.len());
        let (mut from, mut to) = (o1.clone(), o1.clone());
        from.fill(1);
        assert_eq!(archive::write(10, 1, s, e, d, &mut o1), n);
        assert_eq!(files::write(10, 1, 0, [0; 3], s, e, d, &mut o2), (0, n));
        assert!(o1 == o2);
        self.row(
            &format!("writer, {count} of {length}"),
            vec![
                runner("archive", || assert_eq!(archive::write(10, 1, black_box(s), e, black_box(d), black_box(&mut o1)), n)),
                runner("Rust", || {
                    assert_eq!(files::write(10, 1, 0, [0; 3], black_box(s), e, black_box(d), black_box(&mut o2)), (0, n))
                }),
                runner("memcpy", || black_box(&mut to[..]).copy_from_slice(black_box(&from))),
            ],
        );
    }

    fn list(&self, count: usize, length: usize) {
        let data = noise(count * length, 7);
        let (starts, ends) = windows(count, length);
        let mut stream = Vec::new();
        section(&mut stream, &starts, &ends, &data);
        stream.push(POSTAMBLE);
        let (s, n) = (&stream[..], stream.len() as u32);
        let (mut a, mut b) = ((vec![0; 255], vec![0; 255], vec![0; 255]), (vec![0; 255], vec![0; 255], vec![0; 255]));
        assert_eq!(archive::list(10, 1, s, &mut a.0, &mut a.1, &mut a.2), n);
        let listed = files::list(10, 1, s, &mut b.0, &mut b.1, &mut b.2);
        assert_eq!((listed.number, listed.windows as usize, listed.taken), (0, count, n));
        assert!(a == b && a.0[..count] == starts[..]);
        self.row(
            &format!("lister, {count} of {length}"),
            vec![
                runner("archive", || assert_eq!(archive::list(10, 1, black_box(s), &mut a.0, &mut a.1, &mut a.2), n)),
                runner("Rust", || assert_eq!(files::list(10, 1, black_box(s), &mut b.0, &mut b.1, &mut b.2).taken, n)),
            ],
        );
    }

    /// A stream for kind 10 with windows of one length from these cells on, tidied.
    fn tidy(&self, job: &str, starts: &[u16], length: usize) {
        let ends: Vec<u16> = starts.iter().map(|s| s + length as u16 - 1).collect();
        let mut stream = Vec::new();
        section(&mut stream, starts, &ends, &noise(starts.len() * length, 7));
        stream.push(POSTAMBLE);
        let s = &stream[..];
        let mut tidier = tidy::Tidier::new();
        let (mut o1, mut o2) = (vec![0; s.len()], vec![0; s.len()]);
        let n = archive::tidy(10, s, &mut o1);
        assert_eq!(tidier.tidy(10, s, &mut o2), (0, n));
        assert!(o1 == o2 && n > length);
        let (from, mut to) = (o1[..n].to_vec(), vec![0; n]);
        self.row(
            job,
            vec![
                runner("archive", || assert_eq!(archive::tidy(10, black_box(s), black_box(&mut o1)), n)),
                runner("Rust", || assert_eq!(tidier.tidy(10, black_box(s), black_box(&mut o2)), (0, n))),
                runner("memcpy", || black_box(&mut to[..]).copy_from_slice(black_box(&from))),
            ],
        );
    }

    /// Windows of 40, each half over the last, apart, both also descending, and anywhere; then one over the whole device.
    fn tidies(&self) {
        let over: Vec<u16> = (0..255).map(|i| i * 20).collect();
        let apart = windows(255, 40).0;
        let anywhere: Vec<u16> = noise(510, 11).chunks(2).map(|two| u16::from_le_bytes([two[0], two[1]]) % (BIG as u16 - 39)).collect();
        let down = |starts: &[u16]| starts.iter().rev().copied().collect::<Vec<u16>>();
        self.tidy("tidy, 255 of 40 half over", &over, 40);
        self.tidy("tidy, 255 half over, descending", &down(&over), 40);
        self.tidy("tidy, 255 of 40 anywhere", &anywhere, 40);
        self.tidy("tidy, 255 of 40 apart", &apart, 40);
        self.tidy("tidy, 255 apart, descending", &down(&apart), 40);
        self.tidy("tidy, one window of 16,381", &[0], BIG);
    }

    /// A stream for kind 10 with windows from these cells on and of these lengths. It breaks off in the last: so many bytes of its data
    /// are there.
    fn salvage(&self, job: &str, starts: &[u16], lengths: &[usize], there: usize) {
        let ends: Vec<u16> = starts.iter().zip(lengths).map(|(s, n)| s + *n as u16 - 1).collect();
        let last = lengths[lengths.len() - 1];
        let mut stream = Vec::new();
        section(&mut stream, starts, &ends, &noise(lengths.iter().sum(), 7));
        stream.truncate(stream.len() + there - last);
        let s = &stream[..];
        let (mut o1, mut o2) = (vec![0; s.len() + 1], vec![0; s.len() + 1]);
        let told = archive::salvage(10, s, &mut o1);
        assert_eq!(salvage::salvage(10, s, &mut o2), told);
        assert!(o1 == o2 && (told.number, told.kept as usize, told.end) == (0, starts.len() - 1, 16));
        let (from, mut to) = (o1[..told.length].to_vec(), vec![0; told.length]);
        self.row(
            job,
            vec![
                runner("archive", || assert_eq!(archive::salvage(10, black_box(s), black_box(&mut o1)), told)),
                runner("Rust", || assert_eq!(salvage::salvage(10, black_box(s), black_box(&mut o2)), told)),
                runner("memcpy", || black_box(&mut to[..]).copy_from_slice(black_box(&from))),
            ],
        );
    }

    /// A stream into a fresh chain of devices of kind 10, fetched at once from the mode's first counter: start and fetch. Beside it the
    /// slice call, which is lent the same bytes in a row.
    fn fetch(&self, job: &str, devices: usize, count: usize, length: usize, mode: u8) {
        let kinds = vec![10; devices];
        let (starts, ends) = windows(count, length);
        let mut stream = Vec::new();
        for device in 0..devices {
            section(&mut stream, &starts, &ends, &noise(count * length, 7 + device as u64));
        }
        stream.push(POSTAMBLE);
        let (s, n) = (&stream[..], stream.len());
        let f = eprom::Fetcher::new(mode);
        let mut bytes = noise(eprom::COUNTS as usize, 5);
        for (i, b) in s.iter().enumerate() {
            bytes[if mode == 2 { f.counter as usize - i } else { i }] = *b;
        }
        let e = &bytes[..];
        let (c1, c2) = (archive::Chain::new(&kinds), loader::Chain::new(&kinds));
        let (mut m1, mut m2, mut m3) = (vec![0; devices * BIG], vec![0; devices * BIG], vec![0; devices * BIG]);
        let wanted = Answer { number: 0, taken: n as u32, mismatches: 0 };
        let by_archive = |m: &mut [u8]| {
            let (mut c, mut f) = (black_box(c1), black_box(f));
            c.start(m, mode, false);
            assert_eq!(c.fetch(&mut f, black_box(m), black_box(e), n), wanted);
            f
        };
        let by_rust = |m: &mut [u8]| {
            let (mut c, mut f) = (black_box(c2), black_box(f));
            c.start(m, mode, false);
            assert_eq!(eprom::fetch(&mut c, &mut f, black_box(m), black_box(e), n), wanted);
            f
        };
        let by_slice = |m: &mut [u8]| {
            let mut c = black_box(c1);
            c.start(m, mode, false);
            assert_eq!(c.slice(black_box(m), black_box(s)), wanted);
        };
        assert!(by_archive(&mut m1) == f && by_rust(&mut m2) == f);
        by_slice(&mut m3);
        assert!(m1 == m2 && m2 == m3 && m1 != vec![0; devices * BIG]);
        let (from, mut to) = (noise(devices * count * length, 3), vec![0; devices * count * length]);
        self.row(
            &format!("fetch, {job}, mode {mode}"),
            vec![
                runner("archive", || assert_eq!(by_archive(&mut m1).counter, f.counter)),
                runner("Rust", || assert_eq!(by_rust(&mut m2).counter, f.counter)),
                runner("slice", || by_slice(&mut m3)),
                runner("memcpy", || black_box(&mut to[..]).copy_from_slice(black_box(&from))),
            ],
        );
    }

    /// A load sheet of these streams, each with windows of that length from `step` cells on after the one before it, in mode 1 or, in mode 3,
    /// from bit 1 on. Beside it the loader's own calls for each stream: start and slice, in mode 3 the hunt before them.
    fn sheet(&self, job: &str, streams: usize, count: usize, length: usize, step: usize, mode: u8) {
        let (slice, lengths) = month(streams, count, length, step, mode);
        let (s, n) = (&slice[..], &lengths[..]);
        let tables = || (vec![0; streams], vec![0; sheet::FIGURES * streams]);
        let ((mut n1, mut f1), (mut n2, mut f2)) = (tables(), tables());
        let wanted = archive::load_sheet(10, mode, s, n, &mut n1, &mut f1);
        assert_eq!(wanted, sheet::load_sheet(10, mode, s, n, &mut n2, &mut f2));
        assert!(wanted.number == 0 && wanted.data as usize == streams * count * length && n1 == n2 && f1 == f2);
        let c1 = archive::Chain::new(&[10]);
        let (mut memory, mut hunted) = (vec![0; BIG], vec![0; slice.len()]);
        let mut by_calls = || {
            let (mut c, mut rest, mut taken) = (black_box(c1), black_box(s), 0);
            for n in n {
                let (stream, after) = rest.split_at(*n as usize);
                rest = after;
                c.start(&memory, mode, false);
                let bytes = if mode == 3 {
                    let h = archive::hunt(stream, &mut hunted);
                    &hunted[..h.length]
                } else {
                    stream
                };
                taken += c.slice(black_box(&mut memory), bytes).taken;
            }
            assert_eq!(taken, wanted.taken);
        };
        by_calls();
        self.row(
            &format!("sheet, {job}, mode {mode}"),
            vec![
                runner("archive", || assert_eq!(archive::load_sheet(10, mode, black_box(s), n, &mut n1, &mut f1), wanted)),
                runner("Rust", || assert_eq!(sheet::load_sheet(10, mode, black_box(s), n, &mut n2, &mut f2), wanted)),
                runner(if mode == 3 { "hunt and load" } else { "slice" }, by_calls),
            ],
        );
    }

    /// The longest sheet that there is, once.
    fn longest(&self, mode: u8) {
        let (mut slice, mut lengths) = month(sheet::MOST_BYTES / (BIG + 12 + (mode == 3) as usize), 1, BIG, 0, mode);
        lengths.push((sheet::MOST_BYTES - slice.len()) as u32);
        slice.resize(sheet::MOST_BYTES, 0);
        let (mut numbers, mut figures) = (vec![0; lengths.len()], vec![0; sheet::FIGURES * lengths.len()]);
        let from = Instant::now();
        let r = archive::load_sheet(10, mode, black_box(&slice), &lengths, &mut numbers, &mut figures);
        let seconds = from.elapsed().as_secs_f64();
        assert!(r.number == 0 && r.data as usize == (lengths.len() - 1) * BIG);
        println!("a sheet of 67,108,864 bytes, {} streams, mode {mode}: {seconds:.3} s", lengths.len());
    }

    /// The shortest ways out: of a window of cells 9 to 11 at its end's low byte, and of a check at its control byte. One byte each.
    fn closing(&self, job: &str, check: bool, after: usize, wanted: u8) {
        let memory = noise(BIG, 9);
        let m = &memory[..];
        let mut stream = Vec::new();
        section(&mut stream, &[9], &[11], &m[..3]);
        let (mut c1, mut c2) = (archive::Chain::new(&[10]), loader::Chain::new(&[10]));
        let mut kept = memory.clone();
        c1.start(m, 1, check);
        c2.start(m, 1, check);
        assert_eq!(c1.slice(&mut kept, &stream[..after]), c2.slice(&mut kept, &stream[..after]));
        let (mut o1, mut o2) = ([0; 9], [0; 9]);
        assert_eq!((c1.closing(m, &mut o1), c2.closing(m, &mut o2)), (1, (0, 1)));
        assert!(o1 == o2 && o1[0] == wanted);
        self.row(
            job,
            vec![
                runner("archive", || assert_eq!(black_box(c1).closing(m, black_box(&mut o1)), 1)),
                runner("Rust", || assert_eq!(black_box(c2).closing(m, black_box(&mut o2)), (0, 1))),
            ],
        );
    }

    /// A run that awaits the first data byte of a whole device: its closing bytes, and the place saved, dropped and picked up.
    fn stopped(&self) {
        let memory = noise(BIG, 9);
        let m = &memory[..];
        let mut head = Vec::new();
        section(&mut head, &[0], &[16380], m);
        head.truncate(11);
        let (mut c1, mut c2) = (archive::Chain::new(&[10]), loader::Chain::new(&[10]));
        let mut kept = memory.clone();
        c1.start(m, 1, false);
        c2.start(m, 1, false);
        assert_eq!(c1.slice(&mut kept, &head), c2.slice(&mut kept, &head));
        let (mut o1, mut o2, mut o3) = (vec![0; BIG + 3], vec![0; BIG + 3], vec![0; BIG]);
        let n = c1.closing(m, &mut o1);
        assert_eq!((0, n), c2.closing(m, &mut o2));
        assert!(o1 == o2 && n == BIG + 1);
        self.row(
            "closing of a whole device",
            vec![
                runner("archive", || assert_eq!(black_box(c1).closing(m, black_box(&mut o1)), n)),
                runner("Rust", || assert_eq!(black_box(c2).closing(m, black_box(&mut o2)), (0, n))),
                runner("memcpy", || black_box(&mut o3[..]).copy_from_slice(black_box(m))),
            ],
        );
        let (mut s1, mut s2) = ([0; 27], [0; 27]);
        assert_eq!((c1.save(m, &mut s1), (0, 27)), (27, c2.save(m, &mut s2)));
        assert_eq!(s1, s2);
        self.row(
            "save",
            vec![
                runner("archive", || assert_eq!(black_box(c1).save(m, black_box(&mut s1)), 27)),
                runner("Rust", || assert_eq!(black_box(c2).save(m, black_box(&mut s2)), (0, 27))),
            ],
        );
        self.row(
            "drop",
            vec![
                runner("archive", || assert_eq!(black_box(c1).drop(m), 0)),
                runner("Rust", || assert_eq!(black_box(c2).drop(m), 0)),
            ],
        );
        let (f1, f2) = (archive::Chain::new(&[10]), loader::Chain::new(&[10]));
        let saved = s1;
        self.row(
            "pick-up",
            vec![
                runner("archive", || assert_eq!(black_box(f1).pick_up(m, black_box(&saved)), 0)),
                runner("Rust", || assert_eq!(black_box(f2).pick_up(m, black_box(&saved)), 0)),
            ],
        );
    }
}

fn main() {
    let rounds = std::env::args().nth(1).and_then(|s| s.parse().ok()).unwrap_or(101);
    let bench = Bench { rounds };
    println!("medians over {rounds} rounds; after a runner its time, then how many times as long the archive takes");
    for check in [false, true] {
        bench.load("one window of 16,381", 1, 1, BIG, check);
        bench.load("255 windows of 8", 1, 255, 8, check);
        bench.load("255 windows of 40", 1, 255, 40, check);
        bench.load("chain of four, whole", 4, 1, BIG, check);
    }
    bench.bytes();
    bench.hunt(0);
    bench.hunt(5);
    bench.write(1, BIG);
    bench.write(255, 40);
    bench.list(1, 8);
    bench.list(1, BIG);
    bench.list(255, 8);
    bench.list(255, 40);
    bench.tidies();
    bench.salvage("salvage, 255 of 40, the last cut", &windows(255, 40).0, &[40; 255], 20);
    bench.salvage("salvage, 16,381 and a cut one", &[0, 9], &[BIG, 3], 1);
    for mode in [1, 2] {
        bench.fetch("one of 16,381", 1, 1, BIG, mode);
        bench.fetch("chain of four", 4, 1, BIG, mode);
        bench.fetch("255 of 40", 1, 255, 40, mode);
    }
    for mode in [1, 3] {
        bench.sheet("64 of one of 16,381", 64, 1, BIG, 0, mode);
        bench.sheet("255 of 40", 1, 255, 40, 64, mode);
        bench.sheet("255 of 40 half over", 1, 255, 40, 20, mode);
        bench.sheet("1,000 of one of 3", 1000, 1, 3, 0, mode);
        bench.longest(mode);
    }
    bench.closing("closing at 11, 00 alone", false, 10, 0x00);
    bench.closing("closing of a check at 2", true, 1, 0x08);
    bench.stopped();
}
