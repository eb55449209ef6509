//! Compares an independent model of the paper with the library, call by call, through its C archive.
//!
//! compare SEED CALLS COMMAND...: COMMAND starts the archive's side, which is asked and answers through pipes. The
//! calls do not depend on its replies, so one thread makes them and this one compares; the seed gives the same calls
//! again.
#![forbid(unsafe_code)]

mod boards;
mod call;
mod calls;
mod chains;
mod damage;
mod disks;
mod ends;
mod jumps;
mod meanings;
mod model;
mod patches;
mod random;
mod runs;
mod shapes;
mod sheets;
mod show;
mod stateless;
mod states;
mod streams;
mod tally;
mod totals;
mod twelve;
mod wire;

use call::{by_model, Call, Part};
use random::Random;
use std::io::{BufReader, Read, Write};
use std::process::{exit, ChildStdin, ChildStdout, Command, Stdio};
use std::sync::mpsc::{channel, Receiver, Sender};
use std::time::Instant;
use tally::Tally;

/// A call that was asked, with the reply that the model gives.
struct Asked {
    index: u64,
    call: Call,
    expected: Vec<u8>,
}

/// Requests are sent a batch at a time.
const BATCH: usize = 1 << 16;

/// The asking side: the model's word goes to the comparing thread before the request goes to the archive's side, so
/// that the comparing thread never waits for this one while replies fill the pipe.
struct Asker {
    to_archive: ChildStdin,
    to_comparer: Sender<Asked>,
    batch: Vec<u8>,
    tally: Tally,
    asked: u64,
}

impl Asker {
    fn make(&mut self, call: Call) -> Vec<Part> {
        let parts = by_model(&call);
        self.tally.count(&call, &parts);
        wire::put_request(&mut self.batch, &call);
        // The comparing thread ends the program at a difference: then nobody listens any more.
        let _ = self.to_comparer.send(Asked { index: self.asked, call, expected: wire::reply_of(&parts) });
        self.asked += 1;
        if self.batch.len() >= BATCH {
            self.send();
        }
        parts
    }

    /// A pipe that breaks is the comparing thread's to report: it meets the end of the replies.
    fn send(&mut self) {
        let _ = self.to_archive.write_all(&self.batch);
        self.batch.clear();
    }
}

/// What was asked is sent, whatever ends the asking; then the pipe is closed.
impl Drop for Asker {
    fn drop(&mut self) {
        self.send();
    }
}

/// What the asking thread ends with.
struct Outcome {
    tally: Tally,
    asked: u64,
    complaints: Vec<String>,
}

/// Makes the paper's cases, then random calls up to a number of them: single ones, long runs, patches written twice,
/// old disks, boards booted from their EPROM, load sheets; at the end the longest sheets that there can be.
fn ask(seed: u64, calls: u64, to_archive: ChildStdin, to_comparer: Sender<Asked>) -> Outcome {
    let mut random = Random::new(seed);
    let mut asker = Asker { to_archive, to_comparer, batch: Vec::new(), tally: Tally::default(), asked: 0 };
    let mut complaints = twelve::twelve(&mut |call| asker.make(call));
    while asker.asked < calls {
        if random.once_in(12) {
            runs::run(&mut random, &mut |call| asker.make(call));
        } else if random.once_in(100) {
            complaints.extend(meanings::one_patch(&mut random, &mut |call| asker.make(call)));
        } else if random.once_in(100) {
            complaints.extend(disks::one_disk(&mut random, &mut |call| asker.make(call)));
        } else if random.once_in(100) {
            complaints.extend(boards::one_board(&mut random, &mut |call| asker.make(call)));
        } else if random.once_in(100) {
            complaints.extend(sheets::one_sheet(&mut random, &mut |call| asker.make(call)));
        } else {
            let call = calls::any(&mut random);
            asker.make(call);
        }
    }
    complaints.extend(sheets::whole_months(&mut random, &mut |call| asker.make(call)));
    complaints.extend(asker.tally.complaints());
    Outcome { tally: std::mem::take(&mut asker.tally), asked: asker.asked, complaints }
}

/// Reads a reply to each call and compares it with the model's word; a difference is printed and ends the program.
fn compare(seed: u64, from_archive: ChildStdout, asked: Receiver<Asked>) -> u64 {
    let mut replies = BufReader::with_capacity(1 << 16, from_archive);
    let mut reply = Vec::new();
    let mut compared = 0;
    for Asked { index, call, expected } in asked {
        let mut length = [0; 4];
        let mut read = replies.read_exact(&mut length);
        if read.is_ok() {
            reply.resize(u32::from_le_bytes(length) as usize, 0);
            read = replies.read_exact(&mut reply);
        }
        let name = tally::name(&call);
        if read.is_err() {
            println!(
                "seed {seed}: the archive's side ended at or after call {index}, {name}\n    {}",
                show::call(&call)
            );
            exit(1);
        }
        if reply != expected {
            let (faults, parts) = wire::read_reply(&reply);
            println!("seed {seed}, call {index}, {name}: the archive and the model differ\n    {}", show::call(&call));
            if faults != 0 {
                println!("  faults {faults}: 1 is a guard byte touched, 2 is a read-only input changed");
            }
            print!("{}", show::differences(&wire::read_reply(&expected).1, &parts));
            exit(1);
        }
        compared += 1;
    }
    compared
}

fn main() {
    let arguments: Vec<String> = std::env::args().collect();
    let number = |index: usize| arguments.get(index).and_then(|argument| argument.parse::<u64>().ok());
    let (Some(seed), Some(calls), Some(command)) = (number(1), number(2), arguments.get(3)) else {
        eprintln!("compare SEED CALLS COMMAND...");
        exit(2);
    };
    // Said first, so that a run that is broken off can be made again.
    println!("Model and archive, seed {seed}");
    let started = Instant::now();
    let child = Command::new(command).args(&arguments[4..]).stdin(Stdio::piped()).stdout(Stdio::piped()).spawn();
    let mut child = child.unwrap_or_else(|error| {
        eprintln!("{command}: {error}");
        exit(2);
    });
    let (Some(to_archive), Some(from_archive)) = (child.stdin.take(), child.stdout.take()) else { exit(2) };
    let (to_comparer, from_asker) = channel();
    let asking = std::thread::spawn(move || ask(seed, calls, to_archive, to_comparer));
    let compared = compare(seed, from_archive, from_asker);
    let Ok(Outcome { tally, asked, mut complaints }) = asking.join() else { exit(2) };
    let ended = child.wait().is_ok_and(|status| status.success());

    let seconds = started.elapsed().as_secs_f64();
    println!("{asked} requests, {} calls with the in-place twins", tally.calls());
    tally.print();
    println!("{seconds:.1} s, {:.0} calls a second", tally.calls() as f64 / seconds);
    if compared != asked || !ended {
        complaints.push(format!("{compared} of {asked} replies were compared"));
    }
    for complaint in &complaints {
        println!("FAILED: {complaint}");
    }
    if !complaints.is_empty() {
        exit(1);
    }
    println!("no difference");
}
