//! The tidier, by a table of cells: which of them some window has, and what a load leaves in them.

use super::chain::new;
use super::kinds::size_of;
use super::lister::{list, Tables};
use super::machine::{slice, start};
use super::numbers::*;
use super::output::{put, refused, Written};

const MODE_1: u8 = 1;

/// "Refusals: the lister's, then 15." With 255 entries no table of the lister is too short.
pub fn tidy(kind: u8, stream: &[u8], output: &mut [u8]) -> Written {
    let mut tables = Tables { starts: vec![0; 255], ends: vec![0; 255], offsets: vec![0; 255] };
    let listed = list(kind, MODE_1, stream, &mut tables);
    if listed.number != DONE {
        return refused(listed.number);
    }
    let size = size_of(kind).unwrap_or(0);
    let mut covered = vec![false; size];
    for window in 0..listed.windows as usize {
        for cell in tables.starts[window]..=tables.ends[window] {
            covered[cell as usize] = true;
        }
    }
    let windows = runs(&covered);

    // "control and external address kept"
    let mut tidied = vec![PREAMBLE, listed.control];
    tidied.extend(listed.address);
    // "The count byte is the ones' complement of the number of windows".
    tidied.push(255 - windows.len() as u8);
    let values = loaded(kind, stream, size);
    for (first, last) in windows {
        // "null bytes zero"
        tidied.extend([0x00, (first / 256) as u8, (first % 256) as u8, (last / 256) as u8, (last % 256) as u8]);
        tidied.extend(&values[first..=last]);
    }
    tidied.push(POSTAMBLE);
    put(&tidied, output)
}

/// "the windows ascending, disjoint, never touching": the first and the last of the cells that stand together.
fn runs(covered: &[bool]) -> Vec<(usize, usize)> {
    let mut runs = Vec::new();
    let mut first = None;
    for (cell, &here) in covered.iter().chain([&false]).enumerate() {
        match (here, first) {
            (true, None) => first = Some(cell),
            (false, Some(from)) => {
                runs.push((from, cell - 1));
                first = None;
            }
            _ => (),
        }
    }
    runs
}

/// "each cell with its last value": what the machine has in its cells once it has taken the stream.
fn loaded(kind: u8, stream: &[u8], size: usize) -> Vec<u8> {
    let mut memory = vec![0; size];
    let fresh = new(1, &[kind, 0, 0, 0, 0, 0, 0, 0], &memory).chain;
    slice(start(fresh, size, MODE_1, 0).chain, &mut memory, stream);
    memory
}
