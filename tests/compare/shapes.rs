//! What the tidier has met: how the windows of a stream stood to each other, what became of them, and how much room
//! there was. A run of the comparison that never met one of these sorts says too little.

use crate::call::Room;
use crate::model::lister::{list, Tables};
use crate::model::numbers::DONE;
use crate::model::tidy::tidy;
use crate::patches::Window;

/// The windows of an accepted stream, where their data begin, and how many bytes are taken.
pub fn windows_of(kind: u8, stream: &[u8]) -> (Vec<Window>, Vec<usize>, usize) {
    let mut tables = Tables { starts: vec![0; 255], ends: vec![0; 255], offsets: vec![0; 255] };
    let listed = list(kind, 1, stream, &mut tables);
    let count = listed.windows as usize;
    let windows = (0..count).map(|row| (tables.starts[row] as usize, tables.ends[row] as usize)).collect();
    let offsets = tables.offsets[..count].iter().map(|&offset| offset as usize).collect();
    (windows, offsets, listed.taken as usize)
}

/// Whether some window b stands so to a window a before it in the stream.
pub fn some(windows: &[Window], stands: fn(Window, Window) -> bool) -> bool {
    windows.iter().enumerate().any(|(index, &b)| windows[..index].iter().any(|&a| stands(a, b)))
}

/// Each sort, and whether an accepted stream with an output of that length is of it; nothing where it is not accepted.
pub fn sorts(kind: u8, stream: &[u8], room: &Room) -> Vec<(&'static str, bool)> {
    let mut tidied = vec![0; stream.len()];
    let answer = tidy(kind, stream, &mut tidied);
    if answer.number != DONE {
        return Vec::new();
    }
    tidied.truncate(answer.length as usize);
    let needed = tidied.len();
    let (given, offsets, taken) = windows_of(kind, stream);
    let (left, _, _) = windows_of(kind, &tidied);
    let gap = some(&left, |a, b| b.0 == a.1 + 2);
    vec![
        ("no windows", given.is_empty()),
        ("one window", given.len() == 1),
        ("255 windows", given.len() == 255),
        ("255 windows, all of which stay", given.len() == 255 && left.len() == 255),
        ("255 windows that become one", given.len() == 255 && left.len() == 1),
        ("touches one before it, from above", some(&given, |a, b| b.0 == a.1 + 1)),
        ("touches one before it, from below", some(&given, |a, b| b.1 + 1 == a.0)),
        ("a cell above one before it", gap && some(&given, |a, b| b.0 == a.1 + 2)),
        ("a cell below one before it", gap && some(&given, |a, b| b.1 + 2 == a.0)),
        ("over the end of one before it", some(&given, |a, b| a.0 < b.0 && b.0 <= a.1 && a.1 < b.1)),
        ("over the start of one before it", some(&given, |a, b| b.0 < a.0 && a.0 <= b.1 && b.1 < a.1)),
        ("within one before it", some(&given, |a, b| a != b && a.0 <= b.0 && b.1 <= a.1)),
        ("around one before it", some(&given, |a, b| a != b && b.0 <= a.0 && a.1 <= b.1)),
        ("the same as one before it", some(&given, |a, b| a == b)),
        ("in descending order, all apart", given.len() > 1 && given.windows(2).all(|two| two[1].1 + 1 < two[0].0)),
        ("tidy as it was given", stream[..taken] == tidied),
        ("comes out shorter", needed < taken),
        ("comes out with one window less", left.len() + 1 == given.len()),
        ("comes out with 16,000 bytes and more", needed >= 16_000),
        ("a null byte that is not 0", offsets.iter().any(|&offset| stream[offset - 5] != 0)),
        ("bytes after the postamble", taken < stream.len()),
        ("just enough room", room.length == needed),
        ("more room than needed", room.length > needed),
        ("one byte less than needed", room.length + 1 == needed),
        ("kind 0", kind == 0),
        ("kind 2", kind == 2),
        ("kind 3", kind == 3),
        ("kind 5", kind == 5),
        ("kind 10", kind == 10),
    ]
}
