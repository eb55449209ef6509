//! The stream writer for one device.

use super::kinds::size_of;
use super::numbers::*;
use super::output::{put, refused, Written};

/// What the writer takes besides its output.
#[derive(Clone, Debug)]
pub struct Order {
    pub kind: u8,
    pub mode: u8,
    pub control: u8,
    pub address: [u8; 3],
    pub starts: Vec<u16>,
    pub ends: Vec<u16>,
    pub data: Vec<u8>,
}

/// "Writer: kind (1), mode, 13, then window by window 11, 12, then 14, 15."
pub fn write(order: &Order, output: &mut [u8]) -> Written {
    let size = match size_of(order.kind) {
        None => return refused(BAD_CHAIN),
        Some(size) => size,
    };
    if !is_mode(order.mode) {
        return refused(BAD_MODE);
    }
    // "start and end tables differ in length or exceed 255"
    if order.starts.len() != order.ends.len() || order.starts.len() > 255 {
        return refused(BAD_TABLES);
    }
    let mut sum = 0;
    for (&start, &end) in order.starts.iter().zip(&order.ends) {
        if start as usize >= size {
            return refused(BAD_START);
        }
        if end < start || end as usize >= size {
            return refused(BAD_END);
        }
        sum += end as usize - start as usize + 1;
    }
    // "data length is not the sum of the windows"
    if order.data.len() != sum {
        return refused(BAD_DATA);
    }
    put(&stream_of(order), output)
}

fn stream_of(order: &Order) -> Vec<u8> {
    // "Its lead-in is B2 in modes 1, 2, 5; 00 B2 in 3, 4; B2 B2 in 6."
    let mut stream = match order.mode {
        3 | 4 => vec![0x00, 0xB2],
        6 => vec![0xB2, 0xB2],
        _ => vec![0xB2],
    };
    stream.push(order.control);
    stream.extend(order.address);
    stream.push(!(order.starts.len() as u8));
    let mut data = order.data.iter();
    for (&start, &end) in order.starts.iter().zip(&order.ends) {
        // "Null bytes are 00."
        stream.push(0x00);
        stream.extend(start.to_be_bytes());
        stream.extend(end.to_be_bytes());
        stream.extend(data.by_ref().take(end as usize - start as usize + 1));
    }
    stream.push(POSTAMBLE);
    stream
}
