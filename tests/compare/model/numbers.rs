//! The paper's numbers, awaited bytes and byte values.

pub const DONE: u8 = 0;
pub const BAD_CHAIN: u8 = 1;
pub const BAD_MODE: u8 = 2;
pub const RUN_OPEN: u8 = 3;
pub const NO_RUN: u8 = 4;
pub const NO_PREAMBLE: u8 = 5;
pub const BARRED: u8 = 6;
pub const NO_CHECK: u8 = 7;
pub const BAD_CHECK_BYTE: u8 = 8;
pub const ENDS_HERE: u8 = 9;
pub const LAST_DEVICE: u8 = 10;
pub const BAD_START: u8 = 11;
pub const BAD_END: u8 = 12;
pub const BAD_TABLES: u8 = 13;
pub const BAD_DATA: u8 = 14;
pub const TOO_SHORT: u8 = 15;
pub const MORE: u8 = 16;
pub const ILL_FORMED: u8 = 17;
pub const PAST_EPROM: u8 = 18;
pub const BAD_JUMP: u8 = 19;
pub const BAD_LENGTHS: u8 = 23;
pub const NO_HEAD: u8 = 27;

/// "Preamble B2 hex, postamble 4D hex."
pub const PREAMBLE: u8 = 0xB2;
pub const POSTAMBLE: u8 = 0x4D;

/// Bits of a control byte: B0 keeps an EPROM's counter, B1 makes it jump, B2 ends the chain here, B3 disables checks, B4
/// bars later runs.
pub const BIT_0: u8 = 0x01;
pub const BIT_1: u8 = 0x02;
pub const BIT_2: u8 = 0x04;
pub const BIT_3: u8 = 0x08;
pub const BIT_4: u8 = 0x10;

/// "Awaited bytes, in order".
pub const AT_PREAMBLE: u8 = 0;
pub const AT_SECOND_PREAMBLE: u8 = 1;
pub const AT_CONTROL: u8 = 2;
pub const AT_ADDRESS_LOW: u8 = 3;
pub const AT_ADDRESS_MIDDLE: u8 = 4;
pub const AT_ADDRESS_HIGH: u8 = 5;
pub const AT_COUNT: u8 = 6;
pub const AT_NULL: u8 = 7;
pub const AT_START_HIGH: u8 = 8;
pub const AT_START_LOW: u8 = 9;
pub const AT_END_HIGH: u8 = 10;
pub const AT_END_LOW: u8 = 11;
pub const AT_DATA: u8 = 12;
pub const AT_CHECK_BYTE: u8 = 13;

/// The one mode with two preambles.
pub const TWO_PREAMBLES: u8 = 6;

/// Number 2: "a mode not 1 to 6".
pub fn is_mode(mode: u8) -> bool {
    (1..=6).contains(&mode)
}
