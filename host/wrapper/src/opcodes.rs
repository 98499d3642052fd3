//! The opcodes of commands that have a kind; the last two have it with their deallocate attribute or bit alone.

pub const READ: u8 = 0x02;
pub const WRITE: u8 = 0x01;
pub const DATASET_MANAGEMENT: u8 = 0x09;
pub const WRITE_ZEROES: u8 = 0x08;
