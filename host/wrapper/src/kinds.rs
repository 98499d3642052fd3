//! What a command does, by number: places of the counts below threshold A, and parts of a counter's number.

pub const READ: usize = 0;
pub const WRITE: usize = 1;
pub const DEALLOCATE: usize = 2;
