//! Where settings have their fields; those of two bytes have the lowest byte first.

/// Two bytes, in increments of five minutes.
pub const TIMER_THRESHOLD: usize = 0;
/// A to D: byte v means 5 x (v + 1) ms.
pub const THRESHOLDS: usize = 2;
/// Two bytes, bit n: counter n in mode largest.
pub const MODE: usize = 6;
/// In units of 100 ms; 0 means none.
pub const MINIMUM_WINDOW: usize = 8;
/// Two bytes, bit n: counter n triggers a debug log.
pub const TRIGGER: usize = 9;
/// 1 discards the debug log.
pub const DISCARD: usize = 11;
/// 0 or 1.
pub const ENABLE: usize = 12;
