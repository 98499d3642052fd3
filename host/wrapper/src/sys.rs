//! What include/latency_monitor.h declares.
//!
//! The bytes between fields have names here, so that each byte of a record or a reading may be read. A name that ends
//! in `_us` or `_ms` has that unit.

use core::mem::{align_of, offset_of, size_of};

/// What a command does: [`kinds`](crate::kinds) has the numbers.
pub const KINDS: usize = 3;
/// Counters stand by number, 3 x bucket + kind: buckets 0 to 3 have thresholds A to D.
pub const COUNTERS: usize = 12;

/// The settings in force.
#[repr(C)]
#[derive(Clone, Copy, Debug)]
#[non_exhaustive]
pub struct Settings {
    /// In increments of five minutes.
    pub timer_threshold: u16,
    /// Bit n: counter n in mode largest.
    pub mode: u16,
    /// Bit n: counter n triggers a debug log.
    pub trigger: u16,
    /// A to D: byte v means 5 x (v + 1) ms.
    pub thresholds: [u8; 4],
    /// In units of 100 ms.
    pub minimum_window: u8,
    pub enabled: bool,
}

/// A window, by counter number.
#[repr(C)]
#[derive(Clone, Copy, Debug)]
#[non_exhaustive]
pub struct Window {
    pub counters: [u32; COUNTERS],
    /// Latency stamps, [`UNSET`](crate::UNSET) where not set.
    pub stamps_ms: [u64; COUNTERS],
    /// Measured latencies.
    pub latencies_ms: [u16; COUNTERS],
    /// Whether the host had set the clock.
    pub stamp_units: [bool; COUNTERS],
    padding: [u8; 4],
}

/// The debug log; none is held while its stamp is [`UNSET`](crate::UNSET).
#[repr(C)]
#[derive(Clone, Copy, Debug)]
#[non_exhaustive]
pub struct DebugLog {
    pub stamp_ms: u64,
    pub latency_ms: u16,
    /// The counter, as one set bit.
    pub source: u16,
    pub stamp_units: bool,
    padding: [u8; 3],
}

/// The record.
#[repr(C)]
#[derive(Clone, Copy, Debug)]
#[non_exhaustive]
pub struct Record {
    pub settings: Settings,
    /// Active Bucket Timer, in increments of five minutes.
    pub timer: u16,
    /// Whether the host set the clock.
    pub host_set: bool,
    padding: [u8; 1],
    /// Time since the timer's last increment.
    pub partial_ms: u32,
    /// By kind: completions below threshold A in the static window.
    pub static_below_a: [u32; KINDS],
    /// The same in the active window.
    pub active_below_a: [u32; KINDS],
    more_padding: [u8; 4],
    pub clock_ms: u64,
    /// Time in the active window at the stamp's last load.
    pub loaded_ms: [u64; COUNTERS],
    pub debug: DebugLog,
    pub static_window: Window,
    pub active_window: Window,
}

/// What a log page shows. Discard, which no page has, is no field of the settings: it counts as 0.
#[repr(C)]
#[derive(Clone, Copy, Debug)]
#[non_exhaustive]
pub struct LogPage {
    pub settings: Settings,
    /// Active Bucket Timer, in increments of five minutes.
    pub timer: u16,
    padding: [u8; 2],
    pub active_window: Window,
    pub static_window: Window,
    pub debug: DebugLog,
}

/// A log page that was [read](crate::read_page).
#[repr(C)]
#[derive(Clone, Copy, Debug)]
#[non_exhaustive]
pub struct Reading {
    pub page: LogPage,
    /// Whether the page shows a debug log.
    pub debug_held: bool,
    /// The debug log's counter, 0 to 11; 0 if none is held.
    pub debug_counter: u8,
    padding: [u8; 6],
}

/// A completed command. Dataset Management and Write Zeroes are Deallocate if they have the deallocate attribute or
/// bit, and are not counted without it.
#[repr(C)]
#[derive(Clone, Copy, Debug)]
pub struct Command {
    pub latency_us: u32,
    /// One of [`opcodes`](crate::opcodes), or any other.
    pub opcode: u8,
    /// The attribute of Dataset Management or the bit of Write Zeroes; not asked of other commands.
    pub deallocate: bool,
}

#[repr(C)]
pub struct CompletionAnswer {
    pub counter: u16,
    pub counted: bool,
    pub loaded: bool,
    pub debug: bool,
}

#[repr(C)]
pub struct ElapsedAnswer {
    pub refusal: u8,
    pub ended: bool,
}

/// The enabled completions below threshold A in a window, by kind, each held at 4,294,967,295.
#[repr(C)]
#[derive(Clone, Copy, Debug, PartialEq, Eq)]
pub struct BelowA {
    pub read: u32,
    pub write: u32,
    pub deallocate: u32,
}

extern "C" {
    pub fn latency_monitor_new(monitor: *mut Record);
    pub fn latency_monitor_configure(monitor: *mut Record, settings: *const u8, length: usize) -> u8;
    pub fn latency_monitor_completion(monitor: *mut Record, command: Command) -> CompletionAnswer;
    pub fn latency_monitor_elapsed(monitor: *mut Record, elapsed_ms: u32) -> ElapsedAnswer;
    pub fn latency_monitor_set_clock(monitor: *mut Record, clock_ms: u64) -> u8;
    pub fn latency_monitor_power_up(monitor: *mut Record) -> u8;
    pub fn latency_monitor_active_below_a(monitor: *const Record) -> BelowA;
    pub fn latency_monitor_static_below_a(monitor: *const Record) -> BelowA;
    pub fn latency_monitor_reason(monitor: *const Record, command: Command) -> u8;
    pub fn latency_monitor_page(monitor: *const Record, page: *mut u8, length: usize) -> u8;
    pub fn latency_monitor_settings_back(monitor: *const Record, settings: *mut u8, length: usize) -> u8;
    pub fn latency_monitor_read_page(reading: *mut Reading, page: *const u8, length: usize) -> u8;
}

/// Holds a struct to the header: its size and alignment, and the offset of every field.
macro_rules! layout {
    ($type:ident, $size:literal, $align:literal, { $($field:ident: $offset:literal),* $(,)? }) => {
        const _: () = {
            assert!(size_of::<$type>() == $size);
            assert!(align_of::<$type>() == $align);
            $(assert!(offset_of!($type, $field) == $offset);)*
        };
        // Does not compile if the list lacks a field.
        const _: fn($type) = |$type { $($field: _),* }| ();
    };
}

layout!(Settings, 12, 2, {
    timer_threshold: 0,
    mode: 2,
    trigger: 4,
    thresholds: 6,
    minimum_window: 10,
    enabled: 11,
});

layout!(Window, 184, 8, { counters: 0, stamps_ms: 48, latencies_ms: 144, stamp_units: 168, padding: 180 });

layout!(DebugLog, 16, 8, { stamp_ms: 0, latency_ms: 8, source: 10, stamp_units: 12, padding: 13 });

layout!(Record, 536, 8, {
    settings: 0,
    timer: 12,
    host_set: 14,
    padding: 15,
    partial_ms: 16,
    static_below_a: 20,
    active_below_a: 32,
    more_padding: 44,
    clock_ms: 48,
    loaded_ms: 56,
    debug: 152,
    static_window: 168,
    active_window: 352,
});

layout!(LogPage, 400, 8, {
    settings: 0,
    timer: 12,
    padding: 14,
    active_window: 16,
    static_window: 200,
    debug: 384,
});

layout!(Reading, 408, 8, { page: 0, debug_held: 400, debug_counter: 401, padding: 402 });

layout!(Command, 8, 4, { latency_us: 0, opcode: 4, deallocate: 5 });

layout!(CompletionAnswer, 6, 2, { counter: 0, counted: 2, loaded: 3, debug: 4 });

layout!(ElapsedAnswer, 2, 1, { refusal: 0, ended: 1 });

layout!(BelowA, 12, 4, { read: 0, write: 4, deallocate: 8 });
