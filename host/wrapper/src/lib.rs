//! The latency monitor for Rust: a safe wrapper over the C library.
//!
//! ```
//! use latency_monitor::{kinds, offsets, opcodes, Command, CompletionAnswer, Monitor, PAGE_LENGTH, SETTINGS_LENGTH};
//!
//! let mut settings = [0; SETTINGS_LENGTH];
//! settings[offsets::TIMER_THRESHOLD] = 2;
//! settings[offsets::THRESHOLDS..][..4].copy_from_slice(&[0, 1, 3, 9]);
//! settings[offsets::TRIGGER] = 1 << kinds::READ; // of the Reads in bucket 0
//! settings[offsets::ENABLE] = 1;
//!
//! let mut monitor = Monitor::new();
//! monitor.configure(&settings)?;
//! monitor.elapsed(1_000)?;
//! let read = Command { opcode: opcodes::READ, deallocate: false, latency_us: 7_500 };
//! let answer = monitor.completion(read);
//! assert_eq!(answer, CompletionAnswer::Counted { counter: kinds::READ, loaded: true, debug: true });
//!
//! let mut page = [0; PAGE_LENGTH];
//! monitor.page(&mut page)?;
//! assert_eq!(page[44], 1); // Reads in bucket 0
//!
//! assert_eq!(monitor.completion(Command { latency_us: 300, ..read }), CompletionAnswer::NotCounted);
//! assert_eq!(monitor.active_below_a().read, 1); // one of two Reads was below threshold A
//!
//! let trim = Command { opcode: opcodes::DATASET_MANAGEMENT, deallocate: true, latency_us: 7_500 };
//! let answer = monitor.completion(trim);
//! assert_eq!(answer, CompletionAnswer::Counted { counter: kinds::DEALLOCATE, loaded: true, debug: false });
//! let without = Command { deallocate: false, ..trim };
//! assert_eq!(monitor.completion(without), CompletionAnswer::NotCounted);
//! # Ok::<(), latency_monitor::Refusal>(())
//! ```

#![no_std]

mod answers;
pub mod kinds;
pub mod offsets;
pub mod opcodes;
mod reading;
mod restore;
mod sys;

use core::mem::MaybeUninit;

pub use answers::{CompletionAnswer, ElapsedAnswer, Reason, Refusal};
pub use reading::read_page;
pub use restore::DamagedRecord;
pub use sys::{BelowA, Command, DebugLog, LogPage, Reading, Record, Settings, Window, COUNTERS, KINDS};

/// The length of settings.
pub const SETTINGS_LENGTH: usize = 4096;
/// The length of log page C3h.
pub const PAGE_LENGTH: usize = 512;
/// The length of a record.
pub const RECORD_LENGTH: usize = size_of::<Record>();
/// The length of a reading.
pub const READING_LENGTH: usize = size_of::<Reading>();
/// Changes when the record does; to be kept with a record's bytes.
pub const RECORD_VERSION: u32 = 2;
/// The increment of the Active Bucket Timer, five minutes; no call of [`elapsed`](Monitor::elapsed) takes more.
pub const INCREMENT_MS: u32 = 300_000;
/// The clock, and a latency stamp that is set, are below it.
pub const CLOCK_LIMIT_MS: u64 = 1 << 48;
/// A latency stamp that is not set.
pub const UNSET: u64 = u64::MAX;

/// A monitor's record. Only the calls change it.
#[repr(transparent)]
#[derive(Clone, Debug)]
pub struct Monitor(Record);

impl Monitor {
    /// A new monitor: disabled, settings zero, clock 0, both windows empty.
    pub fn new() -> Monitor {
        let mut record = MaybeUninit::zeroed();
        // SAFETY: the storage is a record's and zeroed, so each bool is 0, and the call makes it a new monitor's.
        Monitor(unsafe {
            sys::latency_monitor_new(record.as_mut_ptr());
            record.assume_init()
        })
    }

    /// The monitor whose [bytes](Monitor::as_bytes) were kept; after a power cycle, [`power_up`](Monitor::power_up) is
    /// the next call.
    ///
    /// Turned away are bytes with one of these, which no history of calls leaves: a bool that is neither 0 nor 1;
    /// settings that are neither zero nor accepted; a timer, partial increment, clock or stamp beyond its end; a debug
    /// log or a counter whose parts disagree; a load later than the time in the window; with settings that are zero, a
    /// timer, partial increment, count, stamp or debug log that a new monitor has not. Other damage is not seen, so
    /// keep a checksum with the bytes. Bytes of another [`RECORD_VERSION`] are not to be restored.
    pub fn restore(bytes: &[u8; RECORD_LENGTH]) -> Result<Monitor, DamagedRecord> {
        restore::record(bytes).map(Monitor)
    }

    /// Makes the record a new monitor's again.
    pub fn reset(&mut self) {
        // SAFETY: the record is borrowed alone.
        unsafe { sys::latency_monitor_new(&mut self.0) }
    }

    /// Accepts settings, 4,096 bytes.
    pub fn configure(&mut self, settings: &[u8]) -> Result<(), Refusal> {
        // SAFETY: the record is borrowed alone, and the length is the slice's.
        answers::accepted(unsafe { sys::latency_monitor_configure(&mut self.0, settings.as_ptr(), settings.len()) })
    }

    /// Takes a completed command.
    pub fn completion(&mut self, command: Command) -> CompletionAnswer {
        // SAFETY: the record is borrowed alone.
        unsafe { sys::latency_monitor_completion(&mut self.0, command) }.into()
    }

    /// Lets time pass, at most [`INCREMENT_MS`]; more is to be split.
    pub fn elapsed(&mut self, elapsed_ms: u32) -> Result<ElapsedAnswer, Refusal> {
        // SAFETY: the record is borrowed alone.
        unsafe { sys::latency_monitor_elapsed(&mut self.0, elapsed_ms) }.try_into()
    }

    /// The host sets the clock, below [`CLOCK_LIMIT_MS`].
    pub fn set_clock(&mut self, clock_ms: u64) -> Result<(), Refusal> {
        // SAFETY: the record is borrowed alone.
        answers::accepted(unsafe { sys::latency_monitor_set_clock(&mut self.0, clock_ms) })
    }

    /// The drive powered up: the clock is 0, and not the host's, and all else is kept. Never turned away.
    pub fn power_up(&mut self) -> Result<(), Refusal> {
        // SAFETY: the record is borrowed alone.
        answers::accepted(unsafe { sys::latency_monitor_power_up(&mut self.0) })
    }

    /// The completions below threshold A in the active window, which no counter has and no page shows.
    pub fn active_below_a(&self) -> BelowA {
        // SAFETY: the record is only read.
        unsafe { sys::latency_monitor_active_below_a(&self.0) }
    }

    /// The same in the static window.
    pub fn static_below_a(&self) -> BelowA {
        // SAFETY: the record is only read.
        unsafe { sys::latency_monitor_static_below_a(&self.0) }
    }

    /// Why a completed command would not load a latency stamp, were it brought to [`completion`](Monitor::completion)
    /// now: the lowest reason, none where it would. The record is only read, and the command not taken; after the
    /// completion the record is another.
    ///
    /// ```
    /// use latency_monitor::{offsets, opcodes, Command, Monitor, Reason, SETTINGS_LENGTH};
    ///
    /// let mut settings = [0; SETTINGS_LENGTH];
    /// settings[offsets::TIMER_THRESHOLD] = 2;
    /// settings[offsets::THRESHOLDS..][..4].copy_from_slice(&[0, 1, 3, 9]);
    /// settings[offsets::MODE] = 1; // largest, for counter 0
    /// settings[offsets::MINIMUM_WINDOW] = 1;
    /// settings[offsets::ENABLE] = 1;
    ///
    /// let mut monitor = Monitor::new();
    /// monitor.configure(&settings)?;
    /// let read = Command { opcode: opcodes::READ, deallocate: false, latency_us: 7_000 };
    /// assert_eq!(monitor.reason(read), None);
    /// monitor.completion(read);
    /// assert_eq!(monitor.reason(read), Some(Reason::NotLarger));
    /// let slower = Command { latency_us: 8_000, ..read };
    /// assert_eq!(monitor.reason(slower), Some(Reason::MinimumWindow));
    /// monitor.elapsed(100)?;
    /// assert_eq!(monitor.reason(slower), None);
    /// # Ok::<(), latency_monitor::Refusal>(())
    /// ```
    pub fn reason(&self, command: Command) -> Option<Reason> {
        // SAFETY: the record is only read.
        answers::reason(unsafe { sys::latency_monitor_reason(&self.0, command) })
    }

    /// Writes log page C3h, 512 bytes.
    pub fn page(&self, page: &mut [u8]) -> Result<(), Refusal> {
        // SAFETY: the record is only read, and the length is the slice's.
        answers::accepted(unsafe { sys::latency_monitor_page(&self.0, page.as_mut_ptr(), page.len()) })
    }

    /// Writes the settings in force, 4,096 bytes, the discard byte as zero.
    pub fn settings_back(&self, settings: &mut [u8]) -> Result<(), Refusal> {
        // SAFETY: the record is only read, and the length is the slice's.
        answers::accepted(unsafe { sys::latency_monitor_settings_back(&self.0, settings.as_mut_ptr(), settings.len()) })
    }

    /// The record's fields, to be read.
    pub fn record(&self) -> &Record {
        &self.0
    }

    /// The record's bytes, to be kept for [`restore`](Monitor::restore). Those between fields mean nothing, and may
    /// differ in records whose fields are equal.
    pub fn as_bytes(&self) -> &[u8; RECORD_LENGTH] {
        // SAFETY: every byte of a record belongs to a field, and any bytes are an array of bytes.
        unsafe { &*(&raw const self.0).cast() }
    }
}

impl Default for Monitor {
    fn default() -> Monitor {
        Monitor::new()
    }
}
