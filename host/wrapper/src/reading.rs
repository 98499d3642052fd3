//! Log pages that are read, as lab tools do with those of drives.

use core::mem::MaybeUninit;

use crate::answers::{self, Refusal};
use crate::sys::{self, Reading};
use crate::READING_LENGTH;

/// Reads log page C3h of any drive, 512 bytes. No monitor has a part in it.
///
/// Turned away are pages of another length, then those of another version or GUID, then those that break a rule of the
/// layout; include/latency_monitor.h has the rules. Each page that a monitor writes is accepted.
///
/// ```
/// use latency_monitor::{offsets, opcodes, read_page, Command, Monitor, Refusal, PAGE_LENGTH, SETTINGS_LENGTH, UNSET};
///
/// let mut settings = [0; SETTINGS_LENGTH];
/// settings[offsets::TIMER_THRESHOLD] = 2;
/// settings[offsets::THRESHOLDS..][..4].copy_from_slice(&[0, 1, 3, 9]);
/// settings[offsets::TRIGGER] = 2; // of counter 1
/// settings[offsets::ENABLE] = 1;
///
/// let mut monitor = Monitor::new();
/// monitor.configure(&settings)?;
/// monitor.elapsed(1_000)?;
/// monitor.completion(Command { opcode: opcodes::WRITE, deallocate: false, latency_us: 7_500 });
/// let mut page = [0; PAGE_LENGTH];
/// monitor.page(&mut page)?;
///
/// let reading = read_page(&page)?;
/// let window = &reading.page.active_window;
/// assert_eq!((window.counters[1], window.stamps_ms[1], window.latencies_ms[1]), (1, 1_000, 7));
/// assert_eq!((window.counters[0], window.stamps_ms[0]), (0, UNSET));
/// assert_eq!((reading.debug_held, reading.debug_counter), (true, 1));
///
/// page[1] = 1;
/// assert_eq!(read_page(&page).err(), Some(Refusal::ReadLayout));
/// # Ok::<(), Refusal>(())
/// ```
pub fn read_page(page: &[u8]) -> Result<Reading, Refusal> {
    let mut reading = MaybeUninit::zeroed();
    // SAFETY: the storage is a reading's and zeroed, so each bool is 0, and the length is the slice's.
    let (answer, reading) = unsafe {
        let answer = sys::latency_monitor_read_page(reading.as_mut_ptr(), page.as_ptr(), page.len());
        (answer, reading.assume_init())
    };
    answers::accepted(answer).map(|()| reading)
}

impl Reading {
    /// Reads another page into the same storage, as [`read_page`] does. If it is turned away, the reading stays as it
    /// was.
    pub fn read(&mut self, page: &[u8]) -> Result<(), Refusal> {
        // SAFETY: the reading is borrowed alone, and the length is the slice's.
        answers::accepted(unsafe { sys::latency_monitor_read_page(self, page.as_ptr(), page.len()) })
    }

    /// The reading's bytes. Those between fields mean nothing, and may differ in readings whose fields are equal.
    pub fn as_bytes(&self) -> &[u8; READING_LENGTH] {
        // SAFETY: every byte of a reading belongs to a field, and any bytes are an array of bytes.
        unsafe { &*(&raw const *self).cast() }
    }
}
