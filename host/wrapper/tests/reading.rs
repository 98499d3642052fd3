//! Pages that are read.

use latency_monitor::{
    offsets, opcodes, read_page, Command, Monitor, Reading, Refusal, Settings, Window, CLOCK_LIMIT_MS, COUNTERS,
    INCREMENT_MS, KINDS, PAGE_LENGTH, SETTINGS_LENGTH, UNSET,
};

/// An opcode of each kind, and its deallocate attribute.
const OF_EACH_KIND: [(u8, bool); KINDS] =
    [(opcodes::READ, false), (opcodes::WRITE, false), (opcodes::DATASET_MANAGEMENT, true)];
const THRESHOLDS: [u8; 4] = [0, 1, 3, 9];

/// Where a page has its fields.
const ENABLED: usize = 0;
const MODE: usize = 10;
const ACTIVE: usize = 32;
const STATIC: usize = 240;
const DEBUG_STAMP: usize = 452;
const DEBUG_SOURCE: usize = 462;
const DEBUG_UNITS: usize = 464;
const VERSION: usize = 494;

/// Where a window's block has those of counter 0.
const COUNTER: usize = 12;
const STAMP: usize = 152;
const UNITS: usize = 184;

/// Every counter in the static window and the first six in the active one, with a debug log of counter 7.
fn monitor() -> Monitor {
    let mut settings = [0; SETTINGS_LENGTH];
    settings[offsets::TIMER_THRESHOLD] = 1;
    settings[offsets::THRESHOLDS..][..4].copy_from_slice(&THRESHOLDS);
    settings[offsets::MODE..][..2].copy_from_slice(&[0xAA, 0x0A]);
    settings[offsets::MINIMUM_WINDOW] = 3;
    settings[offsets::TRIGGER] = 1 << 7;
    settings[offsets::ENABLE] = 1;
    let mut monitor = Monitor::new();
    monitor.configure(&settings).unwrap();
    monitor.set_clock(1 << 40).unwrap();
    (0..COUNTERS).for_each(|n| complete(&mut monitor, n));
    monitor.elapsed(INCREMENT_MS).unwrap();
    (0..6).for_each(|n| complete(&mut monitor, n));
    monitor
}

/// A command that counter n counts.
fn complete(monitor: &mut Monitor, n: usize) {
    let latency_us = 5_000 * (u32::from(THRESHOLDS[n / KINDS]) + 1) + 1_000 * n as u32;
    let (opcode, deallocate) = OF_EACH_KIND[n % KINDS];
    monitor.completion(Command { opcode, deallocate, latency_us });
}

fn page(monitor: &Monitor) -> [u8; PAGE_LENGTH] {
    let mut page = [0; PAGE_LENGTH];
    monitor.page(&mut page).unwrap();
    page
}

fn settings(settings: &Settings) -> (u16, u16, u16, [u8; 4], u8, bool) {
    let Settings { timer_threshold, mode, trigger, thresholds, minimum_window, enabled, .. } = *settings;
    (timer_threshold, mode, trigger, thresholds, minimum_window, enabled)
}

fn window(window: &Window) -> ([u32; COUNTERS], [u64; COUNTERS], [u16; COUNTERS], [bool; COUNTERS]) {
    (window.counters, window.stamps_ms, window.latencies_ms, window.stamp_units)
}

/// The reading shows what the monitor's record does.
fn assert_shows(reading: &Reading, monitor: &Monitor) {
    let (page, record) = (&reading.page, monitor.record());
    assert_eq!(settings(&page.settings), settings(&record.settings));
    assert_eq!(page.timer, record.timer);
    assert_eq!(window(&page.active_window), window(&record.active_window));
    assert_eq!(window(&page.static_window), window(&record.static_window));
    let (debug, due) = (&page.debug, &record.debug);
    assert_eq!(
        (debug.stamp_ms, debug.latency_ms, debug.source, debug.stamp_units),
        (due.stamp_ms, due.latency_ms, due.source, due.stamp_units)
    );
}

#[test]
fn a_monitors_page_shows_its_record() {
    let reading = read_page(&page(&monitor())).unwrap();
    assert_shows(&reading, &monitor());
    assert_eq!((reading.debug_held, reading.debug_counter), (true, 7));
}

#[test]
fn a_new_monitors_page_has_no_debug_log() {
    let reading = read_page(&page(&Monitor::new())).unwrap();
    assert_shows(&reading, &Monitor::new());
    assert_eq!((reading.debug_held, reading.debug_counter), (false, 0));
    assert_eq!(reading.page.debug.stamp_ms, UNSET);
}

#[test]
fn a_reading_is_read_into_again() {
    let mut reading = read_page(&page(&monitor())).unwrap();
    reading.read(&page(&Monitor::new())).unwrap();
    assert_shows(&reading, &Monitor::new());
    assert!(!reading.debug_held);
}

/// The page with these bytes stored at a place.
fn with(mut page: [u8; PAGE_LENGTH], place: usize, bytes: &[u8]) -> [u8; PAGE_LENGTH] {
    page[place..place + bytes.len()].copy_from_slice(bytes);
    page
}

/// The bytes are turned away, and the reading of another page stays as it was.
fn assert_turned_away(bytes: &[u8], due: Refusal, what: &str) {
    assert_eq!(read_page(bytes).err(), Some(due), "{what}");
    let mut reading = read_page(&with(page(&monitor()), 2, &[0xFF; 8])).unwrap();
    let before = *reading.as_bytes();
    assert_eq!(reading.read(bytes), Err(due), "{what}");
    assert_eq!(*reading.as_bytes(), before, "{what}");
}

#[test]
fn other_lengths_are_turned_away() {
    for length in [0, 1, 511, 513, 4_096] {
        assert_turned_away(&vec![0; length], Refusal::ReadLength, "a page of zeros");
    }
}

#[test]
fn other_versions_and_guids_are_turned_away() {
    for place in VERSION..PAGE_LENGTH {
        let mut page = page(&Monitor::new());
        page[place] ^= 0x80;
        assert_turned_away(&page, Refusal::ReadIdentity, "a byte of version or GUID");
        page[1] = 1;
        assert_turned_away(&page, Refusal::ReadIdentity, "before the layout");
    }
}

#[test]
fn other_layouts_are_turned_away() {
    let (new, full) = (page(&Monitor::new()), page(&monitor()));
    let clock_above = CLOCK_LIMIT_MS.to_le_bytes();
    let cases = [
        ("bit 1 of byte 0", with(full, ENABLED, &[3])),
        ("byte 1", with(full, 1, &[1])),
        ("bit 12 of the mode", with(full, MODE + 1, &[0x10])),
        ("byte 31", with(full, 31, &[1])),
        ("a stamp of 2^48", with(full, ACTIVE + STAMP, &clock_above)),
        ("a count without a stamp", with(new, ACTIVE + COUNTER, &[1])),
        ("a stamp unit without a stamp", with(new, STATIC + UNITS, &[1])),
        ("bit 15 of the stamp units", with(full, STATIC + UNITS, &[0, 0x80])),
        ("a debug stamp of 2^48", with(full, DEBUG_STAMP, &clock_above)),
        ("a debug log without a source", with(full, DEBUG_SOURCE, &[0, 0])),
        ("a debug log with two", with(full, DEBUG_SOURCE, &[3, 0])),
        ("a debug log of counter 12", with(full, DEBUG_SOURCE, &[0, 0x10])),
        ("a debug unit of 2", with(full, DEBUG_UNITS, &[2])),
        ("a source without a debug log", with(new, DEBUG_SOURCE, &[1, 0])),
        ("byte 493", with(full, 493, &[1])),
    ];
    for (what, page) in cases {
        assert_turned_away(&page, Refusal::ReadLayout, what);
    }
}

#[test]
fn bytes_that_may_hold_anything() {
    let page = with(with(page(&monitor()), 2, &[9, 8, 7, 6, 5, 4, 3, 2]), 12, &[1]);
    let reading = read_page(&page).unwrap();
    assert_eq!(reading.page.timer, 0x0809);
    assert_eq!(reading.page.settings.timer_threshold, 0x0607);
    assert_eq!(reading.page.settings.thresholds, [5, 4, 3, 2]);
    assert_eq!(reading.page.settings.minimum_window, 1);
}
