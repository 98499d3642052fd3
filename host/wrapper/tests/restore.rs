//! Records that were kept as bytes.

use latency_monitor::{
    offsets, opcodes, Command, DamagedRecord, ElapsedAnswer, Monitor, CLOCK_LIMIT_MS, INCREMENT_MS, PAGE_LENGTH,
    RECORD_LENGTH, SETTINGS_LENGTH,
};

/// The bytes of a record, as include/latency_monitor.h lays it out.
const TIMER_THRESHOLD: usize = 0;
const MODE: usize = 2;
const TRIGGER: usize = 4;
const THRESHOLDS: usize = 6;
const MINIMUM_WINDOW: usize = 10;
const ENABLED: usize = 11;
const TIMER: usize = 12;
const HOST_SET: usize = 14;
const PARTIAL: usize = 16;
const STATIC_BELOW_A: usize = 20;
const ACTIVE_BELOW_A: usize = 32;
const CLOCK: usize = 48;
const LOADED: usize = 56;
const DEBUG: usize = 152;
const STATIC: usize = 168;
const ACTIVE: usize = 352;

/// Within a window.
const STAMPS: usize = 48;
const LATENCIES: usize = 144;
const UNITS: usize = 168;
/// Within a debug log.
const DEBUG_LATENCY: usize = 8;
const DEBUG_SOURCE: usize = 10;
const DEBUG_UNITS: usize = 12;

const READ: Command = Command { opcode: opcodes::READ, deallocate: false, latency_us: 7_500 };
/// Below threshold A.
const WRITE: Command = Command { opcode: opcodes::WRITE, deallocate: false, latency_us: 300 };

fn settings() -> [u8; SETTINGS_LENGTH] {
    let mut settings = [0; SETTINGS_LENGTH];
    settings[offsets::TIMER_THRESHOLD] = 2;
    settings[offsets::THRESHOLDS..][..4].copy_from_slice(&[0, 1, 3, 9]);
    settings[offsets::TRIGGER] = 1;
    settings[offsets::ENABLE] = 1;
    settings
}

/// Counter 0 and a Write below A counted once in each window, with a debug log, 250 s into the second increment of the
/// active window.
fn monitor() -> Monitor {
    let mut monitor = Monitor::new();
    monitor.configure(&settings()).unwrap();
    monitor.elapsed(INCREMENT_MS).unwrap();
    monitor.completion(READ);
    monitor.completion(WRITE);
    assert_eq!(monitor.elapsed(INCREMENT_MS), Ok(ElapsedAnswer::Ended));
    monitor.elapsed(INCREMENT_MS).unwrap();
    monitor.completion(READ);
    monitor.completion(WRITE);
    monitor.elapsed(250_000).unwrap();
    monitor
}

fn page(monitor: &Monitor) -> [u8; PAGE_LENGTH] {
    let mut page = [0; PAGE_LENGTH];
    monitor.page(&mut page).unwrap();
    page
}

/// What becomes of the monitor's bytes with these stored at a place.
fn with(place: usize, bytes: &[u8]) -> Result<Monitor, DamagedRecord> {
    changed(&monitor(), place, bytes)
}

fn changed(monitor: &Monitor, place: usize, bytes: &[u8]) -> Result<Monitor, DamagedRecord> {
    let mut kept = *monitor.as_bytes();
    kept[place..place + bytes.len()].copy_from_slice(bytes);
    Monitor::restore(&kept)
}

#[test]
fn a_kept_record_comes_back() {
    let mut settings = settings();
    settings[offsets::TIMER_THRESHOLD] = 1;
    settings[offsets::ENABLE] = 0;
    let mut frozen_above_its_threshold = monitor();
    frozen_above_its_threshold.configure(&settings).unwrap();

    for monitor in [Monitor::new(), monitor(), frozen_above_its_threshold] {
        let restored = Monitor::restore(monitor.as_bytes()).unwrap();
        assert_eq!(restored.as_bytes(), monitor.as_bytes());
        assert_eq!(page(&restored), page(&monitor));
    }
}

#[test]
fn power_up_keeps_all_but_the_clock() {
    let mut monitor = monitor();
    monitor.set_clock(1_000_000).unwrap();
    let mut restored = Monitor::restore(monitor.as_bytes()).unwrap();
    restored.power_up().unwrap();
    assert_eq!((restored.record().clock_ms, restored.record().host_set), (0, false));
    assert_eq!(page(&restored), page(&monitor));
    assert_eq!(restored.active_below_a(), monitor.active_below_a());
    assert_eq!(restored.static_below_a(), monitor.static_below_a());
}

#[test]
fn a_bool_is_0_or_1() {
    let single = [ENABLED, HOST_SET, DEBUG + DEBUG_UNITS];
    let units = [STATIC + UNITS, ACTIVE + UNITS].into_iter().flat_map(|first| first..first + 12);
    for place in single.into_iter().chain(units) {
        for byte in [2, 3, 0x80, 0xFF] {
            assert_eq!(with(place, &[byte]).err(), Some(DamagedRecord), "byte {place}: {byte}");
        }
    }
}

#[test]
fn no_call_leaves_these() {
    let clock_above = CLOCK_LIMIT_MS.to_le_bytes();
    let cases: [(&str, usize, &[u8]); 20] = [
        ("a timer threshold of 0", TIMER_THRESHOLD, &[0, 0]),
        ("bit 12 of the mode", MODE, &[0, 0x10]),
        ("bit 15 of the trigger", TRIGGER, &[0, 0x80]),
        ("A above B", THRESHOLDS, &[2, 1, 3, 9]),
        ("C above D", THRESHOLDS, &[0, 1, 3, 2]),
        ("the timer at its threshold", TIMER, &[2, 0]),
        ("a partial of 300,000", PARTIAL, &INCREMENT_MS.to_le_bytes()),
        ("a clock of 2^48", CLOCK, &clock_above),
        ("a load after now", LOADED, &550_001u64.to_le_bytes()),
        ("a load without a stamp", LOADED + 8, &[1]),
        ("a debug log without a source", DEBUG + DEBUG_SOURCE, &[0, 0]),
        ("a debug log with two", DEBUG + DEBUG_SOURCE, &[3, 0]),
        ("a debug log of counter 12", DEBUG + DEBUG_SOURCE, &[0, 0x10]),
        ("a debug stamp of 2^48", DEBUG, &clock_above),
        ("a debug latency without a stamp", DEBUG, &[0xFF; DEBUG_LATENCY]),
        ("a stamp without a count", ACTIVE, &[0; 4]),
        ("a count without a stamp", STATIC + 4, &[1, 0, 0, 0]),
        ("a latency without a stamp", STATIC + LATENCIES + 2, &[1, 0]),
        ("a stamp unit without a stamp", ACTIVE + UNITS + 1, &[1]),
        ("a stamp of 2^48", ACTIVE + STAMPS, &clock_above),
    ];
    for (what, place, bytes) in cases {
        assert_eq!(with(place, bytes).err(), Some(DamagedRecord), "{what}");
    }
}

#[test]
fn without_a_timer_threshold_no_settings_were_accepted() {
    for place in [MODE, TRIGGER, THRESHOLDS + 3, MINIMUM_WINDOW, ENABLED] {
        assert_eq!(changed(&Monitor::new(), place, &[1]).err(), Some(DamagedRecord), "byte {place}");
    }
}

#[test]
fn before_settings_are_accepted_nothing_is_counted() {
    let used = monitor();
    let parts = [
        ("a timer", TIMER, 2),
        ("a partial increment", PARTIAL, 4),
        ("static counts below A", STATIC_BELOW_A, 12),
        ("active counts below A", ACTIVE_BELOW_A, 12),
        ("a debug log", DEBUG, 16),
        ("a static window", STATIC, 184),
        ("an active window", ACTIVE, 184),
    ];
    for (what, place, length) in parts {
        let part = &used.as_bytes()[place..place + length];
        let damaged = changed(&Monitor::new(), place, part);
        assert_eq!(damaged.err(), Some(DamagedRecord), "{what}");
    }
}

#[test]
fn the_last_that_calls_leave() {
    let cases: [(&str, usize, &[u8]); 8] = [
        ("mode largest for all", MODE, &[0xFF, 0x0F]),
        ("every trigger", TRIGGER, &[0xFF, 0x0F]),
        ("equal thresholds", THRESHOLDS, &[9; 4]),
        ("a partial of 299,999", PARTIAL, &(INCREMENT_MS - 1).to_le_bytes()),
        ("every count below A at its top", STATIC_BELOW_A, &[0xFF; 24]),
        ("a clock of 2^48 - 1", CLOCK, &(CLOCK_LIMIT_MS - 1).to_le_bytes()),
        ("a load just now", LOADED, &550_000u64.to_le_bytes()),
        ("a debug log of counter 11", DEBUG + DEBUG_SOURCE, &[0, 0x08]),
    ];
    for (what, place, bytes) in cases {
        assert!(with(place, bytes).is_ok(), "{what}");
    }
}

#[test]
fn zeroed_bytes_are_no_new_monitor() {
    assert_eq!(Monitor::restore(&[0; RECORD_LENGTH]).err(), Some(DamagedRecord));
}
