//! Why a completion would not load its latency stamp.

use latency_monitor::{
    offsets, opcodes, Command, CompletionAnswer, ElapsedAnswer, Monitor, Reason, INCREMENT_MS, SETTINGS_LENGTH,
};

/// In bucket 0 of these thresholds, 7 ms.
const READ: Command = Command { opcode: opcodes::READ, deallocate: false, latency_us: 7_000 };
const SLOWER: Command = Command { latency_us: 8_000, ..READ };
const BELOW_A: Command = Command { latency_us: 4_999, ..READ };
const OTHER: Command = Command { opcode: opcodes::DATASET_MANAGEMENT, ..READ };
/// In units of 100 ms.
const MINIMUM_WINDOW: u8 = 3;
const FIRST: u16 = 0;
const LARGEST: u16 = 0x0FFF;

/// A window has two increments.
fn settings(mode: u16, enable: u8) -> [u8; SETTINGS_LENGTH] {
    let mut settings = [0; SETTINGS_LENGTH];
    settings[offsets::TIMER_THRESHOLD] = 2;
    settings[offsets::THRESHOLDS..][..4].copy_from_slice(&[0, 1, 3, 9]);
    settings[offsets::MODE..][..2].copy_from_slice(&mode.to_le_bytes());
    settings[offsets::MINIMUM_WINDOW] = MINIMUM_WINDOW;
    settings[offsets::ENABLE] = enable;
    settings
}

fn enabled(mode: u16) -> Monitor {
    let mut monitor = Monitor::new();
    monitor.configure(&settings(mode, 1)).unwrap();
    monitor
}

/// A Read of 7 ms has loaded counter 0's stamp.
fn stamped(mode: u16) -> Monitor {
    let mut monitor = enabled(mode);
    monitor.completion(READ);
    monitor
}

/// The reason, which leaves the record, and is none exactly if the completion would load its stamp.
fn assert_reason(monitor: &Monitor, command: Command, due: Option<Reason>) {
    let before = *monitor.as_bytes();
    assert_eq!(monitor.reason(command), due, "{command:?}");
    assert_eq!(*monitor.as_bytes(), before);
    let answer = monitor.clone().completion(command);
    let loaded = matches!(answer, CompletionAnswer::Counted { loaded: true, .. });
    assert_eq!(loaded, due.is_none(), "{command:?}");
}

#[test]
fn disabled_comes_before_all_others() {
    let mut frozen = stamped(LARGEST);
    frozen.configure(&settings(LARGEST, 0)).unwrap();
    for monitor in [Monitor::new(), frozen] {
        for command in [READ, SLOWER, BELOW_A, OTHER] {
            assert_reason(&monitor, command, Some(Reason::Disabled));
        }
    }
}

#[test]
fn opcode_and_attribute() {
    let monitor = enabled(FIRST);
    for latency_us in [0, 7_000] {
        for (opcode, deallocate) in [(0x09, false), (0x08, false), (0x00, true), (0xFF, false)] {
            assert_reason(&monitor, Command { opcode, deallocate, latency_us }, Some(Reason::OfNoKind));
        }
    }
    for (opcode, deallocate) in [(0x02, true), (0x01, false), (0x09, true), (0x08, true)] {
        assert_reason(&monitor, Command { opcode, deallocate, latency_us: 7_000 }, None);
    }
}

#[test]
fn both_sides_of_a() {
    for monitor in [enabled(FIRST), stamped(FIRST), stamped(LARGEST)] {
        assert_reason(&monitor, BELOW_A, Some(Reason::BelowA));
    }
    assert_reason(&enabled(FIRST), Command { latency_us: 5_000, ..READ }, None);
}

#[test]
fn mode_first_with_a_stamp_set() {
    let mut monitor = stamped(FIRST);
    monitor.elapsed(INCREMENT_MS).unwrap();
    monitor.elapsed(INCREMENT_MS - 1).unwrap();
    for command in [READ, SLOWER, Command { latency_us: 9_999, ..READ }] {
        assert_reason(&monitor, command, Some(Reason::ModeFirst));
    }
    assert_eq!(monitor.elapsed(1), Ok(ElapsedAnswer::Ended));
    assert_reason(&monitor, READ, None);
}

#[test]
fn not_larger_comes_before_the_minimum_window() {
    let mut monitor = stamped(LARGEST);
    for elapsed_ms in [0, INCREMENT_MS] {
        monitor.elapsed(elapsed_ms).unwrap();
        for latency_us in [5_000, 7_000, 7_999] {
            assert_reason(&monitor, Command { latency_us, ..READ }, Some(Reason::NotLarger));
        }
    }
}

#[test]
fn both_ends_of_the_minimum_window() {
    let mut monitor = stamped(LARGEST);
    assert_reason(&monitor, SLOWER, Some(Reason::MinimumWindow));
    monitor.elapsed(100 * u32::from(MINIMUM_WINDOW) - 1).unwrap();
    assert_reason(&monitor, SLOWER, Some(Reason::MinimumWindow));
    monitor.elapsed(1).unwrap();
    assert_reason(&monitor, SLOWER, None);
}

#[test]
fn the_minimum_window_goes_on_over_an_increment() {
    let mut monitor = enabled(LARGEST);
    monitor.elapsed(INCREMENT_MS - 1).unwrap();
    monitor.completion(READ);
    monitor.elapsed(100 * u32::from(MINIMUM_WINDOW) - 1).unwrap();
    assert_reason(&monitor, SLOWER, Some(Reason::MinimumWindow));
    monitor.elapsed(1).unwrap();
    assert_reason(&monitor, SLOWER, None);
}

#[test]
fn clock_and_power_up_leave_the_minimum_window() {
    let mut monitor = stamped(LARGEST);
    monitor.set_clock(1 << 40).unwrap();
    assert_reason(&monitor, SLOWER, Some(Reason::MinimumWindow));
    monitor.elapsed(100 * u32::from(MINIMUM_WINDOW)).unwrap();
    monitor.power_up().unwrap();
    assert_reason(&monitor, SLOWER, None);
}

#[test]
fn each_counter_has_a_stamp_and_a_mode_of_its_own() {
    let write = Command { opcode: opcodes::WRITE, ..SLOWER };
    let mut monitor = stamped(1);
    assert_reason(&monitor, SLOWER, Some(Reason::MinimumWindow));
    assert_reason(&monitor, Command { latency_us: 10_000, ..READ }, None);
    assert_reason(&monitor, write, None);
    monitor.completion(write);
    assert_reason(&monitor, SLOWER, Some(Reason::MinimumWindow));
    assert_reason(&monitor, write, Some(Reason::ModeFirst));
}

#[test]
fn a_latency_is_held_at_its_top() {
    let mut monitor = enabled(LARGEST);
    monitor.completion(Command { latency_us: 65_535_000, ..READ });
    assert_reason(&monitor, Command { latency_us: u32::MAX, ..READ }, Some(Reason::NotLarger));
}
