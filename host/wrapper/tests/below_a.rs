//! The counts below threshold A.

use latency_monitor::{
    offsets, opcodes, BelowA, Command, CompletionAnswer, ElapsedAnswer, Monitor, Refusal, CLOCK_LIMIT_MS, INCREMENT_MS,
    KINDS, PAGE_LENGTH, SETTINGS_LENGTH,
};

/// The first latency that is not below A.
const A_US: u32 = 5_000;
/// Just below A.
const READ: Command = Command { opcode: opcodes::READ, deallocate: false, latency_us: A_US - 1 };
const WRITE: Command = Command { opcode: opcodes::WRITE, ..READ };
const DEALLOCATE: Command = Command { opcode: opcodes::DATASET_MANAGEMENT, deallocate: true, ..READ };
const OF_EACH_KIND: [Command; KINDS] = [READ, WRITE, DEALLOCATE];
/// A window's length.
const WINDOW_MS: u32 = INCREMENT_MS;
/// Where a record has the counts of the active window.
const ACTIVE_BELOW_A: usize = 32;

fn settings(enable: u8) -> [u8; SETTINGS_LENGTH] {
    let mut settings = [0; SETTINGS_LENGTH];
    settings[offsets::TIMER_THRESHOLD] = 1;
    settings[offsets::THRESHOLDS..][..4].copy_from_slice(&[0, 1, 3, 9]);
    settings[offsets::MODE..][..2].copy_from_slice(&[0xFF, 0x0F]);
    settings[offsets::TRIGGER..][..2].copy_from_slice(&[0xFF, 0x0F]);
    settings[offsets::ENABLE] = enable;
    settings
}

fn enabled() -> Monitor {
    let mut monitor = Monitor::new();
    monitor.configure(&settings(1)).unwrap();
    monitor
}

/// So many Reads, Writes and Deallocates just below A.
fn complete_below_a(monitor: &mut Monitor, counts: [u32; KINDS]) {
    for (command, times) in OF_EACH_KIND.into_iter().zip(counts) {
        for _ in 0..times {
            assert_eq!(monitor.completion(command), CompletionAnswer::NotCounted);
        }
    }
}

fn end_window(monitor: &mut Monitor) {
    assert_eq!(monitor.elapsed(WINDOW_MS), Ok(ElapsedAnswer::Ended));
}

/// 1, 2 and 3 completions below A in the static window, and 6, 5 and 4 in the active one.
fn in_both_windows() -> Monitor {
    let mut monitor = enabled();
    complete_below_a(&mut monitor, [1, 2, 3]);
    end_window(&mut monitor);
    complete_below_a(&mut monitor, [6, 5, 4]);
    monitor
}

/// The counts by both calls, in either order, and in the record, which the calls leave.
fn assert_counts(monitor: &Monitor, active: [u32; KINDS], ended: [u32; KINDS]) {
    let before = *monitor.as_bytes();
    let due = [active, ended].map(|[read, write, deallocate]| BelowA { read, write, deallocate });
    assert_eq!([monitor.active_below_a(), monitor.static_below_a()], due);
    let [finished_first, then_active] = [monitor.static_below_a(), monitor.active_below_a()];
    assert_eq!([then_active, finished_first], due);
    assert_eq!([monitor.record().active_below_a, monitor.record().static_below_a], [active, ended]);
    assert_eq!(*monitor.as_bytes(), before);
}

fn page(monitor: &Monitor) -> [u8; PAGE_LENGTH] {
    let mut page = [0; PAGE_LENGTH];
    monitor.page(&mut page).unwrap();
    page
}

#[test]
fn by_kind_and_window() {
    assert_counts(&in_both_windows(), [6, 5, 4], [1, 2, 3]);
}

#[test]
fn both_sides_of_a() {
    for (kind, command) in OF_EACH_KIND.into_iter().enumerate() {
        let mut monitor = enabled();
        assert_eq!(monitor.completion(Command { latency_us: 0, ..command }), CompletionAnswer::NotCounted);
        assert_eq!(monitor.completion(command), CompletionAnswer::NotCounted);
        let counted = CompletionAnswer::Counted { counter: kind, loaded: true, debug: true };
        assert_eq!(monitor.completion(Command { latency_us: A_US, ..command }), counted);
        let mut due = [0; 3];
        due[kind] = 2;
        assert_counts(&monitor, due, [0; 3]);
    }
}

#[test]
fn only_while_enabled() {
    let mut monitor = Monitor::new();
    complete_below_a(&mut monitor, [1, 1, 1]);
    assert_counts(&monitor, [0; 3], [0; 3]);
    monitor.configure(&settings(0)).unwrap();
    complete_below_a(&mut monitor, [1, 1, 1]);
    assert_counts(&monitor, [0; 3], [0; 3]);
}

#[test]
fn a_window_takes_its_counts_along() {
    let mut monitor = in_both_windows();
    monitor.elapsed(WINDOW_MS - 1).unwrap();
    assert_counts(&monitor, [6, 5, 4], [1, 2, 3]);
    assert_eq!(monitor.elapsed(1), Ok(ElapsedAnswer::Ended));
    assert_counts(&monitor, [0; 3], [6, 5, 4]);
    end_window(&mut monitor);
    assert_counts(&monitor, [0; 3], [0; 3]);
}

#[test]
fn settings_with_enable_0_keep_them() {
    let mut monitor = in_both_windows();
    monitor.configure(&settings(0)).unwrap();
    complete_below_a(&mut monitor, [1, 1, 1]);
    assert_eq!(monitor.elapsed(WINDOW_MS), Ok(ElapsedAnswer::Active));
    monitor.configure(&settings(0)).unwrap();
    assert_counts(&monitor, [6, 5, 4], [1, 2, 3]);
}

#[test]
fn settings_with_enable_1_empty_them() {
    let mut frozen = in_both_windows();
    frozen.configure(&settings(0)).unwrap();
    for mut monitor in [in_both_windows(), frozen] {
        monitor.configure(&settings(1)).unwrap();
        assert_counts(&monitor, [0; 3], [0; 3]);
        complete_below_a(&mut monitor, [0, 0, 1]);
        assert_counts(&monitor, [0, 0, 1], [0; 3]);
    }
}

#[test]
fn other_calls_leave_them() {
    let mut monitor = in_both_windows();
    monitor.set_clock(1 << 40).unwrap();
    monitor.power_up().unwrap();
    assert_eq!(monitor.set_clock(CLOCK_LIMIT_MS), Err(Refusal::ClockValue));
    assert_eq!(monitor.elapsed(WINDOW_MS + 1), Err(Refusal::ElapsedTime));
    assert_eq!(monitor.configure(&settings(2)), Err(Refusal::FlagAboveOne));
    monitor.completion(Command { latency_us: A_US, ..WRITE });
    monitor.settings_back(&mut [0; SETTINGS_LENGTH]).unwrap();
    page(&monitor);
    assert_counts(&monitor, [6, 5, 4], [1, 2, 3]);
    monitor.reset();
    assert_counts(&monitor, [0; 3], [0; 3]);
}

#[test]
fn no_page_shows_them() {
    let mut without = enabled();
    end_window(&mut without);
    assert_eq!(page(&in_both_windows()), page(&without));
}

#[test]
fn held_at_their_top() {
    for kind in 0..KINDS {
        let mut bytes = *in_both_windows().as_bytes();
        bytes[ACTIVE_BELOW_A + 4 * kind..][..4].copy_from_slice(&(u32::MAX - 1).to_ne_bytes());
        let mut monitor = Monitor::restore(&bytes).unwrap();
        let mut due = [6, 5, 4];
        for more in 1..=3 {
            complete_below_a(&mut monitor, [1, 1, 1]);
            due = [6 + more, 5 + more, 4 + more];
            due[kind] = u32::MAX;
            assert_counts(&monitor, due, [1, 2, 3]);
        }
        end_window(&mut monitor);
        assert_counts(&monitor, [0; 3], due);
    }
}
