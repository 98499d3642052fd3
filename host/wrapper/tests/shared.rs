//! Calls that only read a monitor, on one record at the same time.

use std::sync::Barrier;
use std::thread;

use latency_monitor::{offsets, opcodes, BelowA, Command, Monitor, Reason, INCREMENT_MS, PAGE_LENGTH, SETTINGS_LENGTH};

const THREADS: usize = 4;
const ROUNDS: usize = 10_000;
const READ: Command = Command { opcode: opcodes::READ, deallocate: false, latency_us: 7_500 };

/// A Read in each window, and one below threshold A in the active one.
fn monitor() -> Monitor {
    let mut settings = [0; SETTINGS_LENGTH];
    settings[offsets::TIMER_THRESHOLD] = 1;
    settings[offsets::ENABLE] = 1;
    let mut monitor = Monitor::new();
    monitor.configure(&settings).unwrap();
    monitor.completion(READ);
    monitor.elapsed(INCREMENT_MS).unwrap();
    monitor.completion(READ);
    monitor.completion(Command { latency_us: 300, ..READ });
    monitor
}

type Shown = ([u8; PAGE_LENGTH], [u8; SETTINGS_LENGTH], [BelowA; 2], Option<Reason>);

/// What each of the calls gives.
fn shown(monitor: &Monitor) -> Shown {
    let (mut page, mut settings) = ([0; PAGE_LENGTH], [0; SETTINGS_LENGTH]);
    monitor.page(&mut page).unwrap();
    monitor.settings_back(&mut settings).unwrap();
    (page, settings, [monitor.active_below_a(), monitor.static_below_a()], monitor.reason(READ))
}

#[test]
fn calls_that_only_read() {
    let (monitor, start) = (monitor(), Barrier::new(THREADS));
    let (due, before) = (shown(&monitor), *monitor.as_bytes());
    thread::scope(|scope| {
        for _ in 0..THREADS {
            scope.spawn(|| {
                start.wait();
                (0..ROUNDS).for_each(|_| assert!(shown(&monitor) == due));
            });
        }
    });
    assert_eq!(*monitor.as_bytes(), before);
}
