//! Which commands are Reads, Writes and Deallocates, in the counters and in the counts below threshold A.

use latency_monitor::{kinds, offsets, opcodes, Command, CompletionAnswer, Monitor, COUNTERS, KINDS, SETTINGS_LENGTH};

/// The first latency that is not below A.
const A_US: u32 = 5_000;

/// The kind's number, by document 02, Ticket 4.
fn kind(command: Command) -> Option<usize> {
    match (command.opcode, command.deallocate) {
        (opcodes::READ, _) => Some(kinds::READ),
        (opcodes::WRITE, _) => Some(kinds::WRITE),
        (opcodes::DATASET_MANAGEMENT | opcodes::WRITE_ZEROES, true) => Some(kinds::DEALLOCATE),
        _ => None,
    }
}

/// Every opcode, without the deallocate attribute or bit and with it.
fn commands(latency_us: u32) -> impl Iterator<Item = Command> {
    (0..=0xFF).flat_map(move |opcode| [false, true].map(|deallocate| Command { opcode, deallocate, latency_us }))
}

fn enabled() -> Monitor {
    let mut settings = [0; SETTINGS_LENGTH];
    settings[offsets::TIMER_THRESHOLD] = 1;
    settings[offsets::THRESHOLDS..][..4].copy_from_slice(&[0, 1, 3, 9]);
    settings[offsets::TRIGGER..][..2].copy_from_slice(&[0xFF, 0x0F]);
    settings[offsets::ENABLE] = 1;
    let mut monitor = Monitor::new();
    monitor.configure(&settings).unwrap();
    monitor
}

/// The counter that an enabled monitor answers, and its counters and counts below A after the command.
fn counted(command: Command) -> (Option<usize>, [u32; COUNTERS], [u32; KINDS]) {
    let mut monitor = enabled();
    let counter = match monitor.completion(command) {
        CompletionAnswer::NotCounted => None,
        CompletionAnswer::Counted { counter, .. } => Some(counter),
    };
    let record = monitor.record();
    (counter, record.active_window.counters, record.active_below_a)
}

/// One at the place, if there is one, and zeros.
fn one<const N: usize>(place: Option<usize>) -> [u32; N] {
    std::array::from_fn(|n| u32::from(Some(n) == place))
}

#[test]
fn slow() {
    for command in commands(A_US) {
        let kind = kind(command);
        assert_eq!(counted(command), (kind, one(kind), [0; KINDS]), "{command:?}");
    }
}

#[test]
fn below_a() {
    for command in commands(A_US - 1) {
        assert_eq!(counted(command), (None, [0; COUNTERS], one(kind(command))), "{command:?}");
    }
}

#[test]
fn what_is_of_no_kind_leaves_the_record() {
    let mut monitor = enabled();
    let before = *monitor.as_bytes();
    let all = [0, A_US - 1, A_US, u32::MAX].into_iter().flat_map(commands);
    for command in all.filter(|&command| kind(command).is_none()) {
        assert_eq!(monitor.completion(command), CompletionAnswer::NotCounted, "{command:?}");
        assert_eq!(*monitor.as_bytes(), before, "{command:?}");
    }
}
