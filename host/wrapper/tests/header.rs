//! The wrapper's constants, kinds, opcodes, refusals, reasons and layouts are the header's.

use std::mem::offset_of;

use latency_monitor::{
    kinds, offsets, opcodes, BelowA, Command, DebugLog, LogPage, Reading, Reason, Record, Refusal, Settings, Window,
    CLOCK_LIMIT_MS, COUNTERS, INCREMENT_MS, KINDS, PAGE_LENGTH, READING_LENGTH, RECORD_LENGTH, RECORD_VERSION,
    SETTINGS_LENGTH, UNSET,
};

const HEADER: &str = include_str!("../../../include/latency_monitor.h");

/// A number as the header writes it.
fn number(text: &str) -> Option<u64> {
    let inner = text.strip_prefix("UINT32_C(").or(text.strip_prefix("UINT64_C("));
    let text = inner.and_then(|text| text.strip_suffix(')')).unwrap_or(text);
    match text.strip_prefix("0x") {
        Some(digits) => u64::from_str_radix(digits, 16).ok(),
        None => text.parse().ok(),
    }
}

/// The numbers that the header defines, with their names.
fn defined() -> Vec<(&'static str, u64)> {
    let named = |line: &'static str| -> Option<(&'static str, u64)> {
        let (name, rest) = line.strip_prefix("#define LATENCY_MONITOR_")?.split_once(' ')?;
        Some((name, number(rest.split(' ').next()?)?))
    };
    HEADER.lines().filter_map(named).collect()
}

#[test]
fn constants() {
    let due = [
        ("KINDS", KINDS as u64),
        ("COUNTERS", COUNTERS as u64),
        ("INCREMENT_MS", INCREMENT_MS.into()),
        ("CLOCK_LIMIT_MS", CLOCK_LIMIT_MS),
        ("UNSET", UNSET),
        ("SETTINGS_LENGTH", SETTINGS_LENGTH as u64),
        ("PAGE_LENGTH", PAGE_LENGTH as u64),
        ("SETTINGS_TIMER_THRESHOLD", offsets::TIMER_THRESHOLD as u64),
        ("SETTINGS_THRESHOLDS", offsets::THRESHOLDS as u64),
        ("SETTINGS_MODE", offsets::MODE as u64),
        ("SETTINGS_MINIMUM_WINDOW", offsets::MINIMUM_WINDOW as u64),
        ("SETTINGS_TRIGGER", offsets::TRIGGER as u64),
        ("SETTINGS_DISCARD", offsets::DISCARD as u64),
        ("SETTINGS_ENABLE", offsets::ENABLE as u64),
        ("RECORD_VERSION", RECORD_VERSION.into()),
    ];
    assert_eq!(defined(), due);
}

/// The names and numbers of an enum of the header.
fn listed(name: &str) -> Vec<(&'static str, u64)> {
    let (_, list) = HEADER.split_once(&format!("enum latency_monitor_{name} {{\n")).expect("the list");
    let (list, _) = list.split_once("};").expect("its end");
    let named = |line: &'static str| -> Option<(&'static str, u64)> {
        let (name, rest) = line.trim().strip_prefix("LATENCY_MONITOR_")?.split_once(" = ")?;
        Some((name, number(rest.split([',', ' ']).next()?)?))
    };
    list.lines().map(|line| named(line).expect(line)).collect()
}

#[test]
fn kinds_by_number() {
    let due = [("KIND_READ", kinds::READ), ("KIND_WRITE", kinds::WRITE), ("KIND_DEALLOCATE", kinds::DEALLOCATE)];
    assert_eq!(listed("kind"), due.map(|(name, kind)| (name, kind as u64)));
}

#[test]
fn opcodes_by_name() {
    let due = [
        ("OPCODE_READ", opcodes::READ),
        ("OPCODE_WRITE", opcodes::WRITE),
        ("OPCODE_DATASET_MANAGEMENT", opcodes::DATASET_MANAGEMENT),
        ("OPCODE_WRITE_ZEROES", opcodes::WRITE_ZEROES),
    ];
    assert_eq!(listed("opcode"), due.map(|(name, opcode)| (name, u64::from(opcode))));
}

#[test]
fn refusals() {
    let refusals = [
        ("REFUSED_SETTINGS_LENGTH", Refusal::SettingsLength),
        ("REFUSED_RESERVED_BYTE", Refusal::ReservedByte),
        ("REFUSED_FLAG_ABOVE_ONE", Refusal::FlagAboveOne),
        ("REFUSED_NO_TIMER_THRESHOLD", Refusal::NoTimerThreshold),
        ("REFUSED_THRESHOLD_ORDER", Refusal::ThresholdOrder),
        ("REFUSED_RESERVED_BIT", Refusal::ReservedBit),
        ("REFUSED_ELAPSED_TIME", Refusal::ElapsedTime),
        ("REFUSED_CLOCK_VALUE", Refusal::ClockValue),
        ("REFUSED_PAGE_LENGTH", Refusal::PageLength),
        ("REFUSED_SETTINGS_BACK_LENGTH", Refusal::SettingsBackLength),
        ("REFUSED_READ_LENGTH", Refusal::ReadLength),
        ("REFUSED_READ_IDENTITY", Refusal::ReadIdentity),
        ("REFUSED_READ_LAYOUT", Refusal::ReadLayout),
    ];
    let mut due = vec![("ACCEPTED", 0)];
    due.extend(refusals.map(|(name, refusal)| (name, u64::from(refusal.number()))));
    assert_eq!(listed("refusal"), due);
}

#[test]
fn reasons() {
    let reasons = [
        ("REASON_DISABLED", Reason::Disabled),
        ("REASON_OF_NO_KIND", Reason::OfNoKind),
        ("REASON_BELOW_A", Reason::BelowA),
        ("REASON_MODE_FIRST", Reason::ModeFirst),
        ("REASON_NOT_LARGER", Reason::NotLarger),
        ("REASON_MINIMUM_WINDOW", Reason::MinimumWindow),
    ];
    let mut due = vec![("REASON_NONE", 0)];
    due.extend(reasons.map(|(name, reason)| (name, u64::from(reason.number()))));
    assert_eq!(listed("reason_number"), due);
}

fn assert_held(line: &str) {
    assert!(HEADER.lines().any(|held| held == line), "{line}");
}

#[test]
fn sizes() {
    let sizes = [
        ("", RECORD_LENGTH),
        ("_reading", READING_LENGTH),
        ("_command", size_of::<Command>()),
        ("_below_a", size_of::<BelowA>()),
    ];
    for (name, size) in sizes {
        assert_held(&format!("LATENCY_MONITOR_SIZE(latency_monitor{name}, {size});"));
    }
}

#[test]
fn places() {
    macro_rules! places {
        ($type:ident, $name:literal, [$($field:ident),*]) => {
            $(assert_held(&format!(
                "LATENCY_MONITOR_AT({}, {}, {});", $name, stringify!($field), offset_of!($type, $field)
            ));)*
        };
    }
    places!(Settings, "latency_monitor_settings", [timer_threshold, mode, trigger, thresholds, minimum_window]);
    places!(Settings, "latency_monitor_settings", [enabled]);
    places!(Window, "latency_monitor_window", [counters, stamps_ms, latencies_ms, stamp_units]);
    places!(DebugLog, "latency_monitor_debug_log", [stamp_ms, latency_ms, source, stamp_units]);
    places!(Record, "latency_monitor", [settings, timer, host_set, partial_ms, static_below_a, active_below_a]);
    places!(Record, "latency_monitor", [clock_ms, loaded_ms, debug, static_window, active_window]);
    places!(LogPage, "latency_monitor_log_page", [settings, timer, active_window, static_window, debug]);
    places!(Reading, "latency_monitor_reading", [page, debug_held, debug_counter]);
    places!(Command, "latency_monitor_command", [latency_us, opcode, deallocate]);
    places!(BelowA, "latency_monitor_below_a", [read, write, deallocate]);
}
