//! A record that was kept as bytes, as over a power cycle.

use core::error::Error;
use core::fmt::{Display, Formatter, Result as Written};
use core::mem::offset_of;

use crate::sys::{DebugLog, Record, Settings, Window, COUNTERS};
use crate::{CLOCK_LIMIT_MS, INCREMENT_MS, KINDS, RECORD_LENGTH, UNSET};

/// A bit for each counter.
const ALL_COUNTERS: u16 = (1 << COUNTERS) - 1;

/// The bytes are no record that calls leave.
#[derive(Clone, Copy, Debug, PartialEq, Eq)]
pub struct DamagedRecord;

impl Display for DamagedRecord {
    fn fmt(&self, f: &mut Formatter) -> Written {
        f.write_str("the bytes are no record that a monitor's calls leave")
    }
}

impl Error for DamagedRecord {}

/// The record that the bytes are.
pub(crate) fn record(bytes: &[u8; RECORD_LENGTH]) -> Result<Record, DamagedRecord> {
    if flags().any(|place| bytes[place] > 1) {
        return Err(DamagedRecord);
    }
    // SAFETY: each bool is 0 or 1, and every other field is of numbers, which may be any bytes.
    let record: Record = unsafe { bytes.as_ptr().cast::<Record>().read_unaligned() };
    if left_by_calls(&record) {
        Ok(record)
    } else {
        Err(DamagedRecord)
    }
}

/// The places of the bools.
fn flags() -> impl Iterator<Item = usize> {
    let single =
        [offset_of!(Record, settings.enabled), offset_of!(Record, host_set), offset_of!(Record, debug.stamp_units)];
    let units = [offset_of!(Record, static_window.stamp_units), offset_of!(Record, active_window.stamp_units)];
    single.into_iter().chain(units.into_iter().flat_map(|first| first..first + COUNTERS))
}

/// What holds after any history of calls. Once a monitor was enabled, a count below threshold A may be any number.
fn left_by_calls(record: &Record) -> bool {
    settings(&record.settings)
        && times(record)
        && debug_log(&record.debug)
        && window(&record.static_window)
        && window(&record.active_window)
        && loads(record)
        && (record.settings.timer_threshold > 0 || never_enabled(record))
}

/// Settings are zero as a new monitor's, or were accepted.
fn settings(settings: &Settings) -> bool {
    let Settings { timer_threshold, mode, trigger, thresholds, minimum_window, enabled } = *settings;
    if timer_threshold == 0 {
        return (mode, trigger, thresholds, minimum_window, enabled) == (0, 0, [0; 4], 0, false);
    }
    mode <= ALL_COUNTERS && trigger <= ALL_COUNTERS && thresholds.is_sorted()
}

/// While enabled the timer is below its threshold; later settings with enable 0 may bring a smaller one.
fn times(record: &Record) -> bool {
    let timer_runs = !record.settings.enabled || record.timer < record.settings.timer_threshold;
    timer_runs && record.partial_ms < INCREMENT_MS && record.clock_ms < CLOCK_LIMIT_MS
}

fn debug_log(debug: &DebugLog) -> bool {
    if debug.stamp_ms == UNSET {
        return (debug.latency_ms, debug.source, debug.stamp_units) == (0, 0, false);
    }
    debug.stamp_ms < CLOCK_LIMIT_MS && debug.source <= ALL_COUNTERS && debug.source.is_power_of_two()
}

/// A counter's first completion loads its stamp, so that both are set or neither.
fn window(window: &Window) -> bool {
    (0..COUNTERS).all(|n| {
        if window.stamps_ms[n] == UNSET {
            (window.counters[n], window.latencies_ms[n], window.stamp_units[n]) == (0, 0, false)
        } else {
            window.stamps_ms[n] < CLOCK_LIMIT_MS && window.counters[n] > 0
        }
    })
}

/// No load is later than the time in the window.
fn loads(record: &Record) -> bool {
    let now_ms = u64::from(record.timer) * u64::from(INCREMENT_MS) + u64::from(record.partial_ms);
    let latest_ms = |stamp_ms| if stamp_ms == UNSET { 0 } else { now_ms };
    (0..COUNTERS).all(|n| record.loaded_ms[n] <= latest_ms(record.active_window.stamps_ms[n]))
}

/// Until settings are accepted no window has time, and nothing is counted or logged.
fn never_enabled(record: &Record) -> bool {
    let empty = |window: &Window| window.stamps_ms == [UNSET; COUNTERS];
    (record.timer, record.partial_ms) == (0, 0)
        && (record.static_below_a, record.active_below_a) == ([0; KINDS], [0; KINDS])
        && empty(&record.static_window)
        && empty(&record.active_window)
        && record.debug.stamp_ms == UNSET
}
