//! One call on the library, held to what the reference says of it.

use std::fmt::Debug;
use std::ops::Range;

use latency_monitor::{
    read_page, BelowA, Command, CompletionAnswer, DamagedRecord, DebugLog, ElapsedAnswer, Monitor, Reading, Reason,
    Record, Refusal, Settings as Held, Window, UNSET,
};
use reference::answers::Answer;
use reference::facts::{clock, window_time, Facts, WindowFacts, NO_STAMP};
use reference::history::{Call, Command as Completed, Settings, Window as Asked, INCREMENT_MS, PAGE_LENGTH};
use reference::page::page_bytes;
use reference::{reading, reasons};

use crate::lent::{difference, Lent};

/// Where the header has the record's bools.
const BOOLS: [Range<usize>; 5] = [11..12, 14..15, 164..165, 336..348, 520..532];
/// And the counts below A of the active window.
const ACTIVE_BELOW_A: Range<usize> = 32..44;

/// Makes a call, and compares its answer, the buffer that it was lent, and the record if the call must leave it. A
/// completion that is not counted must leave all but the counts below A.
pub fn call(monitor: &mut Monitor, call: &Call, due: Answer, facts: &Facts, salt: u8) -> Result<(), String> {
    let mut record = *monitor.as_bytes();
    if due == Answer::NotCounted {
        let counts = facts.active_below_a.map(u32::to_ne_bytes);
        record[ACTIVE_BELOW_A].copy_from_slice(counts.as_flattened());
    }
    let mut lent = match call {
        Call::Settings(bytes) => Lent::holding(bytes, salt),
        Call::Page(length) | Call::SettingsBack(length) => Lent::patterned(*length, salt),
        _ => Lent::patterned(0, salt),
    };
    same("answer", answer(monitor, call, lent.slice()), due)?;
    lent.check(content(call, due, facts).as_deref())?;
    let leaves = matches!(due, Answer::Refused(_) | Answer::NotCounted | Answer::BelowA(_));
    if leaves || matches!(call, Call::Page(_) | Call::SettingsBack(_)) {
        left(&record, monitor)?;
    }
    Ok(())
}

/// Asks why a completion would not load its stamp after a history. Compares the reason, which is 0 exactly if the
/// completion would load it, and the record, which must be left. Gives the reason, and whether the completion meets a
/// stamp that is set.
pub fn reason(monitor: &Monitor, history: &[Call], asked: Completed, latency_us: u32) -> Result<(u8, bool), String> {
    let record = *monitor.as_bytes();
    let command = Command { opcode: asked.opcode, deallocate: asked.deallocate, latency_us };
    let number = monitor.reason(command).map_or(0, Reason::number);
    left(&record, monitor)?;
    same("reason", number, reasons::reason(history, asked, latency_us))?;
    let (loaded, stamp_set) = match monitor.clone().completion(command) {
        CompletionAnswer::NotCounted => (false, false),
        CompletionAnswer::Counted { counter, loaded, .. } => {
            (loaded, monitor.record().active_window.stamps_ms[counter] != UNSET)
        }
    };
    same("whether its stamp is loaded", loaded, number == 0)?;
    Ok((number, stamp_set))
}

/// Reads bytes into fields that are lent, and compares the answer and the fields, whose bytes must be left if the page
/// is turned away. Gives the answer's number.
pub fn read(lent: &mut Reading, bytes: &[u8]) -> Result<u8, String> {
    let before = *lent.as_bytes();
    let answer = lent.read(bytes).map_or_else(Refusal::number, |()| 0);
    match reading::read_page(bytes) {
        Ok(facts) => {
            same("answer", answer, 0)?;
            shown(lent, &facts)?;
        }
        Err(number) => {
            same("answer", answer, number)?;
            same_bytes("reading", lent.as_bytes(), &before)?;
        }
    }
    Ok(answer)
}

/// The record has these bytes.
pub fn left(due: &[u8], monitor: &Monitor) -> Result<(), String> {
    same_bytes("record", monitor.as_bytes(), due)
}

fn same_bytes(what: &str, is: &[u8], due: &[u8]) -> Result<(), String> {
    match difference(is, due) {
        None => Ok(()),
        Some(place) => Err(format!("byte {place} of the {what} is {:02X}, not {:02X}", is[place], due[place])),
    }
}

fn same<T: Debug + PartialEq>(what: &str, is: T, due: T) -> Result<(), String> {
    if is == due {
        Ok(())
    } else {
        Err(format!("{what}: {is:?}, not {due:?}"))
    }
}

fn answer(monitor: &mut Monitor, call: &Call, lent: &mut [u8]) -> Answer {
    match *call {
        Call::Settings(_) => done(monitor.configure(lent)),
        Call::Completion { command: Completed { opcode, deallocate }, latency_us } => {
            match monitor.completion(Command { opcode, deallocate, latency_us }) {
                CompletionAnswer::NotCounted => Answer::NotCounted,
                CompletionAnswer::Counted { counter, loaded, debug } => Answer::Counted { counter, loaded, debug },
            }
        }
        Call::Elapsed(ms) => match monitor.elapsed(ms) {
            Ok(answer) => Answer::Elapsed { ended: answer == ElapsedAnswer::Ended },
            Err(refusal) => Answer::Refused(refusal.number()),
        },
        Call::Timestamp(value) => done(monitor.set_clock(value)),
        Call::PowerUp => done(monitor.power_up()),
        Call::Page(_) => done(monitor.page(lent)),
        Call::SettingsBack(_) => done(monitor.settings_back(lent)),
        Call::BelowA(Asked::Active) => below_a(monitor.active_below_a()),
        Call::BelowA(Asked::Static) => below_a(monitor.static_below_a()),
        Call::Preset { .. } => unreachable!("no call of the library"),
    }
}

fn done(answer: Result<(), Refusal>) -> Answer {
    match answer {
        Ok(()) => Answer::Done,
        Err(refusal) => Answer::Refused(refusal.number()),
    }
}

fn below_a(answer: BelowA) -> Answer {
    let BelowA { read, write, deallocate } = answer;
    Answer::BelowA([read, write, deallocate])
}

/// What a lent buffer holds after the call, if not its pattern.
fn content(call: &Call, due: Answer, facts: &Facts) -> Option<Vec<u8>> {
    match call {
        Call::Settings(bytes) => Some(bytes.clone()),
        Call::Page(_) if due == Answer::Done => Some(page_bytes(facts).to_vec()),
        Call::SettingsBack(_) if due == Answer::Done => Some(Settings { discard: 0, ..facts.settings }.to_buffer()),
        _ => None,
    }
}

/// The record's bytes are a monitor with the same page, and none with a bool that is neither 0 nor 1.
pub fn restored(monitor: &Monitor, facts: &Facts) -> Result<(), String> {
    let restored = Monitor::restore(monitor.as_bytes()).map_err(|refusal| refusal.to_string())?;
    left(monitor.as_bytes(), &restored)?;
    let mut page = [0; PAGE_LENGTH];
    same("page", restored.page(&mut page), Ok(()))?;
    same("page", page, page_bytes(facts))?;
    for place in BOOLS.into_iter().flatten() {
        let mut damaged = *monitor.as_bytes();
        damaged[place] = 2;
        same("a bool of 2", Monitor::restore(&damaged).err(), Some(DamagedRecord))
            .map_err(|difference| format!("byte {place}: {difference}"))?;
    }
    Ok(())
}

/// The monitor's page is read as the facts behind it.
pub fn read_back(monitor: &Monitor, facts: &Facts) -> Result<(), String> {
    let mut page = [0; PAGE_LENGTH];
    same("page", monitor.page(&mut page), Ok(()))?;
    shown(&read_page(&page).map_err(|refusal| refusal.to_string())?, facts)
}

/// A reading's fields.
fn shown(reading: &Reading, facts: &Facts) -> Result<(), String> {
    let page = &reading.page;
    settings(&page.settings, facts)?;
    same("timer", page.timer, facts.timer)?;
    window("static window", &page.static_window, &facts.static_window)?;
    window("active window", &page.active_window, &facts.active_window)?;
    debug_log(&page.debug, facts)?;
    let due = facts.debug_log.map_or((false, 0), |(counter, _)| (true, counter));
    same("debug_held and debug_counter", (reading.debug_held, usize::from(reading.debug_counter)), due)
}

/// The record's fields, read where the header has them.
pub fn fields(record: &Record, history: &[Call], facts: &Facts) -> Result<(), String> {
    settings(&record.settings, facts)?;
    same("timer", record.timer, facts.timer)?;
    let time = window_time(history, history.len()).map_or(0, |(_, time)| time);
    same("partial_ms", u64::from(record.partial_ms), time % INCREMENT_MS)?;
    same("static_below_a", record.static_below_a, facts.static_below_a)?;
    same("active_below_a", record.active_below_a, facts.active_below_a)?;
    same("clock_ms and host_set", (record.clock_ms, record.host_set), clock(history))?;
    window("static window", &record.static_window, &facts.static_window)?;
    window("active window", &record.active_window, &facts.active_window)?;
    debug_log(&record.debug, facts)
}

/// The settings in force, which have no discard.
fn settings(held: &Held, facts: &Facts) -> Result<(), String> {
    let in_force = Settings {
        timer_threshold: held.timer_threshold,
        thresholds: held.thresholds,
        mode: held.mode,
        minimum_window: held.minimum_window,
        debug_trigger: held.trigger,
        discard: facts.settings.discard,
        enable: u8::from(held.enabled),
    };
    same("settings", in_force, facts.settings)
}

fn window(what: &str, window: &Window, facts: &WindowFacts) -> Result<(), String> {
    for (n, due) in facts.iter().enumerate() {
        let (stamp, latency, units) =
            due.latest_load.map_or((NO_STAMP, 0, false), |load| (load.stamp, load.measured_latency, load.stamp_unit));
        let is = (window.counters[n], window.stamps_ms[n], window.latencies_ms[n], window.stamp_units[n]);
        same(what, is, (due.count, stamp, latency, units))
            .map_err(|difference| format!("counter {n} of the {difference}"))?;
    }
    Ok(())
}

fn debug_log(debug: &DebugLog, facts: &Facts) -> Result<(), String> {
    let due = facts.debug_log.map_or((NO_STAMP, 0, 0, false), |(counter, event)| {
        (event.stamp, event.measured_latency, 1 << counter, event.stamp_unit)
    });
    same("debug log", (debug.stamp_ms, debug.latency_ms, debug.source, debug.stamp_units), due)
}
