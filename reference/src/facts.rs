//! The facts of a history, each asked of the history itself. A place is the number of calls before it.

use crate::history::{
    accepted_clock, accepted_elapsed, accepted_settings, Call, Command, Settings, Window, INCREMENT_MS, TIMESTAMP_TOP,
};

/// Counters: 3 x bucket + kind, where the kind is Read 0, Write 1 or Deallocate 2.
pub const COUNTERS: usize = 12;
/// A preset's counter number for the count below A of kind 0. Those of the other kinds follow.
pub const BELOW_A: usize = COUNTERS;
/// A latency stamp that is not valid.
pub const NO_STAMP: u64 = u64::MAX;

/// What a latency stamp records of a completion.
#[derive(Clone, Copy, Debug, PartialEq)]
pub struct Event {
    pub measured_latency: u16,
    pub stamp: u64,
    pub stamp_unit: bool,
}

/// What stands in an event's place where there is none.
pub(crate) const NO_EVENT: Event = Event { measured_latency: 0, stamp: NO_STAMP, stamp_unit: false };

/// A completion of a kind.
#[derive(Clone, Copy, Debug)]
pub(crate) struct Completion {
    pub(crate) place: usize,
    pub(crate) kind: usize,
    /// The counter that counts it; below A there is none.
    pub(crate) counter: Option<usize>,
    measured_latency: u16,
    /// In force at its place.
    settings: Settings,
}

impl Completion {
    pub(crate) fn largest(&self) -> bool {
        self.counter.is_some_and(|counter| bit(self.settings.mode, counter))
    }

    /// Whether it shows more than a load before it.
    pub(crate) fn larger(&self, load: &Completion) -> bool {
        self.measured_latency > load.measured_latency
    }

    /// Whether it is at least the minimum window after a load, by elapsed time.
    pub(crate) fn after_minimum_window(&self, history: &[Call], load: &Completion) -> bool {
        time(&history[load.place..self.place]) >= 100 * u64::from(self.settings.minimum_window)
    }

    fn triggers(&self) -> bool {
        self.counter.is_some_and(|counter| bit(self.settings.debug_trigger, counter))
    }

    /// What a latency stamp records of it.
    fn event(&self, history: &[Call]) -> Event {
        let (stamp, stamp_unit) = clock(&history[..self.place]);
        Event { measured_latency: self.measured_latency, stamp, stamp_unit }
    }
}

/// What one counter of a window shows.
#[derive(Clone, Copy, Debug, PartialEq)]
pub struct CounterFacts {
    pub count: u32,
    pub latest_load: Option<Event>,
}

/// What a window shows, by counter number.
pub type WindowFacts = [CounterFacts; COUNTERS];

/// A window's counts below A, by kind.
pub type BelowA = [u32; 3];

/// All that the page and the settings given back show, and the counts below A.
#[derive(Debug, PartialEq)]
pub struct Facts {
    pub settings: Settings,
    pub timer: u16,
    pub active_window: WindowFacts,
    pub static_window: WindowFacts,
    pub debug_log: Option<(usize, Event)>,
    pub active_below_a: BelowA,
    pub static_below_a: BelowA,
}

/// The facts at the end of a history.
pub fn facts(history: &[Call]) -> Facts {
    let completions = all_completions(history);
    let [active, ended] = [Window::Active, Window::Static].map(|window| number_of(history, window));
    let window = |number: Option<u64>| -> WindowFacts {
        std::array::from_fn(|counter| counter_facts(history, &completions, counter, number))
    };
    Facts {
        settings: in_force(history),
        timer: timer(history),
        active_window: window(active),
        static_window: window(ended),
        debug_log: first_trigger(history, &completions).and_then(|c| Some((c.counter?, c.event(history)))),
        active_below_a: below_a(history, &completions, active),
        static_below_a: below_a(history, &completions, ended),
    }
}

/// The settings last accepted, else all zero.
pub fn in_force(before: &[Call]) -> Settings {
    before.iter().rev().find_map(accepted_settings).unwrap_or_default()
}

/// The sum of accepted elapsed times.
fn time(calls: &[Call]) -> u64 {
    calls.iter().map(accepted_elapsed).sum()
}

/// The clock at a place, and whether the host set it.
pub fn clock(before: &[Call]) -> (u64, bool) {
    let latest = before.iter().rposition(|call| accepted_clock(call).is_some());
    let (value, by_host) = latest.and_then(|p| accepted_clock(&before[p])).unwrap_or((0, false));
    let since = &before[latest.map_or(0, |p| p + 1)..];
    (TIMESTAMP_TOP.min(value + time(since)), by_host)
}

/// The place of the latest settings accepted with enable 1.
fn latest_enabling(history: &[Call]) -> Option<usize> {
    history.iter().rposition(|call| accepted_settings(call).is_some_and(|s| s.enabled()))
}

/// The time while enabled from the latest enabling settings to a place after them. No later settings enable, so the
/// first settings accepted after them end it.
fn enabled_time(history: &[Call], enabling: usize, place: usize) -> u64 {
    let after = &history[enabling + 1..place];
    let end = after.iter().position(|call| accepted_settings(call).is_some());
    time(&after[..end.unwrap_or(after.len())])
}

/// The timer threshold of the latest enabling settings, and the time while enabled from them to a place.
pub fn window_time(history: &[Call], place: usize) -> Option<(u64, u64)> {
    let enabling = latest_enabling(history).filter(|&p| p < place)?;
    let settings = accepted_settings(&history[enabling])?;
    Some((u64::from(settings.timer_threshold), enabled_time(history, enabling, place)))
}

/// The number of the window at a place, none before the latest enabling settings.
pub(crate) fn window_number(history: &[Call], place: usize) -> Option<u64> {
    window_time(history, place).map(|(threshold, t)| t / (INCREMENT_MS * threshold))
}

/// The Active Bucket Timer at the history's end.
fn timer(history: &[Call]) -> u16 {
    match window_time(history, history.len()) {
        Some((threshold, t)) => {
            let n = t / (INCREMENT_MS * threshold);
            u16::try_from(t / INCREMENT_MS - n * threshold).expect("below the timer threshold")
        }
        None => 0,
    }
}

/// The kind that a command counts as. Dataset Management and Write Zeroes must deallocate.
pub(crate) fn kind(command: Command) -> Option<usize> {
    match (command.opcode, command.deallocate) {
        (0x02, _) => Some(0),
        (0x01, _) => Some(1),
        (0x09 | 0x08, true) => Some(2),
        _ => None,
    }
}

/// The highest bucket whose threshold a latency reaches.
pub(crate) fn bucket(thresholds: [u8; 4], latency_us: u32) -> Option<usize> {
    (0..4).rev().find(|&b| u64::from(latency_us) >= 5_000 * (u64::from(thresholds[b]) + 1))
}

fn bit(mask: u16, n: usize) -> bool {
    mask >> n & 1 == 1
}

/// The enabled completions of a kind, in order.
pub(crate) fn all_completions(history: &[Call]) -> Vec<Completion> {
    (0..history.len()).filter_map(|place| completion(history, place)).collect()
}

/// The call at a place as an enabled completion of a kind, if it is one.
fn completion(history: &[Call], place: usize) -> Option<Completion> {
    let Call::Completion { command, latency_us } = history[place] else { return None };
    of_kind(&history[..place], command, latency_us).filter(|c| c.settings.enabled())
}

/// What completes after a history as a completion of a kind, if it has one, by the settings in force there.
pub(crate) fn of_kind(before: &[Call], command: Command, latency_us: u32) -> Option<Completion> {
    let kind = kind(command)?;
    let settings = in_force(before);
    Some(Completion {
        place: before.len(),
        kind,
        counter: bucket(settings.thresholds, latency_us).map(|bucket| 3 * bucket + kind),
        measured_latency: u16::try_from(latency_us / 1_000).unwrap_or(u16::MAX),
        settings,
    })
}

/// The number of a history's active or static window, if there is one.
pub(crate) fn number_of(history: &[Call], window: Window) -> Option<u64> {
    let active = window_number(history, history.len())?;
    match window {
        Window::Active => Some(active),
        Window::Static => active.checked_sub(1),
    }
}

/// Whether a place is in the window with this number; without a number the window is empty.
pub(crate) fn is_in(history: &[Call], place: usize, number: Option<u64>) -> bool {
    number.is_some() && window_number(history, place) == number
}

/// The completions that a counter counts in the window with this number.
pub(crate) fn counted<'a>(
    history: &[Call],
    completions: &'a [Completion],
    counter: usize,
    number: Option<u64>,
) -> Vec<&'a Completion> {
    completions.iter().filter(|c| c.counter == Some(counter) && is_in(history, c.place, number)).collect()
}

/// One counter of the window with this number.
fn counter_facts(history: &[Call], completions: &[Completion], counter: usize, number: Option<u64>) -> CounterFacts {
    let counted = counted(history, completions, counter, number);
    CounterFacts {
        count: count(history, &counted, counter, number),
        latest_load: latest_load(history, &counted).map(|c| c.event(history)),
    }
}

/// The counts below A of the window with this number.
pub(crate) fn below_a(history: &[Call], completions: &[Completion], number: Option<u64>) -> BelowA {
    std::array::from_fn(|kind| {
        let below = |c: &&Completion| c.counter.is_none() && c.kind == kind && is_in(history, c.place, number);
        let below: Vec<&Completion> = completions.iter().filter(below).collect();
        count(history, &below, BELOW_A + kind, number)
    })
}

/// How many these completions of a window are, held at the top. A preset in the window stands for all before it.
fn count(history: &[Call], completions: &[&Completion], preset: usize, number: Option<u64>) -> u32 {
    let preset = (0..history.len()).rev().find_map(|place| match history[place] {
        Call::Preset { counter, value } if counter == preset && is_in(history, place, number) => Some((place, value)),
        _ => None,
    });
    let (from, start) = preset.unwrap_or((0, 0));
    let more = completions.iter().filter(|c| c.place >= from).count() as u64;
    u32::try_from(u64::from(start) + more).unwrap_or(u32::MAX)
}

/// The last load among a counter's completions in a window.
pub(crate) fn latest_load<'a>(history: &[Call], completions: &[&'a Completion]) -> Option<&'a Completion> {
    completions.iter().fold(None, |load, &c| if loads(history, c, load) { Some(c) } else { load })
}

/// The first completion loads, and in mode largest each that shows more than the last load before it, at least the
/// minimum window after it.
fn loads(history: &[Call], completion: &Completion, last_load: Option<&Completion>) -> bool {
    match last_load {
        None => true,
        Some(load) => completion.largest() && completion.larger(load) && completion.after_minimum_window(history, load),
    }
}

/// The first trigger since the debug log was last discarded.
pub(crate) fn first_trigger<'a>(history: &[Call], completions: &'a [Completion]) -> Option<&'a Completion> {
    let discard = history.iter().rposition(|c| accepted_settings(c).is_some_and(|s| s.discard == 1));
    let since = discard.map_or(0, |p| p + 1);
    completions.iter().find(|c| c.place >= since && c.triggers())
}
