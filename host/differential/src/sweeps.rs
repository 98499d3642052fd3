//! Histories that try one thing at each of its values.

use reference::history::{Call, Command, Settings};

use crate::calls::{reached, OF_A_KIND};

/// Longer than any buffer that a call accepts.
const LONGEST: usize = 4_200;

pub fn histories() -> impl Iterator<Item = Vec<Call>> {
    lengths().chain(settings()).chain(completions()).chain(minimum_windows())
}

/// Document 01's settings, with every trigger.
fn base() -> Settings {
    Settings { timer_threshold: 2, thresholds: [0, 1, 3, 9], debug_trigger: 0x0FFF, enable: 1, ..Settings::default() }
}

/// The base settings with one byte changed.
fn with(place: usize, byte: u8) -> Vec<Call> {
    let mut bytes = base().to_buffer();
    bytes[place] = byte;
    vec![Call::Settings(bytes)]
}

fn lengths() -> impl Iterator<Item = Vec<Call>> {
    (0..LONGEST).map(|length| {
        let mut bytes = base().to_buffer();
        bytes.resize(length, 0);
        vec![Call::Page(length), Call::SettingsBack(length), Call::Settings(bytes)]
    })
}

/// Each value of each named byte, and each reserved byte.
fn settings() -> impl Iterator<Item = Vec<Call>> {
    let named = (0..13).flat_map(|place| (0..=0xFF).map(move |byte| with(place, byte)));
    named.chain((13..4_096).map(|place| with(place, 1)))
}

/// Each opcode without the deallocate attribute and with it, slow and below A, and both sides of each threshold for
/// each command of a kind.
fn completions() -> impl Iterator<Item = Vec<Call>> {
    let commands = (0..=0xFF).flat_map(|opcode| [false, true].map(|deallocate| Command { opcode, deallocate }));
    let thresholds = (0..=0xFF).flat_map(|v| {
        let settings = Settings { thresholds: [v; 4], ..base() };
        OF_A_KIND.map(|command| completed(settings, command, [reached(v) - 1, reached(v)]))
    });
    commands.map(|command| completed(base(), command, [50_000, 0])).chain(thresholds)
}

/// Settings, and completions of a command.
fn completed(settings: Settings, command: Command, latencies: [u32; 2]) -> Vec<Call> {
    let mut calls = vec![Call::Settings(settings.to_buffer())];
    calls.extend(latencies.map(|latency_us| Call::Completion { command, latency_us }));
    calls
}

/// Each minimum window for each command of a kind, in mode largest.
fn minimum_windows() -> impl Iterator<Item = Vec<Call>> {
    (0..=0xFF).flat_map(|minimum_window| {
        let settings = Settings { mode: 0x0FFF, minimum_window, ..base() };
        OF_A_KIND.map(|command| around_the_end(settings, command))
    })
}

/// A load, and completions that are not larger and larger by 1 ms, 1 ms before the minimum window is over and then.
fn around_the_end(settings: Settings, command: Command) -> Vec<Call> {
    let over = 100 * u32::from(settings.minimum_window);
    let completion = |latency_us| Call::Completion { command, latency_us };
    vec![
        Call::Settings(settings.to_buffer()),
        completion(7_000),
        Call::Elapsed(over.saturating_sub(1)),
        completion(7_000),
        completion(8_000),
        Call::Elapsed(over.min(1)),
        completion(7_000),
        completion(8_000),
    ]
}
