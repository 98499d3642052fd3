//! The vectors about completions below threshold A.

use crate::events::Events;
use crate::facts::BELOW_A;
use crate::groups::{
    base, breaking, each_counter, each_kind, plain, random_event, start, with_presets, BELOW, DEALLOCATE, KINDS,
    LARGEST, READ, WRITE, WRITE_ZEROES,
};
use crate::history::{Settings, TIMESTAMP_TOP};
use crate::random::Random;
use crate::vectors::EventVector;

pub fn vectors() -> Vec<EventVector> {
    let mut files = edges();
    files.extend(settings());
    files.extend(windows());
    files.extend(mixtures(&mut Random::new(10)));
    let mut vectors: Vec<EventVector> = files.into_iter().map(plain).collect();
    vectors.extend(at_their_top());
    vectors
}

/// What is below A, and of which kind.
fn edges() -> Vec<Events> {
    let mut files = Vec::new();
    for thresholds in [[0, 1, 3, 9], [1, 1, 3, 9], [1, 2, 3, 4], [255, 255, 255, 255]] {
        let settings = Settings { thresholds, ..base() };
        let a = 5_000 * (u32::from(thresholds[0]) + 1);
        files.extend([0, a - 1, a, a + 1].map(|us| each_kind(start(settings), us)));
        files.push([a, 0, a - 1, u32::MAX, a + 1].into_iter().fold(start(settings), each_kind));
    }
    // Each kind alone.
    files.extend(KINDS.map(|kind| start(base()).completion(kind, BELOW)));
    // A count beyond one byte.
    files.push((0..260).fold(start(base()), |f, _| f.completion(WRITE, BELOW)));
    // Mode, minimum window and trigger have no part in it.
    let settings = Settings { mode: LARGEST, minimum_window: 255, debug_trigger: 0x0FFF, ..base() };
    let file = each_kind(start(settings).elapsed(7), BELOW).elapsed(7);
    files.push(file.clone());
    files.push(each_kind(each_counter(file).elapsed(50), 3_000));
    files
}

/// Settings that empty the counts, keep them, or are refused.
fn settings() -> Vec<Events> {
    let enabled = Settings { timer_threshold: 1, ..base() };
    let disabled = Settings { enable: 0, ..enabled };
    // Before any settings, and with those that do not enable.
    let before = each_kind(each_kind(Events::default(), 0), BELOW);
    let mut files = vec![before.clone(), each_kind(start(disabled), BELOW)];
    files.extend([enabled, disabled].map(|settings| before.clone().settings(settings)));
    files.push(each_kind(before.settings(enabled), BELOW));
    files.push(each_kind(each_kind(start(disabled), BELOW).settings(enabled), BELOW));
    // In both windows, with two more Writes in the active one.
    let ended = each_kind(start(enabled), BELOW).elapsed(300_000);
    let both = each_kind(ended, BELOW).completion(WRITE, 0).completion(WRITE, 1);
    files.push(both.clone());
    // Kept and frozen.
    let frozen = each_kind(both.clone().settings(disabled), BELOW).elapsed(300_000).elapsed(300_000);
    files.push(both.clone().settings(disabled));
    files.push(frozen.clone());
    files.push(each_kind(frozen.clone().settings(disabled).elapsed(1).power_up(), BELOW));
    // Emptied, also when nothing changed, and counted anew.
    for file in [both.clone(), frozen] {
        files.push(file.clone().settings(enabled));
        files.push(each_kind(file.clone().settings(enabled).settings(enabled), BELOW));
        files.push(each_kind(file.settings(enabled), BELOW).elapsed(300_000).completion(READ, BELOW));
    }
    // Discard has no part in it.
    for enable in [0, 1] {
        files.push(both.clone().settings(Settings { discard: 1, enable, ..enabled }).completion(READ, BELOW));
    }
    // Refused settings leave the counts, and A too.
    for (row, thresholds) in [[9; 4], [9; 4], [9, 9, 9, 8], [9; 4]].into_iter().enumerate() {
        let refused = Settings { thresholds, ..breaking(std::array::from_fn(|r| r == row), row) };
        files.push(each_kind(both.clone().settings(refused), 5_000).completion(WRITE, BELOW));
    }
    files.extend(other_thresholds(enabled));
    files
}

/// A is that of the settings in force at a completion's place, whatever is accepted later.
fn other_thresholds(enabled: Settings) -> Vec<Events> {
    let higher = Settings { thresholds: [9; 4], ..enabled };
    let file = each_kind(start(enabled), BELOW).completion(READ, 20_000);
    let frozen = file.clone().settings(Settings { enable: 0, ..higher });
    let anew = frozen.clone().settings(higher);
    vec![
        each_kind(frozen, 20_000),
        anew.clone(),
        each_kind(anew.clone(), 20_000).completion(WRITE, 49_999).completion(WRITE, 50_000),
        each_kind(anew, 20_000).settings(enabled).completion(WRITE, 20_000).completion(READ, BELOW),
        each_kind(file.settings(higher), 20_000),
    ]
}

/// The counts move at a window's end; clock and power-up leave them.
fn windows() -> Vec<Events> {
    let mut files = Vec::new();
    for timer_threshold in [1, 3] {
        let settings = Settings { timer_threshold, ..base() };
        let increments = |file: Events, n: u16| (0..n).fold(file, |f, _| f.elapsed(300_000));
        let file = increments(each_kind(start(settings), BELOW), timer_threshold - 1).completion(DEALLOCATE, 0);
        files.push(file.clone().elapsed(299_999).completion(READ, BELOW));
        files.push(file.clone().elapsed(299_999).elapsed(1).completion(READ, BELOW));
        // The static counts are replaced by the next window's, also by none.
        let file = file.elapsed(300_000);
        files.push(file.clone());
        files.push(increments(file.clone(), timer_threshold));
        let file = increments(file.completion(WRITE, BELOW).completion(WRITE, 5_000), timer_threshold);
        files.push(file.clone());
        files.push(each_kind(file.clone(), BELOW));
        files.push(increments(file.clone(), timer_threshold));
        files.push(increments(increments(file, timer_threshold).completion(READ, 9), timer_threshold));
    }
    let short = Settings { timer_threshold: 1, ..base() };
    let both = each_kind(start(short), BELOW).elapsed(300_000).completion(WRITE, BELOW);
    files.push(both.clone().power_up());
    files.push(both.clone().timestamp(TIMESTAMP_TOP));
    files.push(both.clone().timestamp(1 << 48).elapsed(300_001));
    files.push(each_kind(both.clone().timestamp(77).power_up().elapsed(299_999), BELOW));
    files.push(each_kind(both.clone().elapsed(299_999).power_up().timestamp(5).elapsed(1), BELOW));
    // An increment that is full before the elapsed time ends.
    files.push(both.elapsed(200_000).completion(READ, BELOW).elapsed(200_000).completion(DEALLOCATE, BELOW));
    files
}

/// Latencies on both sides of A, in windows that end.
fn mixtures(random: &mut Random) -> Vec<Events> {
    let mut files = Vec::new();
    for n in 0..12 {
        let a = random.pick(&[0, 1, 9, 60, 255]);
        let settings = Settings { timer_threshold: 1 + n % 3, thresholds: [a, a, 255, 255], ..base() };
        let mut file = start(settings);
        for _ in 0..random.from(20, 60) {
            let us = 5_000 * (u32::from(a) + 1) - 3 + random.below(5) as u32;
            file = match random.below(20) {
                0..=14 => file.completion(random.pick(&[READ, READ, WRITE, DEALLOCATE, WRITE_ZEROES]), us),
                15..=17 => file.elapsed(random.pick(&[100_000, 299_999, 300_000])),
                18 => file.settings(Settings { enable: u8::from(random.chance(70)), ..settings }),
                _ => random_event(random, file),
            };
        }
        files.push(file);
    }
    files
}

fn at_their_top() -> Vec<EventVector> {
    let top = u32::MAX;
    let mut vectors = Vec::new();
    let mut add = |file: Events, presets: &[(usize, u32, u32)]| vectors.push(with_presets(file, presets));
    let short = Settings { timer_threshold: 1, ..base() };
    for (kind, command) in KINDS.into_iter().enumerate() {
        let count = BELOW_A + kind;
        for value in [top - 1, top] {
            // It goes on up to its top, and the others beside it.
            let file = each_counter(each_kind(start(short), BELOW));
            add(file.clone(), &[(count, value, 7)]);
            add(each_kind(file.clone(), BELOW), &[(count, value, 7)]);
            // Moved at the window's end, and the next window starts from zero.
            let file = file.completion(command, 0).elapsed(300_000);
            add(file.clone(), &[(count, value, 7)]);
            add(file.completion(command, BELOW).completion(command, BELOW), &[(count, value, 7), (count, value, 22)]);
        }
        // Enabling settings empty it, others keep it.
        for enable in [0, 1] {
            let file = start(short).completion(command, BELOW).settings(Settings { enable, ..short });
            add(file.completion(command, BELOW), &[(count, top, 2)]);
        }
    }
    // With all twelve counters.
    let all: Vec<(usize, u32, u32)> = (0..BELOW_A + 3).map(|n| (n, top - n as u32 % 2, 19)).collect();
    let file = each_counter(each_kind(start(short), BELOW)).elapsed(9);
    add(each_counter(each_kind(file.clone(), BELOW)), &all);
    add(file.elapsed(299_991), &all);
    vectors
}
