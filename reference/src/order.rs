//! The vectors about the order of completions: event files that differ in it alone.

use crate::events::{Events, RECORD};
use crate::groups::{
    base, each_counter, each_kind, start, with_presets, BELOW, DATASET_MANAGEMENT, DEALLOCATE, LARGEST, READ, WRITE,
    WRITE_ZEROES_DEAC,
};
use crate::history::{Command, Settings, TIMESTAMP_TOP};
use crate::random::Random;
use crate::vectors::EventVector;

/// A command and its latency.
pub(crate) type Timed = (Command, u32);

/// Mode largest for all counters, and no minimum window.
fn largest() -> Settings {
    Settings { mode: LARGEST, minimum_window: 0, ..base() }
}

/// Two Reads, of 5 and of 6 ms, in both orders. The order matters with mode first for their counter, with a minimum
/// window of 1, and with time between the two; and with a debug log trigger, since the log goes to the first.
pub fn different() -> Vec<[Events; 2]> {
    let two = |settings, between: Events| {
        [[5_000, 6_000], [6_000, 5_000]].map(|[first, second]| {
            start(settings).timestamp(77).completion(READ, first).raw(&between.0).completion(READ, second)
        })
    };
    let nothing = Events::default;
    vec![
        two(Settings { mode: LARGEST & !1, ..largest() }, nothing()),
        two(Settings { minimum_window: 1, ..largest() }, nothing()),
        two(largest(), nothing().elapsed(1)),
        two(Settings { debug_trigger: 1, ..largest() }, nothing()),
    ]
}

/// Completions as they are, reversed and shuffled, with mode largest and no minimum window; and what follows them. The
/// debug log, where one is taken, was taken before them.
pub fn alike() -> Vec<[EventVector; 3]> {
    let random = &mut Random::new(14);
    let mut vectors = Vec::new();
    for (file, near_top) in records() {
        let completions = random_completions(random);
        let reversed = completions.iter().rev().copied().collect();
        let shuffled = shuffled(random, &completions);
        let first = (file.0.len() / RECORD) as u32;
        let presets: Vec<_> = near_top.iter().map(|&counter| (counter, u32::MAX - 1, first)).collect();
        vectors.push([completions, reversed, shuffled].map(|order| {
            let played = order.into_iter().fold(file.clone(), |f, (command, us)| f.completion(command, us));
            with_presets(each_counter(played.elapsed(299_950)), &presets)
        }));
    }
    vectors
}

/// Events that leave records with mode largest and no minimum window, and the counters that are then set near their
/// top.
fn records() -> [(Events, &'static [usize]); 7] {
    let short = Settings { timer_threshold: 1, ..largest() };
    let earlier = each_kind(each_counter(start(short).elapsed(30)), BELOW);
    [
        (start(largest()), &[]),
        (start(largest()).timestamp(TIMESTAMP_TOP), &[]),
        (earlier.clone().timestamp(77), &[]),
        (earlier.clone().timestamp(77).power_up().elapsed(40), &[]),
        (earlier.clone().elapsed(299_970), &[]),
        (each_counter(start(Settings { debug_trigger: LARGEST, ..largest() })).elapsed(50), &[]),
        // The Reads of the lowest bucket, and the Writes below A.
        (earlier, &[0, 13]),
    ]
}

/// Two completions of each command below A, and two in each bucket: of every kind, and of none.
pub(crate) fn random_completions(random: &mut Random) -> Vec<Timed> {
    let mut completions = Vec::new();
    for command in [READ, WRITE, DEALLOCATE, WRITE_ZEROES_DEAC, DATASET_MANAGEMENT] {
        for least in [3_000, 5_000, 10_000, 20_000, 50_000] {
            completions.extend([(); 2].map(|_| (command, least + random.below(2_000) as u32)));
        }
    }
    completions
}

pub(crate) fn shuffled(random: &mut Random, completions: &[Timed]) -> Vec<Timed> {
    let mut order = completions.to_vec();
    for last in (1..order.len()).rev() {
        order.swap(last, random.below(last as u64 + 1) as usize);
    }
    order
}
