//! The vectors, group by group.

use crate::below_a;
use crate::deallocate;
use crate::events::{unnamed, Events, Preset, RECORD};
use crate::history::{Command, Settings, TIMESTAMP_TOP};
use crate::order;
use crate::pages;
use crate::questions;
use crate::random::Random;
use crate::vectors::{EventVector, Group, SettingsVector, Vectors};

pub(crate) const READ: Command = Command { opcode: 0x02, deallocate: false };
pub(crate) const WRITE: Command = Command { opcode: 0x01, deallocate: false };
/// Dataset Management with its deallocate attribute, and without it.
pub(crate) const DEALLOCATE: Command = Command { opcode: 0x09, deallocate: true };
pub(crate) const DATASET_MANAGEMENT: Command = Command { opcode: 0x09, deallocate: false };
/// Write Zeroes with its deallocate bit, and without it.
pub(crate) const WRITE_ZEROES_DEAC: Command = Command { opcode: 0x08, deallocate: true };
pub(crate) const WRITE_ZEROES: Command = Command { opcode: 0x08, deallocate: false };
pub(crate) const KINDS: [Command; 3] = [READ, WRITE, DEALLOCATE];
pub(crate) const LARGEST: u16 = 0x0FFF;
/// A latency just below A, with thresholds 0, 1, 3, 9.
pub(crate) const BELOW: u32 = 4_999;
/// The records that the page program reads at a time.
pub(crate) const BLOCK: usize = 4_096;

pub fn groups() -> Vec<Group> {
    let mut groups = vec![
        events("edges", edges()),
        events("thresholds", thresholds()),
        events("measured latencies", measured_latencies()),
        events("elapsed", elapsed(&mut Random::new(1))),
        events("clocks", clocks()),
        events("minimum window", minimum_window()),
        events("discard and enable", discard_and_enable()),
        events("debug log triggers", debug_triggers()),
        events("left over", left_over(&mut Random::new(2))),
        events("unknown kinds", unknown_kinds(&mut Random::new(3))),
        events("unnamed bytes", unnamed_bytes()),
        events("refusals", refusals()),
        events("beyond one block", beyond_one_block()),
        events("random mixtures", random_mixtures(&mut Random::new(4))),
        events("damaged", all_damaged(&mut Random::new(5))),
        event_vectors("counters at their top", counters_at_their_top()),
        event_vectors("below threshold a", below_a::vectors()),
        events("deallocate attribute", deallocate::files()),
        events("orders with different pages", order::different().concat()),
        event_vectors("orders with one page", order::alike().into_iter().flatten().collect()),
    ];
    groups.extend(questions::groups());
    groups.extend([
        event_vectors("page buffers", page_buffers()),
        event_vectors("back buffers", back_buffers()),
        settings("settings lengths", settings_lengths()),
        settings("settings bytes", settings_bytes()),
        settings("settings fields", settings_fields()),
    ]);
    groups.extend(pages::groups());
    groups
}

fn events(name: &'static str, files: Vec<Events>) -> Group {
    event_vectors(name, files.into_iter().map(plain).collect())
}

fn event_vectors(name: &'static str, vectors: Vec<EventVector>) -> Group {
    Group { name, vectors: Vectors::Events(vectors) }
}

fn settings(name: &'static str, vectors: Vec<SettingsVector>) -> Group {
    Group { name, vectors: Vectors::Settings(vectors) }
}

/// An event file with no presets and with buffers of the right lengths.
pub(crate) fn plain(file: Events) -> EventVector {
    EventVector { file: file.0, presets: vec![], page_buffer: 512, back_buffer: 4096 }
}

/// An event file with presets: for each the counter, its value and the record that it stands before.
pub(crate) fn with_presets(file: Events, presets: &[(usize, u32, u32)]) -> EventVector {
    let preset = |&(counter, value, record): &(usize, u32, u32)| Preset { counter: counter as u8, value, record };
    EventVector { presets: presets.iter().map(preset).collect(), ..plain(file) }
}

/// The settings of the scope paper's example, without its trigger.
pub(crate) fn base() -> Settings {
    Settings { timer_threshold: 2, thresholds: [0, 1, 3, 9], enable: 1, ..Settings::default() }
}

pub(crate) fn start(settings: Settings) -> Events {
    Events::default().settings(settings)
}

/// A command of a counter's kind.
pub(crate) fn command(counter: usize) -> Command {
    KINDS[counter % 3]
}

/// A latency in a counter's bucket, with thresholds 0, 1, 3, 9.
pub(crate) fn latency(counter: usize) -> u32 {
    [5_000, 10_000, 20_000, 50_000][counter / 3]
}

/// A completion for each counter, in the order of their numbers.
pub(crate) fn each_counter(file: Events) -> Events {
    (0..12).fold(file, |f, n| f.completion(command(n), latency(n) + 1_000 * n as u32 / 4))
}

/// Reads once, writes twice and deallocates three times, so that no two kinds have the same count.
pub(crate) fn each_kind(file: Events, us: u32) -> Events {
    let kinds = KINDS.into_iter().enumerate();
    kinds.fold(file, |file, (times, kind)| (0..=times).fold(file, |f, _| f.completion(kind, us)))
}

/// The scope paper's printed example.
pub fn example() -> Events {
    start(Settings { debug_trigger: 1, ..base() }).elapsed(1_000).completion(READ, 7_500)
}

fn edges() -> Vec<Events> {
    let mut files = vec![Events::default(), example()];
    for us in [4_999, 5_000, 9_999, 10_000, 49_999, 50_000, u32::MAX, 7_999] {
        files.push(start(base()).completion(READ, us));
    }
    let equal = Settings { thresholds: [1, 1, 3, 9], ..base() };
    files.push(start(equal).completion(READ, 10_000));
    let one = Settings { timer_threshold: 1, ..base() };
    files.push(start(one).completion(READ, 5_000).elapsed(299_999));
    files.push(start(one).completion(READ, 5_000).elapsed(299_999).elapsed(1));
    for n in 0..12 {
        files.push(start(base()).elapsed(77).completion(command(n), latency(n)));
    }
    files.push(start(Settings { thresholds: [2, 1, 3, 9], ..base() }).completion(READ, 50_000));
    files
}

fn thresholds() -> Vec<Events> {
    let sets = [
        [0, 1, 3, 9],
        [5, 19, 30, 46],
        [0, 0, 0, 0],
        [5, 5, 5, 5],
        [255, 255, 255, 255],
        [0, 0, 1, 1],
        [1, 1, 3, 9],
        [2, 2, 2, 9],
        [0, 4, 4, 255],
        [7, 255, 255, 255],
    ];
    let mut files = Vec::new();
    for thresholds in sets {
        let settings = Settings { thresholds, ..base() };
        let mut latencies = vec![0, 1, u32::MAX];
        for v in thresholds {
            let at = 5_000 * (u32::from(v) + 1);
            latencies.extend([at - 1, at, at + 1]);
        }
        latencies.sort();
        latencies.dedup();
        // One latency a file, so that a wrong bucket shows.
        for &us in &latencies {
            let mut file = start(settings).elapsed(3);
            for opcode in [0x00, 0x03, 0x08, 0x09, 0xFF] {
                file = file.completion(Command { opcode, deallocate: false }, us);
            }
            files.push(each_kind(file, us));
        }
        // And all together.
        let all = latencies.iter().flat_map(|&us| KINDS.map(|k| (k, us)));
        files.push(all.fold(start(settings), |f, (k, us)| f.completion(k, us)));
    }
    files
}

fn measured_latencies() -> Vec<Events> {
    let mut files = Vec::new();
    for us in [50_999, 51_000, 65_534_999, 65_535_000, 65_535_999, 65_536_000, 131_071_999] {
        files.push(start(Settings { debug_trigger: 0x0FFF, ..base() }).completion(WRITE, us));
    }
    // Largest: more, equal, less, and more microseconds in the same millisecond.
    let series: [&[u32]; 8] = [
        &[7_000, 8_000],
        &[7_000, 7_000],
        &[7_000, 7_999],
        &[8_000, 7_000, 9_000],
        &[9_999, 9_000, 9_998],
        &[65_535_000, 65_536_000, u32::MAX],
        &[65_534_999, 65_535_000, u32::MAX],
        &[60_000, 50_000, 61_000, 60_999, 62_000, 62_000],
    ];
    for mode in [0, LARGEST] {
        for latencies in series {
            let mut file = start(Settings { mode, ..base() });
            for &us in latencies {
                for kind in KINDS {
                    file = file.elapsed(10).completion(kind, us);
                }
            }
            files.push(file);
        }
    }
    // Each counter's own bit decides.
    for n in 0..12 {
        let mut file = start(Settings { mode: 1 << n, ..base() });
        for round in 0..3 {
            file = file.elapsed(1);
            file = (0..12).fold(file, |f, c| f.completion(command(c), latency(c) + 1_000 * round));
        }
        files.push(file);
    }
    files
}

fn elapsed(random: &mut Random) -> Vec<Events> {
    let mut files = Vec::new();
    let series: [&[u32]; 16] = [
        &[0],
        &[1],
        &[299_999],
        &[300_000],
        &[300_001],
        &[299_999, 1],
        &[299_999, 0, 1],
        &[1, 299_999],
        &[300_000, 300_000],
        &[300_000, 299_999, 1],
        &[299_999, 2, 299_999],
        &[200_000, 200_000, 200_000],
        &[200_000, 200_000, 200_000, 200_000, 200_000, 200_000],
        &[150_000, 300_000, 150_000, 300_000, 299_999, 1],
        &[300_000, 300_001, u32::MAX, 300_000],
        &[299_999, 299_999, 299_999, 299_999, 299_999, 299_999, 299_999],
    ];
    for timer_threshold in [1, 2, 65_535] {
        for ms in series {
            // After the n-th elapsed time the counters 0 to n are counted, so that each window has its own shape.
            let mut file = start(Settings { timer_threshold, mode: 0x0AAA, ..base() });
            file = file.completion(DEALLOCATE, 60_000);
            for (n, &ms) in ms.iter().enumerate() {
                file = file.elapsed(ms);
                file = (0..=n).fold(file, |f, c| f.completion(command(c), latency(c) + 1_000 * n as u32));
            }
            files.push(file);
        }
    }
    // Windows that end one after another with nothing counted, and long ones.
    for (timer_threshold, times) in [(1, 2), (1, 3), (1, 7), (2, 5), (3, 9), (300, 299), (300, 300), (300, 601)] {
        let mut file = start(Settings { timer_threshold, ..base() }).completion(READ, 6_000);
        for _ in 0..times {
            file = file.elapsed(300_000);
        }
        files.push(file.clone());
        files.push(file.elapsed(299_999).completion(WRITE, 11_000));
    }
    // The timer starts anew with enabling settings, and the part of an increment too.
    for enable in [0, 1] {
        let file = start(Settings { timer_threshold: 1, ..base() })
            .elapsed(200_000)
            .completion(READ, 5_000)
            .settings(Settings { timer_threshold: 1, enable, ..base() })
            .completion(WRITE, 5_000)
            .elapsed(299_999)
            .completion(WRITE, 10_000);
        files.push(file.clone());
        files.push(file.clone().elapsed(1));
        files.push(file.elapsed(1).settings(base()).elapsed(299_999).completion(READ, 5_000));
    }
    // While disabled nothing elapses, also with a timer threshold below the timer.
    let three = Settings { timer_threshold: 3, ..base() };
    let file = start(three).completion(READ, 5_000).elapsed(300_000).elapsed(300_000);
    for timer_threshold in [1, 2, 3, 9] {
        let disabled = Settings { timer_threshold, enable: 0, ..base() };
        files.push(file.clone().settings(disabled).elapsed(300_000).elapsed(300_000));
    }
    files.push(Events::default().elapsed(300_000).elapsed(300_000));
    for _ in 0..24 {
        let timer_threshold = random.from(1, 4) as u16;
        let mut file = start(Settings { timer_threshold, mode: random.below(4096) as u16, ..base() });
        for _ in 0..random.from(4, 30) {
            let ms = random_elapsed(random);
            let counter = random.below(12) as usize;
            file = file.elapsed(ms).completion(command(counter), latency(counter) + random.below(4_000) as u32);
        }
        files.push(file);
    }
    files
}

fn clocks() -> Vec<Events> {
    let mut files = Vec::new();
    let trigger = Settings { debug_trigger: 0x0FFF, mode: LARGEST, timer_threshold: 65_535, ..base() };
    let top = TIMESTAMP_TOP;
    for value in [0, 1, 0x0102_0304_0506, top - 1, top, top + 1, 1 << 63, u64::MAX, u64::MAX - 1] {
        files.push(start(trigger).elapsed(5).timestamp(value).completion(READ, 5_000));
        files.push(Events::default().timestamp(value).settings(trigger).completion(WRITE, 5_000));
        let file = start(trigger).timestamp(value).elapsed(300_000).completion(READ, 5_000);
        files.push(file.clone());
        files.push(file.power_up().completion(WRITE, 5_000).elapsed(7).completion(DEALLOCATE, 5_000));
    }
    // The clock at its top: reached, passed, and stayed at.
    for (value, ms) in
        [(top - 300_000, 299_999), (top - 300_000, 300_000), (top - 299_999, 300_000), (top, 1), (top - 5, 6)]
    {
        let file = start(trigger).timestamp(value).elapsed(ms).completion(READ, 10_000);
        files.push(file.clone());
        files.push(file.elapsed(300_000).elapsed(1).completion(WRITE, 10_000).power_up().completion(READ, 50_000));
    }
    // Not set by the host, set, and set no more.
    files.push(start(trigger).completion(READ, 5_000).elapsed(250).completion(WRITE, 5_000));
    files.push(start(trigger).completion(READ, 5_000).timestamp(9).completion(WRITE, 5_000));
    files.push(start(trigger).timestamp(9).power_up().completion(READ, 5_000));
    files.push(start(trigger).timestamp(9).power_up().timestamp(4).completion(READ, 5_000));
    files.push(start(trigger).power_up().power_up().elapsed(3).completion(READ, 5_000));
    files.push(start(trigger).elapsed(1_000).power_up().elapsed(300_000).completion(READ, 5_000));
    files.push(start(trigger).elapsed(40).timestamp(top + 1).completion(READ, 5_000));
    files.push(start(trigger).timestamp(8).elapsed(300_001).completion(READ, 5_000));
    // Going back, with a load before and after.
    files.push(start(trigger).timestamp(1_000_000).completion(READ, 5_000).timestamp(500).completion(READ, 6_000));
    files.push(start(trigger).timestamp(1_000_000).completion(READ, 6_000).timestamp(500).completion(READ, 5_000));
    // Stamp units differ from counter to counter, and go to the static window.
    for host in 0..12 {
        let mut file = start(Settings { timer_threshold: 1, ..base() }).elapsed(20);
        for n in 0..12 {
            file = if n == host { file.timestamp(1 << 40) } else { file.power_up() };
            file = file.elapsed(1 + n as u32).completion(command(n), latency(n));
        }
        files.push(if host % 2 == 0 { file } else { file.elapsed(300_000).completion(READ, 5_000) });
    }
    // Time and power while disabled.
    let disabled = Settings { enable: 0, ..trigger };
    files.push(Events::default().timestamp(77).elapsed(5).settings(trigger).completion(READ, 5_000));
    files.push(start(disabled).timestamp(77).elapsed(5).settings(trigger).completion(READ, 5_000));
    files.push(start(disabled).timestamp(77).elapsed(5).power_up().settings(trigger).completion(READ, 5_000));
    // Power-up keeps windows, timer and the part of an increment.
    let short = Settings { timer_threshold: 1, ..base() };
    files.push(each_counter(start(short)).elapsed(299_999).power_up().elapsed(1).completion(READ, 5_000));
    files.push(each_counter(start(short)).elapsed(300_000).elapsed(299_999).power_up());
    files
}

fn minimum_window() -> Vec<Events> {
    let mut files = Vec::new();
    for (minimum_window, gaps) in
        [(0, &[0, 1, 99][..]), (1, &[0, 1, 99, 100, 101]), (2, &[199, 200]), (255, &[0, 25_499, 25_500, 25_501])]
    {
        for mode in [0, LARGEST] {
            let settings = Settings { minimum_window, mode, ..base() };
            for &gap in gaps {
                for second in [5_000, 6_000, 7_000] {
                    let file = start(settings).elapsed(50).completion(READ, 6_000);
                    files.push(file.elapsed(gap).completion(READ, second));
                }
            }
        }
    }
    let settings = Settings { minimum_window: 1, mode: LARGEST, ..base() };
    // From the last load, not from the last completion.
    for ms in [49, 50] {
        files.push(
            start(settings)
                .completion(WRITE, 5_000)
                .elapsed(50)
                .completion(WRITE, 6_000)
                .elapsed(ms)
                .completion(WRITE, 7_000),
        );
    }
    // After a load the window starts again; other counters have their own.
    for ms in [99, 100] {
        files.push(
            start(settings)
                .completion(WRITE, 5_000)
                .elapsed(60)
                .completion(READ, 5_000)
                .elapsed(40)
                .completion(WRITE, 6_000)
                .completion(READ, 6_000)
                .elapsed(ms)
                .completion(WRITE, 7_000)
                .completion(READ, 7_000),
        );
    }
    // The host's clock and power-up have no part in it.
    for jump in [0, 10, 1 << 40] {
        for ms in [99, 100] {
            let file = start(settings).timestamp(1 << 30).completion(READ, 5_000).timestamp(jump);
            files.push(file.elapsed(ms).completion(READ, 6_000));
        }
    }
    for ms in [99, 100] {
        let file = start(settings).elapsed(5_000).completion(READ, 5_000).power_up();
        files.push(file.elapsed(ms).completion(READ, 6_000));
        // The clock held at its top: time goes on.
        let file = start(settings).timestamp(TIMESTAMP_TOP).completion(READ, 5_000);
        files.push(file.elapsed(ms).completion(READ, 6_000));
        // Refused calls take no time.
        let file = start(settings).completion(READ, 5_000).elapsed(300_001).timestamp(1 << 48);
        files.push(file.elapsed(ms).completion(READ, 6_000));
        // Many short times.
        let file = start(settings).completion(READ, 5_000);
        files.push((0..ms).fold(file, |f, _| f.elapsed(1)).completion(READ, 6_000));
    }
    // A new window loads at once, and measures from that load.
    let short = Settings { timer_threshold: 1, minimum_window: 255, ..settings };
    let file = start(short).elapsed(299_990).completion(READ, 9_000).elapsed(10).completion(READ, 5_000);
    files.push(file.clone());
    files.push(file.clone().elapsed(25_499).completion(READ, 6_000));
    files.push(file.clone().elapsed(25_500).completion(READ, 6_000));
    // So do enabling settings, which may change the minimum window; disabled time does not count.
    files.push(file.clone().settings(short).completion(READ, 5_000));
    files.push(file.settings(Settings { enable: 0, ..short }).elapsed(300_000).completion(READ, 9_000));
    files
}

fn discard_and_enable() -> Vec<Events> {
    let mut files = Vec::new();
    let choices = [(0, 0), (0, 1), (1, 0), (1, 1)];
    // Three settings in every combination, with completions, time and a trigger before and after each.
    for first in choices {
        for second in choices {
            for third in choices {
                let mut file = Events::default().completion(READ, 5_000).elapsed(11);
                for (round, (discard, enable)) in [first, second, third].into_iter().enumerate() {
                    let debug_trigger = 0x0007 << (3 * round);
                    let timer_threshold = 1 + round as u16;
                    let mode = 0x0111 << round;
                    file = file
                        .settings(Settings { discard, enable, debug_trigger, timer_threshold, mode, ..base() })
                        .elapsed(300_000)
                        .timestamp(1_000 * round as u64);
                    file = (0..12).fold(file, |f, c| f.completion(command(c), latency(c) + 3_000)).elapsed(123_456);
                    file = file.completion(command(round), 6_000);
                }
                files.push(file);
            }
        }
    }
    // The same settings again, without anything between.
    for (discard, enable) in choices {
        let again = Settings { discard, enable, debug_trigger: 0x0FFF, ..base() };
        let once = Settings { discard: 0, enable: 1, ..again };
        files.push(each_counter(start(once)).settings(again));
        files.push(each_counter(start(once)).settings(again).settings(again).settings(again));
        files.push(each_counter(each_counter(start(once)).elapsed(9).settings(again)));
        files.push(start(again));
        files.push(each_counter(start(again)));
    }
    // Refused settings neither discard nor enable.
    let refused = Settings { discard: 1, enable: 2, ..base() };
    files.push(each_counter(start(Settings { debug_trigger: 8, ..base() })).settings(refused));
    let refused = Settings { discard: 1, timer_threshold: 0, ..base() };
    files.push(each_counter(start(Settings { debug_trigger: 8, ..base() })).settings(refused));
    // The latest enabling settings are not the ones in force: the timer goes by their threshold.
    for times in [1, 2, 3] {
        let mut file = start(Settings { timer_threshold: 2, ..base() }).completion(READ, 5_000);
        for n in 0..times {
            file = file.elapsed(300_000).completion(WRITE, 5_000 + 1_000 * n);
        }
        files.push(file.settings(Settings { timer_threshold: 7, enable: 0, thresholds: [9, 9, 9, 9], ..base() }));
    }
    files
}

fn debug_triggers() -> Vec<Events> {
    let mut files = Vec::new();
    let with = |debug_trigger| Settings { debug_trigger, ..base() };
    for n in 0..12 {
        files.push(each_counter(start(with(1 << n)).timestamp(5_000).elapsed(3)));
    }
    for several in [0x0000, 0x0FFF, 0x0A00, 0x0810, 0x0492] {
        files.push(each_counter(start(with(several)).elapsed(4)));
        let file = start(with(several)).elapsed(6);
        files.push((0..12).rev().fold(file, |f, n| f.elapsed(1).completion(command(n), latency(n))));
    }
    // Held: later triggers, windows and settings without discard leave it.
    let held = start(with(0x0FFF)).elapsed(5).completion(WRITE, 12_345).elapsed(5).completion(READ, 67_890);
    files.push(held.clone());
    files.push(held.clone().elapsed(300_000).elapsed(300_000).completion(READ, 5_000));
    files.push(held.clone().settings(with(0x0FFF)).completion(READ, 5_000));
    files.push(held.clone().settings(with(0)).completion(READ, 5_000));
    files.push(held.clone().settings(Settings { enable: 0, ..with(0) }).completion(READ, 5_000));
    files.push(held.clone().power_up().timestamp(3).completion(READ, 5_000));
    // After a discard the next trigger is taken, whether the counter was counted before or not.
    for enable in [0, 1] {
        let discard = Settings { discard: 1, enable, ..with(0x0FFF) };
        let file = held.clone().settings(discard);
        files.push(file.clone());
        files.push(file.clone().completion(DEALLOCATE, 33_333));
        files.push(file.clone().settings(with(0x0010)).completion(READ, 44_444).completion(WRITE, 12_000));
        files.push(file.settings(discard).completion(READ, 5_000));
    }
    // What does not count does not trigger.
    let file = start(with(0x0FFF)).completion(READ, BELOW);
    files.push(file.completion(WRITE_ZEROES, 50_000).completion(DATASET_MANAGEMENT, 50_000));
    files.push(start(Settings { enable: 0, ..with(0x0FFF) }).completion(READ, 50_000));
    // The trigger of its own place decides: not the settings accepted later.
    files.push(start(with(0)).completion(READ, 5_000).settings(Settings { enable: 0, ..with(1) }));
    files.push(start(with(1)).completion(READ, 5_000).settings(Settings { enable: 0, ..with(0) }));
    // A second completion of a counter triggers if the first was before the trigger was set.
    files.push(start(with(2)).completion(READ, 5_000).settings(with(1)).completion(READ, 8_000));
    // In mode first the debug log may show a later completion than the stamp, in an old window too.
    files.push(
        held.settings(Settings { discard: 1, timer_threshold: 1, ..with(8) })
            .elapsed(299_999)
            .completion(READ, 10_000)
            .elapsed(1),
    );
    files
}

fn left_over(random: &mut Random) -> Vec<Events> {
    let mut files = Vec::new();
    for count in 1..=15 {
        files.push(Events::default().raw(&vec![0; count]));
        let tail: Vec<u8> = (0..count).map(|_| random.bits() as u8).collect();
        files.push(example().raw(&tail));
        // The beginning of a completion that would count.
        let whole = Events::default().completion(READ, 50_000).0;
        files.push(example().raw(&whole[..count]));
    }
    // With other refusals before it.
    files.push(example().raw(&[0; 16]).elapsed(300_001).raw(&[2, 2, 0]));
    files
}

fn unknown_kinds(random: &mut Random) -> Vec<Events> {
    let mut files = Vec::new();
    for kind in [0, 6, 7, 8, 16, 128, 129, 130, 254, 255] {
        let mut zeros = [0; 16];
        zeros[0] = kind;
        files.push(example().raw(&zeros).completion(WRITE, 9_000));
        // The bytes of a settings record, of a completion and of others, under the wrong kind.
        for good in [example().0, Events::default().timestamp(1 << 47).0] {
            let mut wrong: [u8; 16] = good[..16].try_into().unwrap();
            wrong[0] = kind;
            files.push(example().raw(&wrong).raw(&wrong).completion(WRITE, 9_000));
        }
    }
    let mut file = example();
    for _ in 0..40 {
        let mut record = [0; 16];
        record.fill_with(|| random.bits() as u8);
        record[0] = record[0].max(6);
        file = file.raw(&record);
    }
    files.push(file);
    files.push(Events::default().raw(&[0; 16 * 30]));
    files
}

fn unnamed_bytes() -> Vec<Events> {
    let records = [
        start(Settings { discard: 1, ..base() }),
        Events::default().completion(WRITE, 60_000),
        Events::default().elapsed(1_000),
        Events::default().timestamp(123_456_789),
        Events::default().power_up(),
    ];
    let mut files = Vec::new();
    for record in &records {
        let kind = record.0[0];
        for (n, place) in unnamed(kind).expect("a kind of record").into_iter().enumerate() {
            let mut wrong = record.clone().0;
            wrong[place] = [1, 128, 255][n % 3];
            files.push(example().raw(&wrong).elapsed(20).completion(WRITE, 9_000));
        }
        // All named bytes at their highest, and no other: only the call's own rules apply.
        let mut full = [255; 16];
        full[0] = kind;
        if kind == 2 {
            full[2] = 1;
        }
        for place in unnamed(kind).expect("a kind of record") {
            full[place] = 0;
        }
        files.push(example().raw(&full).elapsed(20).completion(WRITE, 9_000));
    }
    files
}

/// Settings that break each of the rows 3 to 6 that are asked for, in one of several ways.
pub(crate) fn breaking(rows: [bool; 4], way: usize) -> Settings {
    let mut s = Settings { mode: 0x0F0F, minimum_window: 3, debug_trigger: 0x00F0, ..base() };
    if rows[0] {
        (s.discard, s.enable) = [(2, 1), (0, 2), (255, 255), (1, 255), (128, 0)][way % 5];
    }
    if rows[1] {
        s.timer_threshold = 0;
    }
    if rows[2] {
        s.thresholds = [[2, 1, 3, 9], [0, 4, 3, 9], [0, 1, 10, 9], [255, 0, 0, 0], [9, 9, 9, 8]][way % 5];
    }
    if rows[3] {
        (s.mode, s.debug_trigger) = [(0x1000, 0), (0, 0x1000), (0x8FFF, 0), (0, 0x8000), (0x4000, 0x2000)][way % 5];
    }
    s
}

fn subsets() -> impl Iterator<Item = [bool; 4]> {
    (0..16).map(|n| std::array::from_fn(|row| n >> row & 1 == 1))
}

fn refusals() -> Vec<Events> {
    let mut files = Vec::new();
    let before = || each_counter(start(Settings { debug_trigger: 0x0FFF, ..base() }).elapsed(300_000));
    // Every combination of rows 3 to 6: the earliest wins and nothing changes.
    for rows in subsets() {
        for way in 0..5 {
            files.push(before().settings(breaking(rows, way)).completion(READ, 8_000));
        }
    }
    // The same as the first settings of all, and with enable 0.
    for way in 0..5 {
        for row in 0..4 {
            let s = breaking(std::array::from_fn(|r| r == row), way);
            files.push(start(s).completion(READ, 8_000));
            if row > 0 {
                files.push(before().settings(Settings { enable: 0, ..s }));
            }
        }
    }
    // Each bit 12 to 15.
    for b in 12..16 {
        files.push(before().settings(Settings { mode: 1 << b, ..base() }));
        files.push(before().settings(Settings { debug_trigger: 1 << b, ..base() }));
    }
    // 11 before all others.
    for rows in subsets() {
        let mut record = start(breaking(rows, 0)).0;
        record[14] = 1;
        files.push(before().raw(&record));
    }
    for mut record in [Events::default().elapsed(300_001).0, Events::default().timestamp(1 << 48).0] {
        record[15] = 9;
        files.push(before().raw(&record));
    }
    // 7 and 8.
    for ms in [300_000, 300_001, 300_002, 1 << 20, 1 << 31, u32::MAX] {
        files.push(before().elapsed(ms).completion(READ, 8_000));
    }
    for value in [TIMESTAMP_TOP, TIMESTAMP_TOP + 1, 1 << 49, 1 << 56, 1 << 63, u64::MAX] {
        files.push(before().timestamp(value).completion(READ, 8_000));
    }
    // All in one file, one after another, and again.
    let mut file = before();
    for way in 0..5 {
        for row in 0..4 {
            file = file.settings(breaking(std::array::from_fn(|r| r == row), way));
        }
        file = file.elapsed(300_001).timestamp(1 << 48).raw(&[0; 16]).completion(READ, 8_000).elapsed(1);
    }
    files.push(file.raw(&[1, 2, 3]));
    files
}

/// A file, filled with one record up to record number `to`.
pub(crate) fn filled(file: Events, filler: Events, to: usize) -> Events {
    let more = to - file.0.len() / RECORD;
    file.raw(&filler.0.repeat(more))
}

/// Refused records, the end of a window and bytes left over, on both sides of a block's end.
fn beyond_one_block() -> Vec<Events> {
    let mut files = Vec::new();
    let settings = Settings { mode: LARGEST, debug_trigger: 0x0800, ..base() };
    let row = |row: usize| breaking(std::array::from_fn(|r| r == row), row);
    let unknown = [0; RECORD];
    let mut unnamed = Events::default().completion(WRITE, 60_000).0;
    unnamed[15] = 1;
    // Completions that are not counted, up to so many records before the end of the block.
    let counted = |before| {
        let quick = Events::default().completion(READ, 4_999);
        filled(each_counter(start(settings).elapsed(300_000)), quick, BLOCK - before)
    };
    // The same of elapsed time, and the time that is missing to the end of the window.
    let timed = |before| {
        let file = start(base()).completion(READ, 5_000).completion(WRITE, 10_000);
        let file = filled(file, Events::default().elapsed(146), BLOCK - before);
        (file, 600_000 - 146 * (BLOCK - before - 3) as u32)
    };
    // Bytes left over behind a block, and behind one record more: 0, 1 and 15.
    let tail = Events::default().completion(READ, 50_000).0;
    files.push(counted(2).raw(&unknown).elapsed(300_001));
    files.push(counted(1).timestamp(1 << 48).raw(&tail[..1]));
    files.push(counted(2).settings(row(0)).settings(row(1)).raw(&tail[..15]));
    files.push(counted(1).raw(&unnamed).elapsed(300_001));
    files.push(counted(1).settings(row(2)).settings(row(3)).raw(&tail[..1]));
    // The window ends in the last record of the block, or in the first of the next.
    let (file, rest) = timed(1);
    files.push(file.elapsed(rest).completion(READ, 6_000).raw(&tail[..15]));
    let (file, rest) = timed(2);
    let file = file.settings(row(3)).settings(row(2)).elapsed(rest).settings(row(1)).timestamp(1 << 48);
    files.push(file.completion(READ, 6_000).elapsed(300_000));
    // Records 4,094 to 4,098 refused; settings, a load and a debug log after them.
    let file = counted(2).raw(&unnamed).elapsed(300_001).timestamp(u64::MAX).settings(row(0)).raw(&unknown);
    let file = file.completion(WRITE, 70_000).settings(Settings { discard: 1, enable: 0, ..settings });
    files.push(file.settings(settings).completion(DEALLOCATE, 50_000).completion(DEALLOCATE, 51_000).raw(&tail[..7]));
    files
}

fn random_settings(random: &mut Random) -> Settings {
    let widest = random.pick(&[4, 12, 60, 256]);
    let mut thresholds = [0; 4].map(|_: u8| random.below(widest) as u8);
    thresholds.sort();
    Settings {
        timer_threshold: random.pick(&[1, 1, 1, 2, 2, 3, 5, 65_535]),
        thresholds,
        mode: random.below(4096) as u16,
        minimum_window: random.pick(&[0, 0, 1, 2, 10, 255]),
        debug_trigger: (random.below(4096) & random.below(4096)) as u16,
        discard: random.chance(40).into(),
        enable: random.chance(85).into(),
    }
}

fn random_latency(random: &mut Random) -> u32 {
    match random.below(10) {
        0..=3 => 5_000 * random.from(1, 13) as u32 - 1 + random.below(3) as u32,
        4..=6 => random.below(100_000) as u32,
        7 => random.below(1_500_000) as u32,
        8 => random.below(80_000_000) as u32,
        _ => random.bits() as u32,
    }
}

fn random_elapsed(random: &mut Random) -> u32 {
    match random.below(8) {
        0 => random.pick(&[0, 1, 99, 100, 101, 200]),
        1 => random.pick(&[299_999, 300_000]),
        2..=4 => random.below(2_000) as u32,
        5 => random.below(30_000) as u32,
        _ => random.below(300_001) as u32,
    }
}

pub(crate) fn random_timestamp(random: &mut Random) -> u64 {
    match random.below(4) {
        0 => random.below(1_000_000),
        1 => TIMESTAMP_TOP - random.below(400_000),
        2 => 1_700_000_000_000 + random.below(1 << 30),
        _ => random.below(1 << 48),
    }
}

/// Most often a command that counts.
fn random_command(random: &mut Random) -> Command {
    let opcode = match random.below(20) {
        0 => random.bits() as u8,
        1..=6 => 0x02,
        7..=12 => 0x01,
        13..=17 => 0x09,
        _ => 0x08,
    };
    Command { opcode, deallocate: random.chance(75) }
}

pub(crate) fn random_event(random: &mut Random, file: Events) -> Events {
    match random.below(200) {
        0..=124 => file.completion(random_command(random), random_latency(random)),
        125..=174 => file.elapsed(random_elapsed(random)),
        175..=184 => file.timestamp(random_timestamp(random)),
        185..=190 => file.power_up(),
        191..=195 => file.settings(random_settings(random)),
        196 => file.settings(breaking(std::array::from_fn(|_| random.chance(40)), random.below(5) as usize)),
        197 => file.elapsed(300_001 + random.below(1 << 31) as u32),
        198 => file.timestamp(random.bits() | 1 << 60),
        _ => {
            let mut record = [0; 16];
            record.fill_with(|| random.bits() as u8);
            file.raw(&record)
        }
    }
}

pub(crate) fn random_mixture(random: &mut Random, records: u64) -> Events {
    let first = Settings { enable: 1, ..random_settings(random) };
    let file = if random.chance(90) { start(first) } else { Events::default() };
    (1..records).fold(file, |f, _| random_event(random, f))
}

fn random_mixtures(random: &mut Random) -> Vec<Events> {
    let mut files = Vec::new();
    for _ in 0..120 {
        let records = random.from(5, 120);
        files.push(random_mixture(random, records));
    }
    for _ in 0..8 {
        files.push(random_mixture(random, 600));
    }
    // A whole block.
    let mut longest = random_mixture(random, 4_200);
    longest.0.truncate(RECORD * BLOCK);
    files.push(longest);
    files
}

/// A random file with some bytes changed, and now and then of another length.
pub(crate) fn damaged(random: &mut Random) -> Events {
    let records = random.from(5, 60);
    let mut file = random_mixture(random, records);
    for _ in 0..random.from(1, 8) {
        let place = random.below(file.0.len() as u64) as usize;
        file.0[place] = match random.below(3) {
            0 => file.0[place] ^ 1 << random.below(8),
            1 => random.below(6) as u8,
            _ => random.bits() as u8,
        };
    }
    match random.below(6) {
        // A byte too few somewhere moves all that follows.
        0 => {
            let place = random.below(file.0.len() as u64) as usize;
            file.0.remove(place);
        }
        // A byte too many, and a file that breaks off.
        1 => {
            let place = random.below(file.0.len() as u64) as usize;
            file.0.insert(place, random.bits() as u8);
        }
        2 => {
            let length = random.below(file.0.len() as u64) as usize;
            file.0.truncate(length);
        }
        _ => {}
    }
    file
}

fn all_damaged(random: &mut Random) -> Vec<Events> {
    (0..80).map(|_| damaged(random)).collect()
}

fn counters_at_their_top() -> Vec<EventVector> {
    let top = u32::MAX;
    let mut vectors = Vec::new();
    let mut add = |file: Events, presets: &[(usize, u32, u32)]| vectors.push(with_presets(file, presets));
    // Each counter, from two below its top.
    for n in 0..12 {
        for more in 1..=3 {
            let file = start(base()).completion(command(n), latency(n));
            let file = (0..more).fold(file, |f, _| f.completion(command(n), latency(n)));
            add(file, &[(n, top - 2, 2)]);
        }
    }
    for value in [top - 2, top - 1, top] {
        // The stamp is loaded at the top too, in mode largest.
        for mode in [0, LARGEST] {
            let file = start(Settings { mode, ..base() }).completion(READ, 50_000).elapsed(9);
            let file = file.completion(READ, 51_000).elapsed(9).completion(READ, 52_000);
            add(file, &[(9, value, 2)]);
        }
        // The debug log stays the one that the counter's first completion took.
        let file = each_counter(start(Settings { debug_trigger: 0x0800, ..base() })).timestamp(4);
        add(file.completion(READ, 5_000).completion(DEALLOCATE, 70_000), &[(0, value, 13), (11, value, 13)]);
        // The static window gets what the active one had, and the next starts from zero.
        let short = Settings { timer_threshold: 1, ..base() };
        let file = start(short).completion(WRITE, 5_000).completion(WRITE, 5_000).completion(WRITE, 5_000);
        let file = file.elapsed(300_000);
        add(file.clone(), &[(1, value, 2)]);
        add(file.clone().completion(WRITE, 5_000), &[(1, value, 2)]);
        add(file.clone().completion(WRITE, 5_000).elapsed(300_000), &[(1, value, 2)]);
        // In the window after, and in both.
        let file = file.completion(WRITE, 5_000).completion(WRITE, 6_000).completion(WRITE, 7_000);
        add(file.clone(), &[(1, value, 6)]);
        add(file.elapsed(300_000).completion(READ, 5_000), &[(1, value, 2), (1, top - 1, 6)]);
        // Enabling settings empty it, others keep it.
        for enable in [0, 1] {
            let file = start(base()).completion(WRITE, 5_000).completion(WRITE, 5_000);
            let file = file.settings(Settings { enable, ..base() }).completion(WRITE, 5_000);
            add(file, &[(1, value, 2)]);
        }
    }
    // A counter at its top does not keep another from triggering.
    let quiet = start(Settings { debug_trigger: 0x0010, ..base() });
    let file = quiet.completion(READ, 5_000).completion(READ, 5_000).completion(READ, 6_000).completion(WRITE, 10_000);
    add(file, &[(0, top, 2)]);
    // All twelve at once.
    let all: Vec<(usize, u32, u32)> = (0..12).map(|n| (n, top - n as u32 % 3, 13)).collect();
    add(each_counter(each_counter(start(base())).elapsed(100)), &all);
    vectors
}

fn page_buffers() -> Vec<EventVector> {
    let lengths = [0, 1, 2, 256, 479, 480, 510, 511, 512, 513, 514, 1_024, 4_095, 4_096, 4_097, 4_200];
    let mut vectors = Vec::new();
    for page_buffer in lengths {
        vectors.push(EventVector { page_buffer, ..plain(example()) });
        vectors.push(EventVector { page_buffer, ..plain(Events::default()) });
    }
    vectors
}

fn back_buffers() -> Vec<EventVector> {
    let lengths = [0, 1, 12, 13, 14, 511, 512, 513, 4_094, 4_095, 4_096, 4_097, 4_098, 4_200];
    let discarded = || each_counter(start(Settings { mode: 0x0ABC, minimum_window: 200, discard: 1, ..base() }));
    let mut vectors = Vec::new();
    for back_buffer in lengths {
        vectors.push(EventVector { back_buffer, ..plain(discarded()) });
        vectors.push(EventVector { back_buffer, ..plain(Events::default()) });
        vectors.push(EventVector { back_buffer, page_buffer: back_buffer, ..plain(example()) });
    }
    vectors
}

/// Settings of a length, with those of their bytes that are within it.
fn settings_vector(length: u16, settings: Settings, more: &[(u16, u8)]) -> SettingsVector {
    let fields = settings.to_bytes();
    let patches = (0..13)
        .map(|place| (place, fields[usize::from(place)]))
        .filter(|&(_, byte)| byte != 0)
        .chain(more.iter().copied())
        .filter(|&(place, _)| place < length)
        .collect();
    SettingsVector { length, patches }
}

fn settings_lengths() -> Vec<SettingsVector> {
    let mut vectors = Vec::new();
    for length in [0, 1, 2, 12, 13, 14, 512, 2_048, 4_094, 4_095, 4_096, 4_097, 4_098, 4_200] {
        vectors.push(settings_vector(length, base(), &[]));
        vectors.push(settings_vector(length, Settings::default(), &[]));
        // Rows after the first broken too.
        vectors.push(settings_vector(length, breaking([true; 4], 0), &[(13, 1), (4_095, 1), (4_096, 1)]));
    }
    vectors
}

fn settings_bytes() -> Vec<SettingsVector> {
    let mut vectors = Vec::new();
    for place in [13, 14, 15, 16, 17, 63, 64, 255, 256, 511, 512, 1_000, 2_047, 2_048, 4_088, 4_094, 4_095] {
        for byte in [1, 128, 255] {
            vectors.push(settings_vector(4_096, base(), &[(place, byte)]));
        }
        vectors.push(settings_vector(4_096, breaking([true; 4], 1), &[(place, 1)]));
    }
    for rows in subsets() {
        vectors.push(settings_vector(4_096, breaking(rows, 2), &[(77, 2)]));
    }
    vectors.push(settings_vector(4_096, base(), &[(13, 1), (14, 255), (4_095, 7)]));
    vectors
}

fn settings_fields() -> Vec<SettingsVector> {
    let mut vectors = Vec::new();
    for rows in subsets() {
        for way in 0..5 {
            vectors.push(settings_vector(4_096, breaking(rows, way), &[]));
        }
    }
    let full = Settings {
        timer_threshold: 0xFFFF,
        thresholds: [255; 4],
        mode: 0x0FFF,
        minimum_window: 255,
        debug_trigger: 0x0FFF,
        discard: 1,
        enable: 1,
    };
    vectors.push(settings_vector(4_096, Settings::default(), &[]));
    for discard in 0..3 {
        for enable in 0..3 {
            vectors.push(settings_vector(4_096, Settings { discard, enable, ..full }, &[]));
            vectors.push(settings_vector(4_096, Settings { discard, enable, ..base() }, &[]));
        }
    }
    for timer_threshold in [0, 1, 0x00FF, 0x0100, 0x1234, 0xFF00] {
        vectors.push(settings_vector(4_096, Settings { timer_threshold, ..base() }, &[]));
    }
    for thresholds in [[0, 0, 0, 0], [0, 0, 0, 255], [1, 2, 3, 4], [4, 4, 5, 5], [200, 201, 254, 255]] {
        vectors.push(settings_vector(4_096, Settings { thresholds, ..base() }, &[]));
    }
    // Each neighbour one above the next, and thresholds that only a comparison of neighbours finds wrong.
    for thresholds in
        [[1, 0, 1, 1], [0, 1, 0, 1], [0, 0, 1, 0], [255, 254, 255, 255], [128, 127, 255, 255], [3, 2, 1, 0]]
    {
        vectors.push(settings_vector(4_096, Settings { thresholds, ..base() }, &[]));
    }
    for b in 0..16 {
        vectors.push(settings_vector(4_096, Settings { mode: 1 << b, ..base() }, &[]));
        vectors.push(settings_vector(4_096, Settings { debug_trigger: 1 << b, ..base() }, &[]));
    }
    vectors
}
