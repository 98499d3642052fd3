//! The vectors about the deallocate attribute of Dataset Management and the deallocate bit of Write Zeroes.

use crate::events::{Events, RECORD};
use crate::groups::{
    base, each_counter, each_kind, random_event, random_mixture, start, BELOW, DATASET_MANAGEMENT, DEALLOCATE, LARGEST,
    READ, WRITE, WRITE_ZEROES, WRITE_ZEROES_DEAC,
};
use crate::history::{Command, Settings};
use crate::random::Random;

/// Read, Write, Dataset Management, Write Zeroes, and Compare, which is of no kind.
const OPCODES: [u8; 5] = [0x02, 0x01, 0x09, 0x08, 0x05];

pub fn files() -> Vec<Events> {
    let mut files = every_opcode();
    files.extend(alone());
    files.extend(bytes_of_completions());
    files.extend(bytes_of_others());
    files.extend(in_one_counter());
    files.extend(windows_and_settings());
    files.extend(earlier_releases(&mut Random::new(11)));
    files.extend(mixtures(&mut Random::new(12)));
    files
}

/// A command without its attribute or bit, and with it.
fn both(opcode: u8) -> [Command; 2] {
    [false, true].map(|deallocate| Command { opcode, deallocate })
}

/// Every opcode with either value, below A and slow, with the monitor disabled and enabled.
fn every_opcode() -> Vec<Events> {
    let mut files = Vec::new();
    for deallocate in [false, true] {
        for enable in [0, 1] {
            for us in [BELOW, 20_000] {
                let file = start(Settings { enable, ..base() });
                files.push((0..=255).fold(file, |f, opcode| f.completion(Command { opcode, deallocate }, us)));
            }
        }
    }
    files
}

/// One command a file, so that a wrong kind shows below A too: 08h, 09h, every opcode that differs from one of them in
/// one bit (Write does), 07h and Read.
fn alone() -> Vec<Events> {
    let near = (0..8).flat_map(|bit| [0x08 ^ 1 << bit, 0x09 ^ 1 << bit]);
    let settings = Settings { mode: LARGEST, debug_trigger: 0x0FFF, ..base() };
    let file = |command| {
        let latencies = [BELOW, 5_000, 10_000, 20_000, 50_000];
        latencies.into_iter().fold(start(settings), |f, us| f.elapsed(7).completion(command, us))
    };
    near.chain([0x07, 0x02]).flat_map(both).map(file).collect()
}

/// Byte 2 is 0 or 1 whatever the opcode, and byte 3 is zero; the record after a refused one is played.
fn bytes_of_completions() -> Vec<Events> {
    let byte_2 = [0, 1, 2, 3, 4, 8, 16, 32, 64, 128, 255].map(|byte| [byte, 0]);
    let byte_3 = [[0, 1], [1, 1], [0, 128], [1, 255]];
    let mut files = Vec::new();
    for opcode in OPCODES {
        for us in [BELOW, 5_000] {
            let with = |bytes: [u8; 2]| {
                let mut record = Events::default().completion(Command { opcode, deallocate: false }, us).0;
                record[2..4].copy_from_slice(&bytes);
                record
            };
            let file = start(Settings { debug_trigger: 0x0FFF, ..base() }).elapsed(7);
            let bytes = byte_2.into_iter().chain(byte_3);
            files.push(bytes.fold(file, |f, bytes| f.raw(&with(bytes)).completion(READ, us)));
        }
    }
    files
}

/// Byte 2 of elapsed time, timestamps and power-up stays unnamed.
fn bytes_of_others() -> Vec<Events> {
    let none = Events::default;
    let others = [none().elapsed(300_000), none().timestamp(5), none().power_up()];
    let file = |Events(mut record): Events| {
        let file = start(Settings { timer_threshold: 1, ..base() }).timestamp(77).completion(DEALLOCATE, 5_000);
        let file = [1, 2, 255].into_iter().fold(file, |f, byte| {
            record[2] = byte;
            f.raw(&record)
        });
        file.elapsed(9).completion(WRITE_ZEROES_DEAC, 10_000)
    };
    others.map(file).into()
}

/// Dataset Management and Write Zeroes share a counter's stamp and the debug log, and without their attribute or bit
/// they have no part in them, nor in the minimum window.
fn in_one_counter() -> Vec<Events> {
    let without = |file: Events, us| file.completion(DATASET_MANAGEMENT, us).completion(WRITE_ZEROES, us);
    let mut files = Vec::new();
    for (first, second) in [(DEALLOCATE, WRITE_ZEROES_DEAC), (WRITE_ZEROES_DEAC, DEALLOCATE)] {
        for mode in [0, LARGEST] {
            let settings = Settings { mode, minimum_window: 1, debug_trigger: 0x0FFF, ..base() };
            for (ms, us) in [(50, 5_000), (50, 6_000), (49, 7_000), (50, 7_000)] {
                let file = without(start(settings), 5_500).elapsed(50).completion(first, 6_000);
                let file = without(file.elapsed(50), 9_000).elapsed(ms).completion(second, us);
                files.push(without(file.elapsed(100), 8_000));
            }
        }
    }
    // The log is taken after a discard, by the first that has its attribute or bit.
    for trigger in [DEALLOCATE, WRITE_ZEROES_DEAC] {
        let settings = Settings { debug_trigger: 0x0020, ..base() };
        let file = without(start(settings).elapsed(3), 10_000).elapsed(3).completion(trigger, 11_000);
        let file = without(file.elapsed(3).settings(Settings { discard: 1, ..settings }), 12_000);
        files.push(file.clone());
        files.push(file.elapsed(3).completion(trigger, 13_000).completion(DEALLOCATE, 14_000));
    }
    files
}

/// Reads and Writes with yes, and each command that may be a Deallocate. Each of these comes another power of two
/// times, so that a count says which of them it has.
fn each_command(file: Events, us: u32) -> Events {
    let file = [READ, WRITE].into_iter().fold(file, |f, c| f.completion(Command { deallocate: true, ..c }, us));
    let often = [(DEALLOCATE, 1), (WRITE_ZEROES_DEAC, 2), (DATASET_MANAGEMENT, 4), (WRITE_ZEROES, 8)];
    often.into_iter().fold(file, |file, (command, times)| (0..times).fold(file, |f, _| f.completion(command, us)))
}

/// Counted in both windows, moved, kept, frozen and emptied.
fn windows_and_settings() -> Vec<Events> {
    let enabled = Settings { timer_threshold: 1, ..base() };
    let disabled = Settings { enable: 0, ..enabled };
    let mut files = Vec::new();
    for us in [BELOW, 10_000] {
        let before = each_command(Events::default(), us);
        let ended = each_command(start(enabled), us).elapsed(300_000);
        let next = ended
            .clone()
            .completion(WRITE_ZEROES, us)
            .completion(WRITE_ZEROES_DEAC, us)
            .completion(DATASET_MANAGEMENT, us);
        let frozen = each_command(next.clone().settings(disabled), us);
        files.push(each_command(before.clone().settings(enabled), us));
        files.push(before.settings(disabled).settings(enabled));
        files.push(each_command(ended, us));
        files.push(next.clone().elapsed(300_000).completion(DATASET_MANAGEMENT, us));
        files.push(frozen.clone().elapsed(300_000).power_up());
        files.push(each_command(frozen.settings(enabled), us));
        files.push(each_command(next.settings(Settings { thresholds: [1, 1, 3, 9], ..enabled }), us + 1));
    }
    files
}

/// An event file as earlier releases took it: byte 2 of every completion is zero, so it counts no Deallocate.
fn earlier(Events(mut bytes): Events) -> Events {
    let completions = bytes.chunks_exact_mut(RECORD).filter(|record| record[0] == 2);
    completions.for_each(|record| record[2] = 0);
    Events(bytes)
}

fn earlier_releases(random: &mut Random) -> Vec<Events> {
    // The counters of Deallocate would trigger.
    let settings = Settings { timer_threshold: 1, debug_trigger: 0x0924, ..base() };
    let first = each_kind(each_counter(start(settings).elapsed(5)), BELOW);
    let second = each_kind(each_counter(first.clone().elapsed(300_000)), BELOW);
    let mut files = vec![first, second];
    for _ in 0..10 {
        let records = random.from(20, 80);
        files.push(random_mixture(random, records));
    }
    files.into_iter().map(earlier).collect()
}

/// Any value with any of the opcodes, on both sides of each threshold.
fn mixtures(random: &mut Random) -> Vec<Events> {
    let mut files = Vec::new();
    for n in 0..12 {
        let mode = random.below(4_096) as u16;
        let debug_trigger = 1 << random.below(12);
        let minimum_window = random.pick(&[0, 1, 10]);
        let mut file = start(Settings { timer_threshold: 1 + n % 3, mode, debug_trigger, minimum_window, ..base() });
        for _ in 0..random.from(20, 60) {
            file = if random.chance(70) {
                let command = Command { opcode: random.pick(&OPCODES), deallocate: random.chance(50) };
                let us = random.pick(&[4_000, 9_000, 19_000, 49_000]) + random.below(2_000) as u32;
                file.completion(command, us)
            } else {
                random_event(random, file)
            };
        }
        files.push(file);
    }
    files
}
