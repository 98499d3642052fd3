//! Random calls, most of them near the places where the rules change their mind.

use latency_monitor::opcodes::{DATASET_MANAGEMENT, READ, WRITE, WRITE_ZEROES};
use reference::facts::{in_force, window_time};
use reference::history::{Call, Command, Settings, Window, INCREMENT_MS, PAGE_LENGTH, SETTINGS_LENGTH, TIMESTAMP_TOP};
use reference::random::Random;

pub const OPCODES: [u8; 4] = [READ, WRITE, DATASET_MANAGEMENT, WRITE_ZEROES];
/// Every command that is a Read, Write or Deallocate.
pub const OF_A_KIND: [Command; 6] = [
    Command { opcode: READ, deallocate: false },
    Command { opcode: READ, deallocate: true },
    Command { opcode: WRITE, deallocate: false },
    Command { opcode: WRITE, deallocate: true },
    Command { opcode: DATASET_MANAGEMENT, deallocate: true },
    Command { opcode: WRITE_ZEROES, deallocate: true },
];
/// A bit for each counter.
const ALL: u16 = 0x0FFF;
/// The first latency that shows 65,535 ms, in microseconds.
const LATENCY_TOP: u32 = 65_535_000;

/// A call to follow a history.
pub fn next(random: &mut Random, history: &[Call]) -> Call {
    if history.is_empty() && random.chance(80) {
        return Call::Settings(in_order(random).to_buffer());
    }
    match random.below(100) {
        0..=43 => {
            let (command, latency_us) = completion(random, history);
            Call::Completion { command, latency_us }
        }
        44..=69 => Call::Elapsed(elapsed(random, history)),
        70..=78 => Call::Settings(settings(random, history)),
        79..=85 => Call::Timestamp(timestamp(random)),
        86..=88 => Call::PowerUp,
        89..=92 => Call::Page(length(random, PAGE_LENGTH)),
        93..=96 => Call::SettingsBack(length(random, SETTINGS_LENGTH)),
        _ => Call::BelowA(random.pick(&[Window::Active, Window::Static])),
    }
}

/// The number that stands so many above or below another.
fn beside(number: u32, by: i32) -> u32 {
    number.saturating_add_signed(by)
}

/// Half of the completions have the command of the one before, so that they meet the same counter.
pub fn completion(random: &mut Random, history: &[Call]) -> (Command, u32) {
    let last = history.iter().rev().find_map(|call| match call {
        Call::Completion { command, latency_us } => Some((*command, *latency_us)),
        _ => None,
    });
    let (last_command, last_latency) = last.unwrap_or((OF_A_KIND[0], 5_000));
    let command = if random.chance(50) { last_command } else { command(random) };
    (command, latency(random, history, last_latency))
}

/// A command, most of them with an opcode that may count, with or without the deallocate attribute.
fn command(random: &mut Random) -> Command {
    let any = random.bits() as u8;
    let opcode = match random.below(10) {
        0..=8 => random.pick(&OPCODES),
        _ => random.pick(&[0x00, 0x03, 0x0A, 0x82, 0xFF, any]),
    };
    Command { opcode, deallocate: random.chance(50) }
}

/// The first latency that reaches a threshold, in microseconds.
pub fn reached(threshold: u8) -> u32 {
    5_000 * (u32::from(threshold) + 1)
}

fn latency(random: &mut Random, history: &[Call], last: u32) -> u32 {
    let whole = last / 1_000 * 1_000;
    let thresholds = in_force(history).thresholds;
    match random.below(20) {
        0..=6 => beside(reached(random.pick(&thresholds)), random.pick(&[-1_000, -1, 0, 1, 999, 1_000])),
        7..=8 => random.below(reached(thresholds[0]).into()) as u32,
        9..=15 => beside(whole, random.pick(&[-1, 0, 999, 1_000, 1_999, 2_000])),
        16 => beside(LATENCY_TOP, random.pick(&[-1, 0, 999, 1_000])),
        17 => beside(1_000 * random.from(1, 2_000) as u32, random.pick(&[-1, 0])),
        18 => random.pick(&[0, 1, u32::MAX - 1, u32::MAX]),
        _ => random.bits() as u32,
    }
}

fn elapsed(random: &mut Random, history: &[Call]) -> u32 {
    let minimum_window = 100 * u32::from(in_force(history).minimum_window);
    let partial = window_time(history, history.len()).map_or(0, |(_, time)| time % INCREMENT_MS);
    let to_increment = (INCREMENT_MS - partial) as u32;
    match random.below(20) {
        0..=5 => beside(to_increment, random.pick(&[-1, 0, 1])),
        6..=9 => beside(minimum_window, random.pick(&[-1, 0, 1])),
        10..=12 => random.pick(&[0, 1, 99, 100, 101]),
        13..=16 => beside(INCREMENT_MS as u32, random.pick(&[-1, 0, 0, 1])),
        17 => random.bits() as u32,
        _ => random.from(0, INCREMENT_MS) as u32,
    }
}

fn timestamp(random: &mut Random) -> u64 {
    match random.below(10) {
        0..=2 => TIMESTAMP_TOP - random.below(3),
        3..=4 => TIMESTAMP_TOP - random.below(2 * INCREMENT_MS),
        5 => TIMESTAMP_TOP + 1 + random.below(2),
        6 => random.bits(),
        7 => random.pick(&[0, 1, 1 << 32, 1 << 63, u64::MAX]),
        _ => random.bits() >> 16,
    }
}

/// A buffer's length, the right one in half of the calls.
fn length(random: &mut Random, right: usize) -> usize {
    let any = random.below(5_000) as usize;
    match random.below(10) {
        0..=4 => right,
        5..=6 => right - 1,
        7..=8 => right + 1,
        _ => random.pick(&[0, 1, PAGE_LENGTH, SETTINGS_LENGTH, any]),
    }
}

/// Settings, in a third of the calls with one to three faults.
fn settings(random: &mut Random, history: &[Call]) -> Vec<u8> {
    let mut settings = if random.chance(70) { in_order(random) } else { in_force(history) };
    settings.discard = u8::from(random.chance(30));
    settings.enable = u8::from(random.chance(70));
    let mut bytes = settings.to_buffer();
    if random.chance(35) {
        for _ in 0..random.from(1, 3) {
            fault(random, &mut bytes);
        }
    }
    bytes
}

/// Settings that are accepted, with enable 1.
fn in_order(random: &mut Random) -> Settings {
    let minimum_window = random.bits() as u8;
    let spread = random.pick(&[2, 12, 256]);
    let mut thresholds = [0; 4].map(|_| random.below(spread) as u8);
    thresholds.sort_unstable();
    Settings {
        timer_threshold: random.pick(&[1, 1, 1, 2, 2, 3, 255, 256, 65_535]),
        thresholds: random.pick(&[[0, 1, 3, 9], [0, 0, 1, 1], [255; 4], thresholds, thresholds, thresholds]),
        mode: counters(random),
        minimum_window: random.pick(&[0, 0, 1, 2, 255, minimum_window]),
        debug_trigger: counters(random),
        discard: u8::from(random.chance(10)),
        enable: 1,
    }
}

/// A bit for each of some counters.
fn counters(random: &mut Random) -> u16 {
    let (one, some) = (1 << random.below(12), random.bits() as u16 & ALL);
    random.pick(&[0, ALL, ALL, one, some])
}

/// Breaks a rule of the settings, where it finds the byte for it.
fn fault(random: &mut Random, bytes: &mut Vec<u8>) {
    if bytes.len() < SETTINGS_LENGTH {
        return;
    }
    match random.below(6) {
        0 => {
            let any = random.below(5_000) as usize;
            bytes.resize(random.pick(&[0, 12, 13, 4_095, 4_097, any]), 0);
        }
        1 => {
            let any = random.from(13, 4_095) as usize;
            bytes[random.pick(&[13, 14, 4_094, 4_095, any])] = random.pick(&[1, 0x80, 0xFF]);
        }
        2 => bytes[random.pick(&[11, 12])] = random.pick(&[2, 3, 0x80, 0xFF]),
        3 => bytes[..2].fill(0),
        4 => {
            let lower = random.from(2, 4) as usize;
            bytes[lower] = bytes[lower + 1].saturating_add(1);
        }
        _ => bytes[random.pick(&[7, 10])] |= 1 << random.from(4, 7),
    }
}
