//! A long event file for measurements: what a busy drive would report.

use std::io::{self, Write};

use crate::events::Events;
use crate::history::{Command, Settings};
use crate::random::Random;

fn settings(discard: u8) -> Settings {
    Settings {
        timer_threshold: 2,
        thresholds: [0, 1, 3, 9],
        mode: 0x0AAA,
        minimum_window: 10,
        debug_trigger: 0x0249,
        discard,
        enable: 1,
    }
}

/// Latencies: seven in ten below threshold A, the others spread over the four buckets.
fn latency(random: &mut Random) -> u32 {
    let (low, high) = match random.below(40) {
        0..=27 => (20, 4_999),
        28..=30 => (5_000, 9_999),
        31..=33 => (10_000, 19_999),
        34..=36 => (20_000, 49_999),
        _ => (50_000, 400_000),
    };
    random.from(low, high) as u32
}

fn completion(random: &mut Random) -> Events {
    let (opcode, deallocate) = match random.below(100) {
        0..=61 => (0x02, false),
        62..=91 => (0x01, false),
        92..=96 => (0x09, true),
        _ => (random.pick(&[0x00, 0x04, 0x05, 0x08, 0x0C]), random.chance(50)),
    };
    Events::default().completion(Command { opcode, deallocate }, latency(random))
}

/// Elapsed times: mostly up to 20 ms, a few pauses, and now and then an idle drive.
fn elapsed(random: &mut Random) -> Events {
    let ms = match random.below(1_000) {
        0..=989 => random.below(21),
        990..=997 => random.below(2_001),
        _ => random.below(300_001),
    };
    Events::default().elapsed(ms as u32)
}

/// Timestamps of a host whose clock is near the present and sometimes goes back.
fn timestamp(random: &mut Random, number: u64) -> Events {
    Events::default().timestamp(1_700_000_000_000 + 2 * number + random.below(5_000))
}

/// Records that are turned away, by 3, 7, 8 and 11.
fn refused(random: &mut Random) -> Events {
    match random.below(4) {
        0 => Events::default().settings(settings(2)),
        1 => Events::default().elapsed(300_001),
        2 => Events::default().timestamp(1 << 48),
        _ => Events::default().raw(&[7; 16]),
    }
}

fn record(random: &mut Random, number: u64) -> Events {
    if number == 0 {
        return Events::default().settings(settings(0));
    }
    match random.below(100_000) {
        0 => Events::default().settings(settings(random.below(2) as u8)),
        1..=2 => refused(random),
        3..=202 => Events::default().power_up(),
        203..=1_202 => timestamp(random, number),
        1_203..=14_802 => elapsed(random),
        _ => completion(random),
    }
}

/// Writes as many whole records as fit into so many bytes.
pub fn write(bytes: u64, out: &mut impl Write) -> io::Result<()> {
    let mut random = Random::new(0x6C61_7465_6E63_7921);
    for number in 0..bytes / 16 {
        out.write_all(&record(&mut random, number).0)?;
    }
    Ok(())
}
