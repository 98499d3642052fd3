//! The vectors that ask why a completion would not load its latency stamp (Ticket 5), group by group.

use crate::events::{unnamed, Events, RECORD};
use crate::groups::{
    base, breaking, command, damaged, each_counter, filled, latency, random_event, random_mixture, start, BELOW, BLOCK,
    DATASET_MANAGEMENT, DEALLOCATE, KINDS, LARGEST, READ, WRITE, WRITE_ZEROES, WRITE_ZEROES_DEAC,
};
use crate::history::{Command, Settings, TIMESTAMP_TOP};
use crate::random::Random;
use crate::vectors::{Group, ReasonsVector, Vectors};

/// A vector with what is expected, written down by hand: for each question a digit, or '-' for 16. The tests hold the
/// reference to it.
pub struct ByHand {
    pub vector: ReasonsVector,
    pub expected: String,
}

pub fn groups() -> Vec<Group> {
    let by_hand = by_hand().into_iter().map(|(name, cases)| (name, cases.into_iter().map(|c| c.vector).collect()));
    let random = [("reasons of random mixtures", random_mixtures(&mut Random::new(13)))];
    by_hand.chain(random).map(|(name, vectors)| Group { name, vectors: Vectors::Reasons(vectors) }).collect()
}

pub fn by_hand() -> Vec<(&'static str, Vec<ByHand>)> {
    vec![
        ("reasons one by one", one_by_one()),
        ("reasons at once", at_once()),
        ("reasons by measured latency", measured_latencies()),
        ("reasons by stamp", stamps()),
        ("reasons by minimum window", minimum_window()),
        ("reasons by number", numbers()),
        ("reasons of other records", other_records()),
        ("reasons after refused records", after_refused()),
        ("reasons beyond one block", beyond_one_block()),
    ]
}

fn bytes(number: u32) -> Vec<u8> {
    number.to_le_bytes().into()
}

fn records(file: &Events) -> u32 {
    (file.0.len() / RECORD) as u32
}

/// A file with these record numbers asked for, each with what is expected.
fn numbered(file: Events, expected: impl IntoIterator<Item = (u32, char)>) -> ByHand {
    let (numbers, expected) = expected.into_iter().map(|(number, digit)| (bytes(number), digit)).unzip();
    ByHand { vector: ReasonsVector { file: file.0, numbers }, expected }
}

/// A file with every record asked for, and the end.
fn case(file: Events, expected: &str) -> ByHand {
    assert_eq!(expected.len() as u32, records(&file));
    numbered(file, (0..).zip(expected.chars().chain(['-'])))
}

/// A file with completions of a command added.
fn series(file: Events, command: Command, latencies: &[u32]) -> Events {
    latencies.iter().fold(file, |f, &us| f.completion(command, us))
}

/// Mode largest for all counters.
fn largest(minimum_window: u8) -> Settings {
    Settings { mode: LARGEST, minimum_window, ..base() }
}

fn disabled(settings: Settings) -> Settings {
    Settings { enable: 0, ..settings }
}

fn one_by_one() -> Vec<ByHand> {
    let none = Events::default;
    let mut cases = vec![
        // 1: a new monitor, settings with enable 0, and settings that are refused.
        case(none().completion(READ, 5_000), "1"),
        case(start(disabled(base())).completion(READ, 5_000), "-1"),
        case(start(Settings { enable: 2, ..base() }).completion(READ, 5_000), "-1"),
        case(start(base()).completion(READ, 5_000).settings(disabled(base())).completion(WRITE, 5_000), "-0-1"),
        // 3: at A it is reached.
        case(series(start(base()), READ, &[0, 4_999, 5_000]), "-330"),
        case(series(start(Settings { thresholds: [255; 4], ..base() }), WRITE, &[1_279_999, 1_280_000]), "-30"),
        // 4: whatever the latency.
        case(series(start(base()), READ, &[7_000, 6_000, 7_000, 8_000]), "-0444"),
        // 5: less, equal, and more microseconds in the same millisecond.
        case(series(start(largest(0)), READ, &[7_000, 6_000, 7_000, 7_999, 8_000]), "-05550"),
        // 6: one millisecond less than the minimum window, and all of it.
        case(start(largest(1)).completion(READ, 7_000).elapsed(99).completion(READ, 8_000), "-0-6"),
        case(start(largest(1)).completion(READ, 7_000).elapsed(100).completion(READ, 8_000), "-0-0"),
    ];
    // 0: the first completion of each counter, asked before it has loaded the stamp itself.
    for settings in [base(), largest(0), largest(255)] {
        cases.push(case(each_counter(start(settings)), "-000000000000"));
    }
    cases.extend(commands());
    cases
}

/// 2: by opcode, and by the attribute or bit of Dataset Management and Write Zeroes.
fn commands() -> Vec<ByHand> {
    let mut cases = Vec::new();
    for deallocate in [false, true] {
        let every = (0..=255).fold(start(base()), |f, opcode| f.completion(Command { opcode, deallocate }, 20_000));
        // Write and Read load, and with the attribute 08h does; the stamp of 09h is then set.
        let digit = |opcode| match (opcode, deallocate) {
            (0x01 | 0x02, _) | (0x08, true) => '0',
            (0x09, true) => '4',
            _ => '2',
        };
        let expected: String = (0..=255).map(digit).collect();
        cases.push(case(every, &format!("-{expected}")));
    }
    for (with, without) in [(DEALLOCATE, DATASET_MANAGEMENT), (WRITE_ZEROES_DEAC, WRITE_ZEROES)] {
        for (mode, digit) in [(0, '4'), (LARGEST, '5')] {
            let file = start(Settings { mode, ..base() }).completion(without, 7_000).completion(with, 7_000);
            let file = file.completion(without, 8_000).completion(with, 7_000).completion(with, BELOW);
            cases.push(case(file, &format!("-202{digit}3")));
        }
    }
    // Dataset Management and Write Zeroes have one stamp.
    let both = start(largest(0)).completion(DEALLOCATE, 7_000).completion(WRITE_ZEROES_DEAC, 7_000);
    cases.push(case(both.completion(WRITE_ZEROES_DEAC, 8_000).completion(DEALLOCATE, 8_000), "-0505"));
    cases
}

/// Where several reasons apply, the lowest is printed.
fn at_once() -> Vec<ByHand> {
    let none = Events::default;
    let mut cases = vec![
        // 1 and 2, 1 and 3, and 1, 2 and 3.
        case(none().completion(WRITE_ZEROES, 50_000).completion(READ, 0).completion(WRITE_ZEROES, 0), "111"),
        case(start(disabled(largest(255))).completion(DATASET_MANAGEMENT, 50_000).completion(WRITE, 0), "-11"),
        // 2 and 3.
        case(series(start(base()), WRITE_ZEROES, &[0, BELOW]), "-22"),
        case(series(start(largest(255)), DATASET_MANAGEMENT, &[0, BELOW]), "-22"),
        // 5 and 6, and then 6 alone.
        case(series(start(largest(255)), READ, &[7_000, 6_000, 7_000, 7_999, 8_000]), "-05556"),
        // With the minimum window over 5 alone, and nothing.
        case(series(start(largest(1)).completion(WRITE, 7_000).elapsed(100), WRITE, &[7_000, 8_000]), "-0-50"),
        // 4 where 5 and 6 would apply in mode largest: not larger, and within the minimum window.
        case(series(start(Settings { minimum_window: 255, ..base() }), READ, &[7_000, 6_000, 7_000, 8_000]), "-0444"),
    ];
    for settings in [base(), largest(0), largest(255)] {
        // 1 with 4, 5 or 6: the stamps are kept while disabled.
        let file = series(start(settings).completion(READ, 7_000).settings(disabled(settings)), READ, &[7_000, 8_000]);
        cases.push(case(file, "-0-11"));
        // The same with 2 and 3.
        let file = start(settings).completion(DEALLOCATE, 7_000).settings(disabled(settings));
        cases.push(case(file.completion(DATASET_MANAGEMENT, 7_000).completion(DEALLOCATE, 0), "-0-11"));
        // 2 and 3 where every stamp is set.
        let file = each_counter(start(settings)).completion(DATASET_MANAGEMENT, 7_000).completion(WRITE_ZEROES, 0);
        cases.push(case(series(file, READ, &[0, BELOW]), "-0000000000002233"));
    }
    cases
}

fn measured_latencies() -> Vec<ByHand> {
    let series_of: [(&[u32], &str); 9] = [
        (&[7_000, 8_000], "-00"),
        (&[7_000, 7_999, 7_001], "-055"),
        (&[7_999, 8_000], "-00"),
        (&[8_000, 7_000, 9_000], "-050"),
        (&[9_999, 9_000, 9_998], "-055"),
        (&[60_000, 50_000, 61_000, 60_999, 62_000, 62_000], "-050505"),
        // Held at 65,535 ms.
        (&[65_535_000, 65_535_999, 65_536_000, u32::MAX], "-0555"),
        (&[65_534_999, 65_535_000, u32::MAX], "-005"),
        (&[u32::MAX, 65_534_000, u32::MAX], "-055"),
    ];
    let mut cases = Vec::new();
    for (latencies, expected) in series_of {
        for kind in KINDS {
            cases.push(case(series(start(largest(0)), kind, latencies), expected));
        }
        // In mode first only the first loads.
        let expected = format!("-0{}", "4".repeat(latencies.len() - 1));
        cases.push(case(series(start(base()), READ, latencies), &expected));
    }
    // The latency of the last load counts, and not a larger one that did not load.
    let file = series(start(largest(1)), READ, &[5_000, 9_000]).elapsed(100);
    cases.push(case(series(file, READ, &[7_000, 9_000]).elapsed(100).completion(READ, 8_000), "-06-06-0"));
    // Each bucket has its own: 9 ms in bucket 0, 10 in bucket 1, 60 in bucket 3.
    let latencies = [9_999, 60_000, 10_000, 5_000, 9_999, 10_999, 11_000, 50_000];
    cases.push(case(series(start(largest(0)), WRITE, &latencies), "-00055505"));
    cases
}

fn stamps() -> Vec<ByHand> {
    let mut cases = Vec::new();
    for (mode, digit) in [(0, '4'), (LARGEST, '5')] {
        let settings = Settings { timer_threshold: 1, mode, ..base() };
        let with = |expected: &str| expected.replace('x', &digit.to_string());
        let set = || start(settings).completion(READ, 7_000);
        let again = |file: Events, expected: &str| case(file.completion(READ, 7_000), &with(expected));
        // The end of a window unsets the stamps: not a millisecond before it, and not again after it.
        cases.push(again(set().elapsed(299_999), "-0-x"));
        cases.push(again(set().elapsed(299_999).elapsed(1), "-0--0"));
        cases.push(again(set().elapsed(300_000).completion(READ, 7_000).elapsed(299_999), "-0-0-x"));
        cases.push(again(set().elapsed(300_000).elapsed(300_000), "-0--0"));
        // So do settings with enable 1, also the same ones. Others, refused ones, clock and power-up do not.
        cases.push(again(set().settings(settings), "-0-0"));
        cases.push(again(set().settings(disabled(settings)).completion(READ, 7_000).settings(settings), "-0-1-0"));
        cases.push(again(set().settings(disabled(settings)).elapsed(300_000), "-0--1"));
        cases.push(again(set().settings(Settings { discard: 2, ..settings }), "-0-x"));
        cases.push(again(set().timestamp(TIMESTAMP_TOP).power_up().timestamp(0), "-0---x"));
        // A stamp of the clock's first and of its last value is set.
        cases.push(again(start(settings).timestamp(0).completion(READ, 7_000), "--0x"));
        cases.push(again(start(settings).timestamp(TIMESTAMP_TOP).completion(READ, 7_000), "--0x"));
        // What did not load left it unset: below A, of no kind, or disabled.
        cases.push(again(start(settings).completion(READ, BELOW).completion(WRITE_ZEROES, 7_000), "-320"));
        cases.push(again(Events::default().completion(READ, 7_000).settings(settings), "1-0"));
        // The debug log has no part in it, nor its discard.
        let triggers = Settings { debug_trigger: 0x0FFF, discard: 1, ..settings };
        cases.push(again(start(triggers).completion(READ, 7_000), "-0x"));
    }
    cases.extend(counters());
    cases
}

/// Each counter has its own stamp, and its own bit of the mode.
fn counters() -> Vec<ByHand> {
    let zeros = "0".repeat(12);
    let mut cases = Vec::new();
    for n in 0..12 {
        // The others are set, and it is not.
        let others = (0..12).filter(|&c| c != n).fold(start(base()), |f, c| f.completion(command(c), latency(c)));
        cases.push(case(others.completion(command(n), latency(n)), &format!("-{zeros}")));
        // It alone is in mode largest: the same latencies again, and then larger ones.
        let file = each_counter(each_counter(start(Settings { mode: 1 << n, ..base() })));
        let file = (0..12).fold(file, |f, c| f.completion(command(c), latency(c) + 4_000));
        let but_one = |digit: &str| format!("{}{digit}{}", "4".repeat(n), "4".repeat(11 - n));
        cases.push(case(file, &format!("-{zeros}{}{}", but_one("5"), but_one("0"))));
    }
    cases
}

fn minimum_window() -> Vec<ByHand> {
    let mut cases = Vec::new();
    for (units, ms, digit) in [
        (0, 0, '0'),
        (1, 0, '6'),
        (1, 99, '6'),
        (1, 100, '0'),
        (1, 101, '0'),
        (2, 199, '6'),
        (2, 200, '0'),
        (10, 999, '6'),
        (10, 1_000, '0'),
        (255, 25_499, '6'),
        (255, 25_500, '0'),
        // More than 16 bits of milliseconds.
        (1, 65_536, '0'),
        (255, 131_072, '0'),
        (255, 300_000, '0'),
    ] {
        let load = start(largest(units)).elapsed(50).completion(READ, 7_000);
        // In one call, and in two.
        cases.push(case(load.clone().elapsed(ms).completion(READ, 8_000), &format!("--0-{digit}")));
        let parted = load.elapsed(ms / 2).elapsed(ms - ms / 2);
        cases.push(case(parted.completion(READ, 8_000), &format!("--0--{digit}")));
    }
    cases.extend(elapsed_time());
    cases.extend(from_the_last_load());
    cases
}

/// The time that has elapsed counts, and not the clock.
fn elapsed_time() -> Vec<ByHand> {
    let load = || start(largest(1)).timestamp(1 << 40).completion(READ, 7_000);
    let mut cases = Vec::new();
    // Set far ahead, ahead by the minimum window, not moved, and set back.
    for value in [1 << 41, TIMESTAMP_TOP, (1 << 40) + 100, 1 << 40, 0] {
        cases.push(case(load().timestamp(value).completion(READ, 8_000), "--0-6"));
        cases.push(case(load().timestamp(value).elapsed(99).completion(READ, 8_000), "--0--6"));
        cases.push(case(load().elapsed(99).timestamp(value).completion(READ, 8_000), "--0--6"));
        cases.push(case(load().timestamp(value).elapsed(100).completion(READ, 8_000), "--0--0"));
        cases.push(case(load().elapsed(100).timestamp(value).completion(READ, 8_000), "--0--0"));
    }
    // Power-up, and a clock that is held at its top.
    for (ms, expected) in [(99, "--0--6"), (100, "--0--0")] {
        cases.push(case(load().elapsed(ms).power_up().completion(READ, 8_000), expected));
        cases.push(case(load().power_up().elapsed(ms).completion(READ, 8_000), expected));
        let top = start(largest(1)).timestamp(TIMESTAMP_TOP).completion(READ, 7_000);
        cases.push(case(top.elapsed(ms).elapsed(0).completion(READ, 8_000), expected));
    }
    // Many short times.
    let short = (0..100).fold(load(), |f, _| f.elapsed(1).completion(READ, 8_000));
    cases.push(case(short, &format!("--0{}-0", "-6".repeat(99))));
    cases
}

/// Time runs from the counter's last load, whatever completes after it.
fn from_the_last_load() -> Vec<ByHand> {
    let load = || start(largest(1)).completion(WRITE, 5_000);
    // What does not load starts no new time.
    let blocked = load().elapsed(50).completion(WRITE, 6_000);
    // A load does, and each counter has its own.
    let twice = load().elapsed(60).completion(READ, 5_000).elapsed(40).completion(WRITE, 6_000).completion(READ, 6_000);
    let (early, late) = (twice.clone().elapsed(60), twice.elapsed(100));
    let both = |file: Events| file.completion(WRITE, 7_000).completion(READ, 7_000);
    // A new window loads at once, and time runs from that load.
    let short = Settings { timer_threshold: 1, ..largest(255) };
    let next = start(short).elapsed(299_990).completion(READ, 9_000).elapsed(10).completion(READ, 5_000);
    let anew = start(short).completion(READ, 9_000).settings(short).completion(READ, 5_000);
    vec![
        case(blocked.clone().elapsed(49).completion(WRITE, 7_000), "-0-6-6"),
        case(blocked.elapsed(50).completion(WRITE, 7_000), "-0-6-0"),
        case(both(early), "-0-0-06-60"),
        case(both(late), "-0-0-06-00"),
        case(next.clone().elapsed(25_499).completion(READ, 6_000), "--0-0-6"),
        case(next.elapsed(25_500).completion(READ, 6_000), "--0-0-0"),
        case(anew.clone().elapsed(25_499).completion(READ, 6_000), "-0-0-6"),
        case(anew.elapsed(25_500).completion(READ, 6_000), "-0-0-0"),
    ]
}

/// Settings and two Reads, with the answers "-04".
fn two_reads() -> Events {
    series(start(base()), READ, &[5_000, 6_000])
}

/// Numbers that no record has, and those with bytes missing.
fn numbers() -> Vec<ByHand> {
    let mut cases = Vec::new();
    // Beyond the end, also where 16 x the number does not fit 32 bits, or one byte of it alone would be a record.
    let beyond = [1 << 8, 1 << 16, 1 << 24, 1 << 27, 1 << 28, 3 << 28, 1 << 31, 15 << 28];
    let beyond: Vec<u32> = beyond.into_iter().flat_map(|n| [n, n + 1, n + 2]).chain([u32::MAX - 1, u32::MAX]).collect();
    for (file, first) in [(two_reads(), "-04-----"), (two_reads().raw(&[2]), "-04-----"), (Events::default(), "-----")]
    {
        let asked: Vec<(u32, char)> = (0..).zip(first.chars()).chain(beyond.iter().map(|&n| (n, '-'))).collect();
        cases.push(numbered(file, asked));
    }
    // Fewer than 4 bytes, though a record would have the number.
    for file in [two_reads(), Events::default()] {
        let short: [&[u8]; 9] = [&[], &[0], &[1], &[2], &[1, 0], &[2, 0], &[1, 0, 0], &[2, 0, 0], &[255, 255, 255]];
        let numbers: Vec<Vec<u8>> = short.into_iter().map(Vec::from).collect();
        cases.push(ByHand { expected: "-".repeat(numbers.len()), vector: ReasonsVector { file: file.0, numbers } });
    }
    // Bytes left over are no record, even those of a completion but for the last.
    let tail = Events::default().completion(WRITE, 5_000).0;
    for count in 0..RECORD {
        cases.push(case(two_reads().raw(&tail[..count]), "-04"));
        cases.push(case(Events::default().raw(&tail[..count]), ""));
    }
    // The lowest byte is first: 1 and 2 are other records than 256 and 512, and 258 than 513.
    let file = filled(two_reads(), Events::default().completion(READ, 7_000), 256);
    let file = file.completion(WRITE_ZEROES, 7_000).elapsed(1).completion(READ, BELOW);
    let file =
        filled(file, Events::default().completion(READ, 7_000), 512).completion(WRITE, 0).completion(WRITE, 5_000);
    let asked =
        [(1, '0'), (2, '4'), (255, '4'), (256, '2'), (257, '-'), (258, '3'), (512, '3'), (513, '0'), (514, '-')];
    cases.push(numbered(
        file,
        asked.into_iter().chain([(1 << 24, '-'), (2 << 24, '-'), (1 << 16, '-'), (2 << 16, '-')]),
    ));
    cases
}

/// A completion's record with another byte at a place.
fn wrong(command: Command, latency_us: u32, place: usize, byte: u8) -> Vec<u8> {
    let mut record = Events::default().completion(command, latency_us).0;
    record[place] = byte;
    record
}

/// Records that are no completion free of refusal 11, between two that are.
fn other_records() -> Vec<ByHand> {
    let none = Events::default;
    let read = || start(base()).completion(READ, 7_000);
    let mut cases = vec![
        case(read().settings(base()).completion(READ, 7_000), "-0-0"),
        case(read().settings(disabled(base())).completion(READ, 7_000), "-0-1"),
    ];
    let accepted =
        [none().elapsed(0), none().elapsed(300_000), none().timestamp(0), none().timestamp(2), none().power_up()];
    let refused =
        [none().elapsed(300_001), none().timestamp(1 << 48), start(Settings { timer_threshold: 0, ..base() })];
    let mut records: Vec<Vec<u8>> = accepted.into_iter().chain(refused).map(|file| file.0).collect();
    for kind in [0, 6, 255] {
        let mut zeros = vec![0; RECORD];
        zeros[0] = kind;
        records.extend([zeros, wrong(READ, 7_000, 0, kind)]);
    }
    for place in unnamed(2).expect("a kind of record") {
        records.extend([1, 128, 255].map(|byte| wrong(READ, 7_000, place, byte)));
    }
    for command in [READ, WRITE_ZEROES_DEAC, DATASET_MANAGEMENT] {
        records.extend([2, 3, 128, 255].map(|byte| wrong(command, 7_000, 2, byte)));
    }
    cases.extend(records.iter().map(|record| case(read().raw(record).completion(READ, 7_000), "-0-4")));
    // All of them one after another.
    let all = records.iter().fold(read(), |f, record| f.raw(record)).completion(READ, 7_000);
    cases.push(case(all, &format!("-0{}4", "-".repeat(records.len()))));
    cases
}

/// Refused records are skipped, and have their numbers all the same.
fn after_refused() -> Vec<ByHand> {
    let mut cases = Vec::new();
    // Settings refused by 3 to 6 neither enable nor unset stamps.
    for row in 0..4 {
        for way in 0..5 {
            let refused = breaking(std::array::from_fn(|r| r == row), way);
            cases.push(case(start(refused).completion(READ, 50_000), "-1"));
            cases.push(case(two_reads().settings(refused).completion(READ, 7_000), "-04-4"));
            let waiting = start(largest(1)).completion(WRITE, 7_000).settings(refused);
            cases.push(case(waiting.completion(WRITE, 8_000).elapsed(100).completion(WRITE, 8_000), "-0-6-0"));
        }
    }
    cases.extend(refused_time());
    cases.extend(refused_by_11());
    // Many of them, before the settings too.
    let many = Events::default().raw(&[0; 3 * RECORD]).elapsed(300_001).settings(base()).raw(&[255; 2 * RECORD]);
    let many = many.completion(READ, 5_000).timestamp(1 << 48).settings(breaking([true; 4], 0)).completion(READ, 5_000);
    cases.push(case(many, "-------0--4"));
    cases.push(case(Events::default().raw(&[0; 40 * RECORD]).completion(READ, 5_000), &format!("{}1", "-".repeat(40))));
    cases
}

/// Elapsed time and timestamps refused by 7 and 8, and elapsed time by 11: they take no time and end no window.
fn refused_time() -> Vec<ByHand> {
    let none = Events::default;
    let mut unnamed = none().elapsed(100).0;
    unnamed[15] = 1;
    let refused = [
        none().elapsed(300_001),
        none().elapsed(u32::MAX),
        none().timestamp(1 << 48),
        none().timestamp(u64::MAX),
        none().raw(&unnamed),
    ];
    let short = Settings { timer_threshold: 1, ..base() };
    let cases = refused.into_iter().flat_map(|Events(record)| {
        let waiting = start(largest(1)).completion(READ, 7_000).raw(&record).elapsed(99).completion(READ, 8_000);
        let ending = start(short).completion(READ, 7_000).elapsed(299_999).raw(&record).completion(READ, 8_000);
        [
            case(waiting.clone(), "-0--6"),
            case(waiting.raw(&record).elapsed(1).completion(READ, 8_000), "-0--6--0"),
            case(ending.clone(), "-0--4"),
            case(ending.elapsed(1).completion(READ, 8_000), "-0--4-0"),
        ]
    });
    cases.collect()
}

/// Completions refused by 11 load no stamp, and other such records change nothing.
fn refused_by_11() -> Vec<ByHand> {
    let mut cases = Vec::new();
    for (place, byte) in [(0, 7), (2, 2), (3, 1), (8, 128), (15, 255)] {
        let first = start(base()).raw(&wrong(READ, 9_000, place, byte));
        cases.push(case(series(first, READ, &[7_000, 8_000]), "--04"));
        let larger = start(largest(0)).completion(READ, 7_000).raw(&wrong(READ, 9_000, place, byte));
        cases.push(case(series(larger, READ, &[8_000, 9_000, 9_000]), "-0-005"));
        let late = start(largest(1)).completion(READ, 7_000).elapsed(100).raw(&wrong(READ, 9_000, place, byte));
        cases.push(case(series(late, READ, &[8_000, 9_000]), "-0--06"));
    }
    // Settings that would enable or disable, and power-up, but for an unnamed byte.
    for Events(mut record) in [start(base()), start(disabled(base())), Events::default().power_up()] {
        record[14] = 1;
        cases.push(case(two_reads().raw(&record).completion(READ, 7_000), "-04-4"));
        cases.push(case(Events::default().raw(&record).completion(READ, 7_000), "-1"));
    }
    cases
}

/// Writes in mode largest, the others in mode first; a Read and a Write of 7 ms, and then a millisecond less than the
/// minimum window. Filled up to record number `to`.
fn carried(filler: Events, to: usize) -> Events {
    let settings = Settings { mode: 0x0492, minimum_window: 10, ..base() };
    filled(start(settings).completion(READ, 7_000).completion(WRITE, 7_000).elapsed(999), filler, to)
}

/// After such a file a completion for each digit, where 0 is the first of the counter named.
fn with_digits(file: Events, digits: &str, counter: usize) -> Events {
    digits.chars().fold(file, |f, digit| match digit {
        '0' => f.completion(command(counter), latency(counter)),
        '2' => f.completion(WRITE_ZEROES, 7_000),
        '3' => f.completion(READ, BELOW),
        '4' => f.completion(READ, 8_000),
        '5' => f.completion(WRITE, 7_000),
        '6' => f.completion(WRITE, 8_000),
        _ => unreachable!("no such digit"),
    })
}

/// The records from a number on, with what is expected.
fn from(first: usize, expected: &str) -> Vec<(u32, char)> {
    (first as u32..).zip(expected.chars()).collect()
}

/// Every digit on both sides of a block's end, by what was before it.
fn beyond_one_block() -> Vec<ByHand> {
    let none = Events::default;
    let mut cases = Vec::new();
    // Two blocks, the second to its last record: there the minimum window is over.
    let file = with_digits(with_digits(carried(none().elapsed(0), BLOCK - 2), "023456", 2), "654320", 9);
    let file = with_digits(filled(file, none().power_up(), 2 * BLOCK - 8), "6320", 8).elapsed(1);
    let file = series(file.completion(READ, 9_000), WRITE, &[7_000, 8_000]);
    let asked = [from(0, "-00--"), from(BLOCK - 3, "-023456654320-"), from(2 * BLOCK - 9, "-6320-450---")];
    cases.push(numbered(file, asked.concat()));
    // The other way round, then disabled and enabled, and a byte left over.
    let file = with_digits(carried(none().completion(READ, BELOW), BLOCK - 2), "456023", 2);
    let file = series(file.settings(disabled(base())), READ, &[5_000, 0]).settings(largest(0));
    let file = filled(file.completion(READ, 5_000), none().completion(READ, 5_000), 4_199).completion(READ, 6_000);
    let asked =
        [from(0, "-00-33"), from(BLOCK - 4, "33456023-11-055"), from(4_197, "550---"), from(2 * BLOCK - 1, "---")];
    cases.push(numbered(file.raw(&[2]), asked.concat()));
    // Disabled in the last record but one of a block, and enabled in the next one.
    let file = carried(none().completion(WRITE_ZEROES, 7_000), BLOCK - 3);
    let file = with_digits(file, "6", 2).settings(disabled(base()));
    let file = series(series(file, READ, &[7_000, 7_000]).settings(base()), READ, &[7_000, 7_000]);
    let tail = none().completion(READ, 50_000).0;
    cases.push(numbered(file.raw(&tail[..15]), from(BLOCK - 4, "26-11-04---")));
    // The end of a window in the last record of a block, and bytes left over in the next one.
    let short = Settings { timer_threshold: 1, ..base() };
    let file = start(short).completion(READ, 7_000).elapsed(299_999);
    let file = filled(file, none().timestamp(5), BLOCK - 2).completion(READ, 7_000).elapsed(1);
    cases.push(numbered(file.clone().raw(&tail[..15]), from(BLOCK - 3, "-4---")));
    cases.push(numbered(series(file, READ, &[7_000, 7_000]), from(BLOCK - 3, "-4-04--")));
    cases
}

/// Few latencies and times close to the minimum window, so that every reason comes often.
pub(crate) fn close_mixture(random: &mut Random) -> Events {
    let settings = |random: &mut Random| Settings {
        timer_threshold: 1,
        mode: random.pick(&[LARGEST, LARGEST, 0x0555, 0]),
        minimum_window: random.pick(&[0, 1, 1, 2, 10]),
        enable: random.chance(85).into(),
        ..base()
    };
    let file = start(Settings { enable: 1, ..settings(random) });
    (1..random.from(20, 70)).fold(file, |file, _| match random.below(40) {
        0..=27 => {
            let command = random.pick(&[READ, READ, WRITE, WRITE, DEALLOCATE, WRITE_ZEROES_DEAC, DATASET_MANAGEMENT]);
            file.completion(command, 500 * random.from(8, 26) as u32)
        }
        28..=35 => file.elapsed(random.pick(&[0, 1, 50, 99, 100, 200, 999, 1_000])),
        36 => file.elapsed(300_000),
        37 => file.settings(settings(random)),
        _ => random_event(random, file),
    })
}

/// Random files, some of them damaged, with every record asked for and some numbers beyond them.
fn random_mixtures(random: &mut Random) -> Vec<ReasonsVector> {
    let mut files: Vec<Events> = (0..40).map(|_| close_mixture(random)).collect();
    for _ in 0..24 {
        let records = random.from(5, 80);
        files.push(random_mixture(random, records));
    }
    files.extend((0..12).map(|_| damaged(random)));
    files.push(random_mixture(random, 400));
    let every = |file: Events| {
        let end = records(&file);
        let beyond = [end, end + 1, random.bits() as u32 | 1 << 20, (1 << 28) + random.below(end.into()) as u32];
        ReasonsVector { file: file.0, numbers: (0..end).chain(beyond).map(bytes).collect() }
    };
    files.into_iter().map(every).collect()
}
