use crate::answers::{answer, answers, Answer};
use crate::events::{printed, read, record_answers, Events, Preset, Refused, RECORD};
use crate::facts::{all_completions, facts, in_force, Event, Facts, BELOW_A};
use crate::groups::{
    each_kind, example, groups, random_mixture, BELOW, DATASET_MANAGEMENT, DEALLOCATE, READ, WRITE_ZEROES,
    WRITE_ZEROES_DEAC,
};
use crate::history::{accepted_elapsed, accepted_settings, refusal, Call, Command, Settings, Window, INCREMENT_MS};
use crate::order::{self, random_completions, shuffled, Timed};
use crate::page::{page, page_bytes, settings_back};
use crate::pages;
use crate::questions::{self, close_mixture};
use crate::random::Random;
use crate::reading::{listing, read_page, zero_places};
use crate::reasons::{applying, explained, reason, reasons, EventFile};
use crate::vectors::{self, EventVector, Group, ReasonsVector, Vectors, LONGEST_FILE, MOST_QUESTIONS};

/// The commands that count, each as its opcode, its attribute or bit, and its kind.
const COUNTED: [(u8, bool, usize); 6] =
    [(0x02, false, 0), (0x02, true, 0), (0x01, false, 1), (0x01, true, 1), (0x09, true, 2), (0x08, true, 2)];

/// The kind of a command, by the table alone.
fn kind(command: Command) -> Option<usize> {
    let row = COUNTED.iter().find(|&&(opcode, deallocate, _)| command == Command { opcode, deallocate });
    row.map(|&(_, _, kind)| kind)
}

fn base() -> Settings {
    Settings { timer_threshold: 2, thresholds: [0, 1, 3, 9], enable: 1, ..Settings::default() }
}

fn page_of(file: Events) -> [u8; 512] {
    page(&read(&file.0, &[]).0, 512).unwrap()
}

fn number(page: &[u8; 512], place: usize, bytes: usize) -> u64 {
    page[place..place + bytes].iter().rev().fold(0, |n, &b| n << 8 | u64::from(b))
}

/// The Read counters of the active window, by bucket.
fn reads(page: &[u8; 512]) -> [u64; 4] {
    [44, 60, 76, 92].map(|place| number(page, place, 4))
}

#[test]
fn printed_example() {
    let expected = "\
000: 01000000020000010309000000000000
020: 00000000000000000000000001000000
060: FFFFFFFFFFFFFFFFFFFFFFFFFFFFFFFF
070: FFFFFFFFFFFFFFFFFFFFFFFFFFFFFFFF
080: FFFFFFFFFFFFFFFFFFFFFFFFFFFFFFFF
090: FFFFFFFFFFFFFFFFFFFFFFFFFFFFFFFF
0A0: FFFFFFFFFFFFFFFFFFFFFFFFFFFFFFFF
0B0: FFFFFFFFFFFFFFFFE803000000000000
0D0: 00000000000007000000000000000000
130: FFFFFFFFFFFFFFFFFFFFFFFFFFFFFFFF
140: FFFFFFFFFFFFFFFFFFFFFFFFFFFFFFFF
150: FFFFFFFFFFFFFFFFFFFFFFFFFFFFFFFF
160: FFFFFFFFFFFFFFFFFFFFFFFFFFFFFFFF
170: FFFFFFFFFFFFFFFFFFFFFFFFFFFFFFFF
180: FFFFFFFFFFFFFFFFFFFFFFFFFFFFFFFF
1C0: 01000700E80300000000000000000100
";
    assert_eq!(printed(&example().0), expected);
}

#[test]
fn p1_to_p6_buckets() {
    let cases = [
        (4_999, [0, 0, 0, 0]),
        (5_000, [1, 0, 0, 0]),
        (9_999, [1, 0, 0, 0]),
        (10_000, [0, 1, 0, 0]),
        (49_999, [0, 0, 1, 0]),
        (50_000, [0, 0, 0, 1]),
    ];
    for (us, expected) in cases {
        assert_eq!(reads(&page_of(Events::default().settings(base()).completion(READ, us))), expected);
    }
}

#[test]
fn p7_p8_measured_latency() {
    let file = Events::default().settings(base());
    assert_eq!(number(&page_of(file.clone().completion(READ, u32::MAX)), 196, 2), 65_535);
    assert_eq!(number(&page_of(file.completion(READ, 7_999)), 214, 2), 7);
}

#[test]
fn p9_equal_thresholds() {
    let settings = Settings { thresholds: [1, 1, 3, 9], ..base() };
    let file = Events::default().settings(settings).completion(READ, 10_000);
    assert_eq!(reads(&page_of(file)), [0, 1, 0, 0]);
}

#[test]
fn p10_window_end() {
    let settings = Settings { timer_threshold: 1, ..base() };
    let file = Events::default().settings(settings).completion(READ, 5_000).elapsed(299_999);
    let before = page_of(file.clone());
    let after = page_of(file.elapsed(1));
    assert_eq!((number(&before, 44, 4), number(&before, 252, 4)), (1, 0));
    assert_eq!((number(&after, 44, 4), number(&after, 252, 4)), (0, 1));
}

#[test]
fn p11_p12_stamp_places() {
    let file = Events::default().settings(base()).elapsed(0x1234);
    assert_eq!(number(&page_of(file.clone().completion(READ, 50_000)), 112, 8), 0x1234);
    assert_eq!(number(&page_of(file.completion(DEALLOCATE, 5_000)), 168, 8), 0x1234);
}

#[test]
fn version_and_guid() {
    let page = page_of(Events::default());
    assert_eq!(number(&page, 494, 2), 4);
    assert_eq!((page[496], page[511]), (0x92, 0x85));
}

#[test]
fn edges() {
    let falling = Settings { thresholds: [2, 1, 3, 9], ..base() };
    assert_eq!(refusal(&Call::Settings(falling.to_buffer())), Some(5));
    assert_eq!(page(&[], 511), Err(9));
    assert_eq!(page(&[], 513), Err(9));
    assert_eq!(settings_back(&[], 4_095), Err(10));
    let discard = [Call::Settings(Settings { discard: 1, ..base() }.to_buffer())];
    assert_eq!(settings_back(&discard, 4_096), Ok(base().to_bytes()));
}

#[test]
fn answers_of_calls() {
    let settings = Settings { timer_threshold: 1, mode: 1, debug_trigger: 1, ..base() };
    let file = Events::default().completion(READ, 5_000).settings(settings).elapsed(300_001).elapsed(299_999);
    let file = file.completion(READ, 4_999).completion(READ, 5_000).completion(READ, 5_999).completion(READ, 6_000);
    let (history, _) = read(&file.elapsed(1).0, &[]);
    let counted = |loaded, debug| Answer::Counted { counter: 0, loaded, debug };
    let expected = [
        Answer::NotCounted,
        Answer::Done,
        Answer::Refused(7),
        Answer::Elapsed { ended: false },
        Answer::NotCounted,
        counted(true, true),
        counted(false, false),
        counted(true, false),
        Answer::Elapsed { ended: true },
    ];
    let given: Vec<Answer> = (1..=history.len()).map(|end| answer(&history[..end])).collect();
    assert_eq!(given, expected);
    assert_eq!(answers(&history), expected);
}

#[test]
fn answers_of_records() {
    let file = Events::default().settings(base()).raw(&[0; 16]).completion(READ, 5_000).completion(READ, 5_000);
    let file = file.timestamp(1 << 48).elapsed(3).power_up().raw(&[2, 2, 0]);
    let counted = |loaded| Answer::Counted { counter: 0, loaded, debug: false };
    let expected = [
        Answer::Done,
        Answer::Refused(11),
        counted(true),
        counted(false),
        Answer::Refused(8),
        Answer::Elapsed { ended: false },
        Answer::Done,
    ];
    assert_eq!(record_answers(&file.0, &[]), expected);
    // A preset is no record, and has no part in the answers.
    let preset = Preset { counter: 0, value: u32::MAX, record: 3 };
    assert_eq!(record_answers(&file.0, &[preset]), expected);
    let codes = [1, 88, 11, 3, 64, 4, 1];
    assert_eq!(expected.map(vectors::coded), codes);
    assert_eq!(vectors::coded(Answer::NotCounted), 2);
    assert_eq!(vectors::coded(Answer::Elapsed { ended: true }), 5);
    assert_eq!(vectors::coded(Answer::Counted { counter: 11, loaded: false, debug: true }), 371);
}

#[test]
fn part_of_an_increment_is_kept() {
    let settings = Settings { timer_threshold: 1, ..base() };
    let file = Events::default().settings(settings).elapsed(200_000).elapsed(200_000);
    let file = file.completion(READ, 5_000).elapsed(200_000);
    assert_eq!(number(&page_of(file), 252, 4), 1);
}

#[test]
fn minimum_window_is_not_the_clocks() {
    let settings = Settings { mode: 0x0FFF, minimum_window: 1, ..base() };
    let file = Events::default().settings(settings).timestamp(1_000_000).completion(READ, 5_000).timestamp(7);
    let early = page_of(file.clone().elapsed(99).completion(READ, 6_000));
    let late = page_of(file.elapsed(100).completion(READ, 6_000));
    assert_eq!((number(&early, 184, 8), number(&early, 214, 2)), (1_000_000, 5));
    assert_eq!((number(&late, 184, 8), number(&late, 214, 2)), (107, 6));
}

#[test]
fn refused_records() {
    let file = example().raw(&[0; 16]).elapsed(300_001).raw(&[2, 2]);
    let expected = [(3, 11), (4, 7), (5, 12)].map(|(record, number)| Refused { record, number });
    assert_eq!(read(&file.0, &[]).1, expected);
    assert!(printed(&file.0).starts_with("refused 3 11\nrefused 4 7\nrefused 5 12\n000: 01"));
}

#[test]
fn counter_at_its_top() {
    let file =
        Events::default().settings(base()).completion(READ, 5_000).completion(READ, 5_000).completion(READ, 5_000);
    for (value, shown) in [(u32::MAX - 2, u32::MAX), (u32::MAX - 1, u32::MAX), (u32::MAX, u32::MAX), (7, 9)] {
        let preset = Preset { counter: 0, value, record: 2 };
        let page = page(&read(&file.0, &[preset]).0, 512).unwrap();
        assert_eq!(number(&page, 44, 4), u64::from(shown));
    }
}

fn facts_of(file: Events) -> Facts {
    facts(&read(&file.0, &[]).0)
}

/// The counts below A of the active and of the static window.
fn below_a(facts: &Facts) -> [[u32; 3]; 2] {
    [facts.active_below_a, facts.static_below_a]
}

/// Random histories, with the calls that only read among the others.
fn random_histories(seed: u64) -> Vec<Vec<Call>> {
    let mut random = Random::new(seed);
    let mut histories = Vec::new();
    for _ in 0..300 {
        let records = random.from(20, 120);
        let mut history = Vec::new();
        for call in read(&random_mixture(&mut random, records).0, &[]).0 {
            history.push(call);
            if random.chance(20) {
                history.push(reading_call(&mut random));
            }
        }
        histories.push(history);
    }
    histories
}

fn reading_call(random: &mut Random) -> Call {
    match random.below(4) {
        0 => Call::Page(random.pick(&[511, 512])),
        1 => Call::SettingsBack(random.pick(&[4_095, 4_096])),
        2 => Call::BelowA(Window::Active),
        _ => Call::BelowA(Window::Static),
    }
}

#[test]
fn below_a_edges() {
    for a in [0, 1, 255] {
        let settings = Settings { thresholds: [a, 255, 255, 255], ..base() };
        let reached = 5_000 * (u32::from(a) + 1);
        for (us, expected) in [(0, [1, 2, 3]), (reached - 1, [1, 2, 3]), (reached, [0; 3]), (reached + 1, [0; 3])] {
            let file = each_kind(Events::default().settings(settings), us);
            let answers = record_answers(&file.0, &[]);
            assert!(answers[1..].iter().all(|&answer| (answer == Answer::NotCounted) == (us < reached)));
            assert_eq!(below_a(&facts_of(file)), [expected, [0; 3]]);
        }
    }
    // No kind, and nothing enabled.
    assert_eq!(below_a(&facts_of(Events::default().settings(base()).completion(WRITE_ZEROES, 0))), [[0; 3]; 2]);
    assert_eq!(below_a(&facts_of(each_kind(Events::default(), 0))), [[0; 3]; 2]);
}

#[test]
fn below_a_with_the_window() {
    let enabled = Settings { timer_threshold: 1, ..base() };
    let file = each_kind(Events::default().settings(enabled), 0).elapsed(300_000).completion(READ, 0);
    let both = [[1, 0, 0], [1, 2, 3]];
    assert_eq!(below_a(&facts_of(file.clone())), both);
    assert_eq!(below_a(&facts_of(file.clone().power_up().timestamp(9))), both);
    assert_eq!(below_a(&facts_of(file.clone().settings(Settings { timer_threshold: 0, ..base() }))), both);
    // Kept and frozen with enable 0, emptied with enable 1.
    let frozen = file.clone().settings(Settings { enable: 0, ..enabled }).completion(READ, 0).elapsed(300_000);
    assert_eq!(below_a(&facts_of(frozen.clone())), both);
    assert_eq!(below_a(&facts_of(frozen.settings(enabled))), [[0; 3]; 2]);
    assert_eq!(below_a(&facts_of(file.clone().settings(enabled))), [[0; 3]; 2]);
    // Moved at the end of a window, also of an empty one.
    assert_eq!(below_a(&facts_of(file.clone().elapsed(300_000))), [[0; 3], [1, 0, 0]]);
    assert_eq!(below_a(&facts_of(file.elapsed(300_000).elapsed(300_000))), [[0; 3]; 2]);
}

#[test]
fn below_a_at_its_top() {
    let file = each_kind(each_kind(Events::default().settings(base()), 0), 0);
    for (kind, more) in [1, 2, 3].into_iter().enumerate() {
        for value in [7, u32::MAX - more, u32::MAX - 1, u32::MAX] {
            let preset = Preset { counter: (BELOW_A + kind) as u8, value, record: 7 };
            let mut expected = [2, 4, 6];
            expected[kind] = value.saturating_add(more);
            assert_eq!(facts(&read(&file.0, &[preset]).0).active_below_a, expected);
        }
    }
}

/// The call answers the counts of its window, and moves nothing; neither do the others that only read.
#[test]
fn below_a_calls() {
    for history in random_histories(21) {
        for (history, answer) in (1..=history.len()).map(|end| &history[..end]).zip(answers(&history)) {
            match history.last() {
                Some(Call::BelowA(Window::Active)) => assert_eq!(answer, Answer::BelowA(facts(history).active_below_a)),
                Some(Call::BelowA(Window::Static)) => assert_eq!(answer, Answer::BelowA(facts(history).static_below_a)),
                _ => {}
            }
        }
        let reads = |call: &&Call| matches!(call, Call::Page(_) | Call::SettingsBack(_) | Call::BelowA(_));
        let without: Vec<Call> = history.iter().filter(|call| !reads(call)).cloned().collect();
        assert_eq!(facts(&without), facts(&history));
    }
}

/// The enabled completions of each kind in the active and in the static window, counted call by call.
fn completions(history: &[Call]) -> [[u64; 3]; 2] {
    let mut settings = Settings::default();
    let mut time = 0;
    let mut windows = [[0; 3]; 2];
    for call in history {
        if let Some(accepted) = accepted_settings(call) {
            settings = accepted;
            (time, windows) = if settings.enabled() { (0, [[0; 3]; 2]) } else { (time, windows) };
        }
        if !settings.enabled() {
            continue;
        }
        let length = INCREMENT_MS * u64::from(settings.timer_threshold);
        time += accepted_elapsed(call);
        if time >= length {
            (time, windows) = (time - length, [[0; 3], windows[0]]);
        }
        if let Call::Completion { command, .. } = *call {
            if let Some(kind) = kind(command) {
                windows[0][kind] += 1;
            }
        }
    }
    windows
}

/// A kind's counts in the active and in the static window: by bucket, and the one below A last.
fn counts(facts: &Facts, kind: usize) -> [[u32; 5]; 2] {
    let windows = [(facts.active_window, facts.active_below_a), (facts.static_window, facts.static_below_a)];
    windows.map(|(window, below_a)| {
        let all: Vec<u32> = window.iter().map(|shown| shown.count).chain(below_a).collect();
        std::array::from_fn(|n| all[3 * n + kind])
    })
}

/// The five counts of a kind are together the enabled completions of that kind in the window.
#[test]
fn five_counts() {
    let mut on_both_sides = [0; 2];
    for history in random_histories(22) {
        let facts = facts(&history);
        for kind in 0..3 {
            for (n, [a, b, c, d, below]) in counts(&facts, kind).into_iter().enumerate() {
                let counted: u64 = [a, b, c, d].map(u64::from).iter().sum();
                assert_eq!(counted + u64::from(below), completions(&history)[n][kind]);
                on_both_sides[n] += u32::from(counted > 0 && below > 0);
            }
        }
    }
    assert!(on_both_sides.iter().all(|&times| times > 50));
}

/// Without its completions below A a history has the same page, and the same answers but for the counts below A.
#[test]
fn pages_without_below_a() {
    let mut differ = 0;
    for history in random_histories(23) {
        let below = |place: usize| match history[place] {
            Call::Completion { latency_us, .. } => {
                latency_us < 5_000 * (u32::from(in_force(&history[..place]).thresholds[0]) + 1)
            }
            _ => false,
        };
        let others: Vec<usize> = (0..history.len()).filter(|&place| !below(place)).collect();
        let without: Vec<Call> = others.iter().map(|&place| history[place].clone()).collect();
        let behind = facts(&history);
        differ += u32::from(below_a(&behind) != [[0; 3]; 2]);
        assert_eq!(page(&without, 512), page(&history, 512));
        assert_eq!(facts(&without), Facts { active_below_a: [0; 3], static_below_a: [0; 3], ..behind });
        let given = answers(&history);
        for (answer, &place) in answers(&without).into_iter().zip(&others) {
            assert!(answer == given[place] || matches!(given[place], Answer::BelowA(_)));
        }
    }
    assert!(differ > 100);
}

/// Every opcode with either value, slow and below A, with the monitor enabled and disabled.
#[test]
fn kinds_of_commands() {
    let every_opcode = (0..=255).flat_map(|opcode| [false, true].map(|deallocate| Command { opcode, deallocate }));
    for command in every_opcode {
        let file = |enable| {
            let settings = Settings { debug_trigger: 0x0FFF, enable, ..base() };
            Events::default().settings(settings).completion(command, BELOW).completion(command, 20_000)
        };
        for (file, kind) in [(file(1), kind(command)), (file(0), None)] {
            let slow = kind.map(|kind| 6 + kind);
            let counted = |counter| Answer::Counted { counter, loaded: true, debug: true };
            let expected = [Answer::Done, Answer::NotCounted, slow.map_or(Answer::NotCounted, counted)];
            assert_eq!(record_answers(&file.0, &[]), expected);
            let facts = facts_of(file);
            assert_eq!(facts.active_window.map(|shown| shown.count), std::array::from_fn(|n| (Some(n) == slow).into()));
            assert_eq!(facts.active_below_a, std::array::from_fn(|n| (Some(n) == kind).into()));
            assert_eq!(facts.debug_log.map(|(counter, _)| counter), slow);
        }
    }
}

/// Counter, stamp and debug log of a Write Zeroes with its bit, by the numbers of the scope paper. What comes before it
/// without attribute or bit leaves no trace.
#[test]
fn write_zeroes_on_the_page() {
    for (bucket, us) in [5_000, 10_000, 20_000, 50_000].into_iter().enumerate() {
        let file = Events::default().settings(Settings { debug_trigger: 0x0FFF, ..base() }).elapsed(9);
        let file = file
            .completion(DATASET_MANAGEMENT, us)
            .completion(WRITE_ZEROES, us + 1_000)
            .completion(DATASET_MANAGEMENT, BELOW);
        let file = file.elapsed(0x1234 - 9).completion(WRITE_ZEROES_DEAC, us).completion(WRITE_ZEROES_DEAC, BELOW);
        let page = page_of(file.clone());
        let stamp = 32 + 64 + 24 * (3 - bucket);
        let latency = 32 + 160 + 6 * (3 - bucket);
        let ms = u64::from(us / 1_000);
        assert_eq!(number(&page, 32 + 16 * bucket + 4, 4), 1);
        assert_eq!((number(&page, stamp, 8), number(&page, latency, 2)), (0x1234, ms));
        assert_eq!((number(&page, 450, 2), number(&page, 452, 8)), (ms, 0x1234));
        assert_eq!(number(&page, 462, 2), 4 << (3 * bucket));
        assert_eq!(below_a(&facts_of(file)), [[0, 0, 1], [0; 3]]);
    }
}

/// A completion of 5,000 microseconds with these bytes 2 and 3.
fn completion_record(opcode: u8, bytes: [u8; 2]) -> [u8; 16] {
    [2, opcode, bytes[0], bytes[1], 0x88, 0x13, 0, 0, 0, 0, 0, 0, 0, 0, 0, 0]
}

#[test]
fn bytes_2_and_3() {
    let after = |record: &[u8]| example().raw(record).elapsed(7).completion(READ, 10_000);
    let refused = |record: &[u8]| read(&after(record).0, &[]).1;
    let by_11 = [Refused { record: 3, number: 11 }];
    for opcode in [0x02, 0x01, 0x09, 0x08, 0x05] {
        for byte in [0, 1] {
            assert_eq!(refused(&completion_record(opcode, [byte, 0])), []);
            assert_eq!(refused(&completion_record(opcode, [byte, 1])), by_11);
        }
        for byte in 2..=255 {
            let record = completion_record(opcode, [byte, 0]);
            assert_eq!(refused(&record), by_11);
            assert_eq!(facts_of(after(&record)), facts_of(after(&[])));
        }
    }
    // Elapsed time, timestamps and power-up name no byte 2.
    for kind in [3, 4, 5] {
        assert_eq!(refused(&[kind, 0, 1, 0, 0, 0, 0, 0, 0, 0, 0, 0, 0, 0, 0, 0]), by_11);
    }
}

/// A history with other commands in its completions.
fn with_commands(history: &[Call], change: fn(Command) -> Command) -> Vec<Call> {
    let changed = |call: &Call| match *call {
        Call::Completion { command, latency_us } => Call::Completion { command: change(command), latency_us },
        _ => call.clone(),
    };
    history.iter().map(changed).collect()
}

/// Only 09h and 08h go by their attribute or bit, and the two are alike.
#[test]
fn commands_alike() {
    let changes: [fn(Command) -> Command; 2] = [
        |c| Command { deallocate: matches!(c.opcode, 0x08 | 0x09) == c.deallocate, ..c },
        |c| Command { opcode: if matches!(c.opcode, 0x08 | 0x09) { c.opcode ^ 1 } else { c.opcode }, ..c },
    ];
    for history in random_histories(24) {
        for change in changes {
            let changed = with_commands(&history, change);
            assert_eq!(facts(&changed), facts(&history));
            assert_eq!(answers(&changed), answers(&history));
        }
    }
}

/// Completions without attribute or bit, as all that earlier releases took, count no Deallocate.
#[test]
fn no_deallocate_without_attribute() {
    let mut counted = [[0; 5]; 2];
    for history in random_histories(25) {
        let without = with_commands(&history, |c| Command { deallocate: false, ..c });
        assert_eq!(counts(&facts(&without), 2), [[0; 5]; 2]);
        for (sums, counts) in counted.iter_mut().zip(counts(&facts(&history), 2)) {
            sums.iter_mut().zip(counts).for_each(|(sum, count)| *sum += count);
        }
    }
    // With it each of the ten counts is above zero somewhere.
    assert!(counted.iter().flatten().all(|&sum| sum > 0));
}

/// Two event files with the same calls, completions alone in another order.
fn rearranged(files: [&[u8]; 2]) -> bool {
    let [mut a, mut b] = files.map(|file| file.chunks_exact(RECORD).collect::<Vec<_>>());
    let others_in_place = a.iter().zip(&b).all(|(a, b)| a[0] == 2 && b[0] == 2 || a == b);
    a.sort();
    b.sort();
    files[0] != files[1] && others_in_place && a == b
}

#[test]
fn orders_with_different_pages() {
    let orders = order::different();
    // The measured latency of the Reads in bucket 0, and their stamp.
    let expected = [[(5, 77), (6, 77)], [(5, 77), (6, 77)], [(6, 78), (6, 77)], [(6, 77), (6, 77)]];
    assert_eq!(orders.len(), expected.len());
    for (files, expected) in orders.iter().zip(expected) {
        assert!(rearranged(files.each_ref().map(|file| &file.0[..])));
        let pages = files.clone().map(page_of);
        assert_ne!(pages[0], pages[1]);
        assert_eq!(pages.map(|page| (number(&page, 214, 2), number(&page, 184, 8))), expected);
    }
    // The last two pages differ in the debug log's measured latency alone.
    let [first, second] = orders.last().unwrap().clone().map(page_of);
    let places = (0..512).filter(|&place| first[place] != second[place]);
    assert_eq!(places.map(|place| (place, first[place], second[place])).collect::<Vec<_>>(), [(450, 5, 6)]);
}

#[test]
fn orders_with_one_page() {
    for vectors in order::alike() {
        let [first, others @ ..] = &vectors;
        let facts = |vector: &EventVector| facts(&read(&vector.file, &vector.presets).0);
        for other in others {
            assert!(rearranged([&first.file, &other.file]));
            assert_eq!(facts(other), facts(first));
        }
        // Each kind was fast too.
        assert!(below_a(&facts(first)).iter().any(|counts| counts.iter().all(|&count| count > 0)));
    }
}

/// A history with mode largest and no minimum window in its settings.
fn with_largest(history: &[Call]) -> Vec<Call> {
    let changed = |call: &Call| match call {
        Call::Settings(bytes) => {
            let mut bytes = bytes.clone();
            bytes[6..9].copy_from_slice(&[0xFF, 0x0F, 0]);
            Call::Settings(bytes)
        }
        _ => call.clone(),
    };
    history.iter().map(changed).collect()
}

/// The facts after a history, these completions and further calls, but for the debug log; and the debug log.
fn facts_after(history: &[Call], order: &[Timed], further: &[Call]) -> (Facts, Option<(usize, Event)>) {
    let completions = order.iter().map(|&(command, latency_us)| Call::Completion { command, latency_us });
    let calls: Vec<Call> = history.iter().cloned().chain(completions).chain(further.iter().cloned()).collect();
    let mut facts = facts(&calls);
    let debug_log = facts.debug_log.take();
    (facts, debug_log)
}

/// After any history, with mode largest and no minimum window, the order of completions shows in the debug log alone,
/// at once and after further calls. Without these settings it shows in the windows too.
#[test]
fn completions_in_any_order() {
    let mut random = Random::new(31);
    let histories = random_histories(30);
    for further in [false, true] {
        let [mut logs, mut others] = [0, 0];
        for (history, next) in histories.iter().zip(histories.iter().rev()) {
            // Settings would empty the windows.
            let next = next.iter().filter(|call| further && !matches!(call, Call::Settings(_)));
            let next: Vec<Call> = next.cloned().collect();
            let completions = random_completions(&mut random);
            let orders = [completions.clone(), shuffled(&mut random, &completions)];
            let with = with_largest(history);
            let [first, second] = orders.each_ref().map(|order| facts_after(&with, order, &next));
            assert_eq!(first.0, second.0);
            logs += usize::from(first.1 != second.1);
            let [first, second] = orders.each_ref().map(|order| facts_after(history, order, &next));
            others += usize::from(first.0 != second.0);
        }
        assert!(logs > 0 && others > 0);
    }
}

/// What the reference writes it reads back as the facts behind it, but for the discard byte and the counts below A.
#[test]
fn written_pages_are_read() {
    for group in groups() {
        let Vectors::Events(vectors) = group.vectors else { continue };
        for vector in vectors.iter().filter(|vector| vector.file.len() < 4_000) {
            let behind = facts(&read(&vector.file, &vector.presets).0);
            let page = page_bytes(&behind);
            let settings = Settings { discard: 0, ..behind.settings };
            let shown = Facts { settings, active_below_a: [0; 3], static_below_a: [0; 3], ..behind };
            assert_eq!(read_page(&page), Ok(shown));
        }
    }
}

/// What is accepted is written again as the same bytes, and every refusal is among damaged pages too.
#[test]
fn accepted_pages_are_written_again() {
    let mut random = Random::new(77);
    let mut answers = Vec::new();
    for _ in 0..3_000 {
        let page = pages::damaged_page(&mut random);
        let answer = read_page(&page);
        if let Ok(facts) = &answer {
            assert_eq!(page_bytes(facts)[..], page);
        }
        answers.push(answer.err().unwrap_or(0));
    }
    for (answer, least) in [(0, 1_000), (13, 50), (14, 50), (15, 1_000)] {
        assert!(answers.iter().filter(|&&a| a == answer).count() >= least);
    }
}

/// The bytes that are zero on every page, by the numbers of the scope paper.
#[test]
fn zero_places_of_the_page() {
    let blocks = [32, 48, 64, 80, 240, 256, 272, 288].map(|place| place..place + 4);
    let others = [1..2, 13..32, 218..240, 426..448, 460..462, 465..494];
    let mut expected: Vec<usize> = blocks.into_iter().chain(others).flatten().collect();
    let mut places = zero_places();
    expected.sort();
    places.sort();
    assert_eq!(places, expected);
}

#[test]
fn refused_pages() {
    let page = page_of(example());
    let damaged = |changes: &[(usize, u8)]| {
        let mut page = page;
        changes.iter().for_each(|&(place, byte)| page[place] = byte);
        read_page(&page).err()
    };
    assert_eq!(read_page(&page[..511]).err(), Some(13));
    assert_eq!(read_page(&[&page[..], &[0]].concat()).err(), Some(13));
    assert_eq!(damaged(&[]), None);
    assert_eq!(damaged(&[(494, 3)]), Some(14));
    assert_eq!(damaged(&[(511, 0x84)]), Some(14));
    assert_eq!(damaged(&[(494, 3), (0, 2)]), Some(14));
    assert_eq!(damaged(&[(0, 2)]), Some(15));
    assert_eq!(damaged(&[(11, 0x10)]), Some(15));
    assert_eq!(damaged(&[(60, 1)]), Some(15));
    assert_eq!(damaged(&[(190, 1)]), Some(15));
    assert_eq!(damaged(&[(462, 3)]), Some(15));
    assert_eq!(damaged(&[(464, 2)]), Some(15));
    // Nothing counted though the stamp is set, no latency of the debug log, and bytes that may hold anything.
    assert_eq!(damaged(&[(44, 0)]), None);
    assert_eq!(damaged(&[(450, 0)]), None);
    assert_eq!(damaged(&[(2, 9), (5, 255), (6, 77), (12, 255)]), None);
}

#[test]
fn listings() {
    let page = page_of(example());
    let expected = "0 1 0\n1 0 0\n2 0 0\n3 0 0\n4 0 0\n5 0 0\n6 0 0\n7 0 0\n8 0 0\n9 0 0\n10 0 0\n11 0 0\n";
    assert_eq!(listing(&page), expected);
    assert_eq!(listing(&page[1..]), "refused 13\n");
    assert_eq!(listing(&[0; 512]), "refused 14\n");
    let mut page = page;
    page[264..268].fill(255);
    assert_eq!(listing(&page), "refused 15\n");
    page[360..368].fill(0);
    assert_eq!(listing(&page), expected.replace("\n4 0 0\n", "\n4 0 4294967295\n"));
}

/// What is printed for a record number and a file, as a digit, or '-' for 16.
fn digit(printed: &str) -> char {
    match printed.as_bytes() {
        [digit @ b'0'..=b'6', b'\n'] => char::from(*digit),
        b"refused 16\n" => '-',
        _ => panic!("printed: {printed}"),
    }
}

/// The answers to a vector's questions.
fn digits(vector: &ReasonsVector) -> String {
    let file = EventFile::new(&vector.file);
    vector.numbers.iter().map(|number| digit(&file.printed(number))).collect()
}

/// The answers of the vectors are those written down by hand.
#[test]
fn reasons_by_hand() {
    for (name, cases) in questions::by_hand() {
        for (n, case) in cases.iter().enumerate() {
            assert_eq!(digits(&case.vector), case.expected, "{name}, vector {n}");
        }
    }
}

/// The program's whole input: a number's bytes, and after all four of them an event file.
#[test]
fn inputs_of_explain() {
    assert_eq!(explained(&[&[2, 0, 0, 0], &example().0[..]].concat()), "0\n");
    assert_eq!(explained(&[&[1, 0, 0, 0], &example().0[..]].concat()), "refused 16\n");
    assert_eq!(explained(&[&[0, 0, 0, 2], &example().0[..]].concat()), "refused 16\n");
    let small = |vector: &ReasonsVector| vector.file.len() < 1_000;
    for (_, cases) in questions::by_hand() {
        for case in cases.iter().filter(|case| small(&case.vector)) {
            for (number, expected) in case.vector.numbers.iter().zip(case.expected.chars()) {
                let file = if number.len() == 4 { &case.vector.file[..] } else { &[] };
                assert_eq!(digit(&explained(&[number, file].concat())), expected);
            }
        }
    }
}

/// All reasons that apply, each by itself: 4 to 6 need a stamp that is set, and 5 and 6 mode largest.
#[test]
fn reasons_that_apply() {
    let first = Settings { minimum_window: 255, ..base() };
    let largest = Settings { mode: 0x0FFF, ..first };
    let new = Events::default;
    let set = |settings: Settings| new().settings(settings).completion(READ, 7_000);
    let disabled = |settings: Settings| set(settings).settings(Settings { enable: 0, ..settings });
    let cases: [(Events, Command, u32, &[u8]); 16] = [
        (new(), READ, 5_000, &[1]),
        (new(), WRITE_ZEROES, 5_000, &[1, 2]),
        (new(), WRITE_ZEROES, BELOW, &[1, 2, 3]),
        (new().settings(base()), WRITE_ZEROES, BELOW, &[2, 3]),
        (set(first), READ, BELOW, &[3]),
        (set(first), READ, 6_000, &[4]),
        (set(first), READ, 8_000, &[4]),
        (set(first), DEALLOCATE, 6_000, &[]),
        (set(largest), READ, BELOW, &[3]),
        (set(largest), READ, 7_999, &[5, 6]),
        (set(largest), READ, 8_000, &[6]),
        (set(largest), READ, 50_000, &[]),
        (set(largest).elapsed(25_500), READ, 7_999, &[5]),
        (set(largest).elapsed(25_500), READ, 8_000, &[]),
        (disabled(first), READ, 7_000, &[1, 4]),
        (disabled(largest), READ, 7_000, &[1, 5, 6]),
    ];
    for (n, (file, command, us, expected)) in cases.into_iter().enumerate() {
        let (before, _) = read(&file.0, &[]);
        assert_eq!(applying(&before, &all_completions(&before), command, us), expected, "case {n}");
        assert_eq!(reason(&before, command, us), expected.first().copied().unwrap_or(0));
    }
}

/// Random histories, those with times close to the minimum window among them.
fn histories_to_ask(seed: u64) -> Vec<Vec<Call>> {
    let mut random = Random::new(seed);
    let mut histories = random_histories(seed);
    histories.extend((0..300).map(|_| read(&close_mixture(&mut random).0, &[]).0));
    histories
}

/// The reason is 0 exactly when the completion's answer says that the stamp is loaded, and 1 to 3 exactly when it says
/// that it is not counted. It is asked of the history before, whatever follows.
#[test]
fn reasons_and_answers() {
    let mut given = [0; 7];
    for history in histories_to_ask(26) {
        let answers = answers(&history);
        for (place, asked) in reasons(&history).into_iter().enumerate() {
            let Call::Completion { command, latency_us } = history[place] else {
                assert_eq!(asked, None);
                continue;
            };
            let reason = reason(&history[..place], command, latency_us);
            assert_eq!(asked, Some(reason));
            assert_eq!(reason == 0, matches!(answers[place], Answer::Counted { loaded: true, .. }));
            assert_eq!(matches!(reason, 1..=3), answers[place] == Answer::NotCounted);
            given[usize::from(reason)] += 1;
        }
    }
    assert!(given.iter().all(|&times| times > 500), "{given:?}");
}

/// A counter's stamp as one that keeps a record would have it: the measured latency, and the time since the load.
type Stamp = Option<(u32, u64)>;

/// The reason of a completion, by the settings in force and the stamps.
fn reason_by_record(settings: Settings, stamps: &[Stamp; 12], command: Command, us: u32) -> (u8, Option<usize>) {
    let reached = settings.thresholds.iter().filter(|&&v| us / 5_000 > u32::from(v)).count();
    if !settings.enabled() {
        return (1, None);
    }
    let Some(kind) = kind(command) else { return (2, None) };
    let Some(bucket) = reached.checked_sub(1) else { return (3, None) };
    let counter = 3 * bucket + kind;
    let reason = match (stamps[counter], settings.mode >> counter & 1) {
        (None, _) => 0,
        (Some(_), 0) => 4,
        (Some((ms, _)), _) if (us / 1_000).min(65_535) <= ms => 5,
        (Some((_, since)), _) if since < 100 * u64::from(settings.minimum_window) => 6,
        _ => 0,
    };
    (reason, Some(counter))
}

/// The reasons, call by call, from a record that is kept.
fn reasons_by_record(history: &[Call]) -> Vec<Option<u8>> {
    let (mut settings, mut stamps, mut time) = (Settings::default(), [None; 12], 0);
    let mut asked = |call: &Call| {
        if let Some(accepted) = accepted_settings(call) {
            settings = accepted;
            (stamps, time) = if settings.enabled() { ([None; 12], 0) } else { (stamps, time) };
        }
        let elapsed = accepted_elapsed(call);
        stamps.iter_mut().flatten().for_each(|(_, since)| *since += elapsed);
        if settings.enabled() && time + elapsed >= INCREMENT_MS * u64::from(settings.timer_threshold) {
            (stamps, time) = ([None; 12], time + elapsed - INCREMENT_MS * u64::from(settings.timer_threshold));
        } else if settings.enabled() {
            time += elapsed;
        }
        let Call::Completion { command, latency_us } = *call else { return None };
        let (reason, counter) = reason_by_record(settings, &stamps, command, latency_us);
        if let (0, Some(counter)) = (reason, counter) {
            stamps[counter] = Some(((latency_us / 1_000).min(65_535), 0));
        }
        Some(reason)
    };
    history.iter().map(&mut asked).collect()
}

#[test]
fn reasons_from_a_record() {
    for history in histories_to_ask(27) {
        assert_eq!(reasons(&history), reasons_by_record(&history));
    }
}

/// What comes after a record has no part in its answer, and without the record there is none.
#[test]
fn reasons_of_cut_files() {
    let mut random = Random::new(28);
    for _ in 0..60 {
        let Events(file) = close_mixture(&mut random).raw(&[2; 9]);
        let whole = EventFile::new(&file);
        for n in 0..file.len() / 16 {
            let number = (n as u32).to_le_bytes();
            let cut = |end: usize| EventFile::new(&file[..end]).printed(&number);
            assert_eq!(cut(16 * n + 16), whole.printed(&number));
            assert_eq!(cut(16 * n + 15), "refused 16\n");
        }
    }
}

/// Refused records change no answer but for the numbers of those after them.
#[test]
fn reasons_without_refused_records() {
    let mut random = Random::new(29);
    let mut refused_in_all = 0;
    for _ in 0..100 {
        let file = random_mixture(&mut random, 80).0;
        let refused: Vec<u32> = read(&file, &[]).1.iter().map(|refused| refused.record).collect();
        let others: Vec<usize> = (0..file.len() / 16).filter(|&n| !refused.contains(&(n as u32))).collect();
        let kept: Vec<u8> = others.iter().flat_map(|&n| &file[16 * n..16 * n + 16]).copied().collect();
        let (whole, without) = (EventFile::new(&file), EventFile::new(&kept));
        for (place, &n) in others.iter().enumerate() {
            let [old, new] = [n, place].map(|number| (number as u32).to_le_bytes());
            assert_eq!(whole.printed(&old), without.printed(&new));
        }
        refused_in_all += refused.len();
    }
    assert!(refused_in_all > 100);
}

/// Every answer comes often, among the random vectors too, and the vectors keep within their bounds.
#[test]
fn groups_of_reasons() {
    let groups = questions::groups();
    let mut all = String::new();
    for Group { name, vectors } in &groups {
        let Vectors::Reasons(vectors) = vectors else { panic!("not of reasons") };
        assert!(name.starts_with("reasons"));
        assert!(vectors.iter().all(|v| v.file.len() <= LONGEST_FILE && v.numbers.len() <= MOST_QUESTIONS.into()));
        let answers: String = vectors.iter().map(digits).collect();
        let often = |digit: char| answers.matches(digit).count() >= 20;
        assert!(*name != "reasons of random mixtures" || "0123456-".chars().all(often));
        all += &answers;
    }
    assert!("0123456-".chars().all(|digit| all.matches(digit).count() >= 100));
    assert!(vectors::write(&groups).len() < 700_000);
}

/// Every digit on both sides of a block's end.
#[test]
fn reasons_beyond_one_block() {
    let (_, cases) = questions::by_hand().into_iter().find(|(name, _)| *name == "reasons beyond one block").unwrap();
    let numbers = |digit: char| -> Vec<u32> {
        let asked = cases.iter().flat_map(|case| case.vector.numbers.iter().zip(case.expected.chars()));
        let given = asked.filter(|&(_, expected)| expected == digit);
        given.map(|(number, _)| u32::from_le_bytes(number[..].try_into().unwrap())).collect()
    };
    for digit in "0123456-".chars() {
        let numbers = numbers(digit);
        assert!(numbers.iter().any(|number| (4_093..4_096).contains(number)), "{digit} before the end");
        assert!(numbers.iter().any(|number| (4_096..4_100).contains(number)), "{digit} behind it");
    }
}

/// A reasons vector with another byte is not in the format: the number's length and padding, and what is printed.
#[test]
fn reasons_in_the_format() {
    let Events(file) = example();
    let numbers = vec![vec![2, 0, 0, 0], vec![2, 0, 0]];
    let vectors = Vectors::Reasons(vec![ReasonsVector { file, numbers }]);
    let file = vectors::write(&[Group { name: "reasons", vectors }]);
    assert_eq!(vectors::check(&file), Ok("reasons 1\n".into()));
    let questions = file.len() - 1 - 2 * 17;
    assert_eq!(file[questions..][..17], *b"\x04\x02\0\0\0\x020\n\0\0\0\0\0\0\0\0\0");
    assert_eq!(file[questions + 17..][..17], *b"\x03\x02\0\0\0\x0Brefused 16\n");
    for (place, byte) in [(0, 3), (0, 5), (1, 3), (4, 1), (5, 1), (6, b'7'), (8, 1), (17, 4 + 1), (21, 1), (23, b'R')] {
        let mut wrong = file.clone();
        wrong[questions + place] = byte;
        assert!(vectors::check(&wrong).is_err(), "byte {place}");
    }
}

/// How many pages of each group are accepted, and how many are refused by 13, by 14 and by 15.
#[test]
fn groups_of_pages() {
    let expected = [
        ("pages after histories", [69, 0, 0, 0]),
        ("pages of random fields", [32, 0, 0, 0]),
        ("pages with free bytes", [28, 0, 0, 0]),
        ("pages of other lengths", [0, 13, 0, 0]),
        ("pages of other versions", [0, 0, 30, 0]),
        ("pages with zero bytes changed", [0, 0, 0, 135]),
        ("pages with bits of masks", [8, 0, 0, 20]),
        ("pages with set stamps", [49, 0, 0, 72]),
        ("pages with unset stamps", [24, 0, 0, 96]),
        ("pages with a debug log", [38, 0, 0, 44]),
        ("pages without a debug log", [2, 0, 0, 27]),
        ("pages against several rules", [1, 18, 8, 10]),
    ];
    for (group, (name, numbers)) in pages::groups().iter().zip(expected) {
        let Vectors::Pages(vectors) = &group.vectors else { panic!("not of pages") };
        let answers: Vec<u8> = vectors.iter().map(|page| read_page(page).err().unwrap_or(0)).collect();
        let count = |answer: u8| answers.iter().filter(|&&a| a == answer).count();
        assert_eq!((group.name, [0, 13, 14, 15].map(count)), (name, numbers));
    }
}

#[test]
fn vectors_are_in_the_format() {
    let file = vectors::write(&groups());
    assert!(file.len() < 3_700_000);
    assert!(vectors::check(&file).is_ok());
    assert!(vectors::check(&file[..file.len() - 1]).is_err());
    // The end of the last listing.
    let mut wrong = file;
    let place = wrong.len() - 2;
    wrong[place] = b' ';
    assert!(vectors::check(&wrong).is_err());
}

/// Refusals stand on both sides of a block's end, windows end there, and bytes are left over behind it.
#[test]
fn files_beyond_one_block() {
    const END: usize = 4_096;
    let group = groups().into_iter().find(|group| group.name == "beyond one block").unwrap();
    let Vectors::Events(vectors) = group.vectors else { panic!("not of events") };
    let lengths: Vec<usize> = vectors.iter().map(|vector| vector.file.len()).collect();
    for length in [65_536, 65_537, 65_551, 65_552, 65_553, 65_567] {
        assert!(lengths.contains(&length));
    }
    let mut answered = Vec::new();
    for vector in &vectors {
        let given = record_answers(&vector.file, &vector.presets);
        let near = |&(record, _): &(usize, Answer)| (END - 2..END + 3).contains(&record);
        answered.extend(given.into_iter().enumerate().filter(near));
    }
    for number in [3, 4, 5, 6, 7, 8, 11] {
        assert!(answered.iter().any(|&(_, answer)| answer == Answer::Refused(number)));
    }
    for record in END - 2..END + 3 {
        assert!(answered.iter().any(|&(r, answer)| r == record && matches!(answer, Answer::Refused(_))));
    }
    for record in [END - 1, END] {
        assert!(answered.contains(&(record, Answer::Elapsed { ended: true })));
    }
}

/// A preset's counter has been counted in its window, and the monitor is enabled there.
#[test]
fn presets_are_in_place() {
    for group in groups() {
        let Vectors::Events(vectors) = group.vectors else { continue };
        for vector in vectors {
            for preset in &vector.presets {
                let before = facts(&read(&vector.file[..16 * preset.record as usize], &vector.presets).0);
                assert!(before.settings.enabled());
                let counters = before.active_window.iter().map(|shown| shown.count);
                let mut counts = counters.chain(before.active_below_a);
                assert!(counts.nth(preset.counter.into()).is_some_and(|count| count > 0));
                assert!(preset.value >= u32::MAX - 2);
            }
        }
    }
}

/// The files kept in the repository are the ones that this program writes.
#[test]
fn kept_files() {
    assert!(vectors::write(&groups()) == include_bytes!("../../crates/vectors/stdin"));
    assert_eq!(example().0, include_bytes!("../../samples/example.events"));
}
