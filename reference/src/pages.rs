//! The page vectors, group by group.

use crate::events::{read, Events, Preset};
use crate::facts::{CounterFacts, Event, Facts, WindowFacts, COUNTERS, NO_EVENT};
use crate::groups::{base, command, each_counter, example, latency, random_mixture, random_timestamp, start, LARGEST};
use crate::history::{Settings, PAGE_LENGTH, TIMESTAMP_TOP};
use crate::page::{counter_place, latency_place, page, page_bytes, put, stamp_place, BLOCKS, STAMP_UNITS};
use crate::random::Random;
use crate::reading::zero_places;
use crate::vectors::{Group, Vectors};

type Page = [u8; PAGE_LENGTH];

/// Where the page has the fields of the debug log.
const DEBUG_LATENCY: usize = 450;
const DEBUG_STAMP: usize = 452;
const DEBUG_SOURCE: usize = 462;
const DEBUG_UNIT: usize = 464;
/// Where the page has its masks: mode, debug trigger and the stamp units of both windows.
const MASKS: [usize; 4] = [10, 448, BLOCKS[0] + STAMP_UNITS, BLOCKS[1] + STAMP_UNITS];
/// Bits by which one byte of a page is made another, one after the other.
const BITS: [u8; 9] = [1, 128, 255, 2, 64, 4, 32, 8, 16];
/// Stamps that are neither timestamps nor unset.
const NO_TIMESTAMPS: [u64; 8] =
    [1 << 49, 1 << 55, 1 << 56, 1 << 63, u64::MAX << 48, u64::MAX << 8, u64::MAX >> 1, u64::MAX - (1 << 40)];

pub fn groups() -> Vec<Group> {
    vec![
        pages("pages after histories", after_histories(&mut Random::new(6))),
        pages("pages of random fields", random_fields(&mut Random::new(7))),
        pages("pages with free bytes", free_bytes()),
        pages("pages of other lengths", other_lengths()),
        pages("pages of other versions", other_versions()),
        pages("pages with zero bytes changed", zero_bytes()),
        pages("pages with bits of masks", bits_of_masks()),
        pages("pages with set stamps", set_stamps()),
        pages("pages with unset stamps", unset_stamps()),
        pages("pages with a debug log", with_debug_log()),
        pages("pages without a debug log", without_debug_log()),
        pages("pages against several rules", several_rules()),
        pages("pages damaged", damaged(&mut Random::new(8))),
    ]
}

fn pages<P: Into<Vec<u8>>>(name: &'static str, pages: Vec<P>) -> Group {
    Group { name, vectors: Vectors::Pages(pages.into_iter().map(P::into).collect()) }
}

/// The page after an event file.
fn after(file: Events) -> Page {
    after_presets(file, &[])
}

fn after_presets(file: Events, presets: &[Preset]) -> Page {
    page(&read(&file.0, presets).0, PAGE_LENGTH).expect("a buffer of the right length")
}

/// The page of a new monitor: no stamp is set and no debug log held.
fn new() -> Page {
    after(Events::default())
}

/// A page with all stamps set and a debug log held, and hardly two fields alike.
fn full() -> Page {
    page_bytes(&random_facts(&mut Random::new(9), 100))
}

/// One or the other of the two, in turn.
fn new_or_full(n: usize) -> Page {
    if n % 2 == 0 {
        new()
    } else {
        full()
    }
}

/// A page with other bytes at a place.
fn with(mut page: Page, place: usize, bytes: &[u8]) -> Page {
    put(&mut page, place, bytes);
    page
}

/// A page with other bits in a byte.
fn flipped(mut page: Page, place: usize, bits: u8) -> Page {
    page[place] ^= bits;
    page
}

/// A page with other fields of one counter. The window is 0 if active, 1 if static.
fn with_counter(page: Page, window: usize, counter: usize, count: u32, event: Event) -> Page {
    let (start, units) = (BLOCKS[window], BLOCKS[window] + STAMP_UNITS);
    let unit = u16::from(event.stamp_unit) << counter;
    let others = u16::from_le_bytes([page[units], page[units + 1]]) & !(1 << counter);
    let page = with(page, start + counter_place(counter), &count.to_le_bytes());
    let page = with(page, start + stamp_place(counter), &event.stamp.to_le_bytes());
    let page = with(page, start + latency_place(counter), &event.measured_latency.to_le_bytes());
    with(page, units, &(others | unit).to_le_bytes())
}

/// A page with another stamp of one counter.
fn with_stamp(page: Page, window: usize, counter: usize, stamp: u64) -> Page {
    with(page, BLOCKS[window] + stamp_place(counter), &stamp.to_le_bytes())
}

/// A page with another debug log.
fn with_log(page: Page, source: u16, event: Event) -> Page {
    let page = with(page, DEBUG_LATENCY, &event.measured_latency.to_le_bytes());
    let page = with(page, DEBUG_STAMP, &event.stamp.to_le_bytes());
    let page = with(page, DEBUG_SOURCE, &source.to_le_bytes());
    with(page, DEBUG_UNIT, &[event.stamp_unit.into()])
}

/// The counters of both windows.
fn all_counters() -> impl Iterator<Item = (usize, usize)> {
    (0..BLOCKS.len()).flat_map(|window| (0..COUNTERS).map(move |counter| (window, counter)))
}

/// Each counter is counted once more than the one before it, with rising latencies.
fn rising(file: Events) -> Events {
    (0..12).fold(file, |file, round| {
        let us = |counter| latency(counter) + 400 * round as u32;
        (round..12).fold(file.elapsed(10), |f, counter| f.completion(command(counter), us(counter)))
    })
}

fn after_histories(random: &mut Random) -> Vec<Page> {
    let mut files = plain_files();
    files.extend(window_files());
    files.extend(debug_log_files());
    for _ in 0..20 {
        let records = random.from(5, 120);
        files.push(random_mixture(random, records));
    }
    let mut pages: Vec<Page> = files.into_iter().map(after).collect();
    pages.extend(counters_at_their_top());
    pages
}

/// A new monitor, the example, settings alone, timers and clocks.
fn plain_files() -> Vec<Events> {
    let mut files = vec![Events::default(), example()];
    let all = Settings {
        timer_threshold: 0xFEDC,
        thresholds: [252, 253, 254, 255],
        mode: LARGEST,
        minimum_window: 251,
        debug_trigger: 0x0FFF,
        discard: 1,
        enable: 1,
    };
    files.push(start(all));
    files.push(start(Settings { enable: 0, ..all }));
    for (timer_threshold, times) in [(5, 4), (300, 299)] {
        let file = each_counter(start(Settings { timer_threshold, ..base() }));
        files.push((0..times).fold(file, |f, _| f.elapsed(300_000)));
    }
    for value in [0, 1, 0x0102_0304_0506, TIMESTAMP_TOP - 1, TIMESTAMP_TOP] {
        files.push(each_counter(start(base()).timestamp(value)));
    }
    // Half of the stamps loaded before power-up, by the host's clock.
    for first in [0, 6] {
        let file = start(base()).timestamp(1 << 40);
        let file = (first..first + 6).fold(file, |f, n| f.completion(command(n), latency(n)));
        files.push(each_counter(file.power_up().elapsed(77)));
    }
    files
}

/// The active window filled, the static one, and both of them.
fn window_files() -> Vec<Events> {
    let mut files = Vec::new();
    for mode in [0, 0x0AAA, 0x0555, LARGEST] {
        let settings = Settings { timer_threshold: 1, mode, ..base() };
        let active = rising(start(settings).timestamp(1 << 40));
        let ended = active.clone().elapsed(300_000);
        files.push(active);
        files.push(rising(ended.clone()));
        files.push(rising(ended.clone().power_up()).settings(Settings { enable: 0, ..settings }));
        files.push(ended);
    }
    files
}

/// Each counter takes a debug log, and is alone with it in a window; then held and discarded.
fn debug_log_files() -> Vec<Events> {
    let mut files = Vec::new();
    for n in 0..12 {
        let settings = Settings { timer_threshold: 1, debug_trigger: 1 << n, ..base() };
        let file = start(settings).elapsed(100 + n as u32);
        let file = if n % 2 == 0 { file.timestamp(1 << (4 * n)) } else { file };
        let file = file.completion(command(n), latency(n) + 1_234);
        files.push(if n % 3 == 0 { file } else { file.elapsed(300_000) });
    }
    let settings = Settings { debug_trigger: 0x0FFF, ..base() };
    let held = each_counter(start(settings).elapsed(9));
    files.push(held.clone().settings(settings));
    files.push(held.clone().power_up().settings(Settings { enable: 0, ..settings }));
    files.push(held.clone().settings(Settings { discard: 1, enable: 0, ..settings }));
    files.push(held.settings(Settings { discard: 1, ..settings }).completion(command(10), u32::MAX));
    files
}

/// In the active window, in the static one, and in both.
fn counters_at_their_top() -> Vec<Page> {
    let at = |record| (0..12).map(move |counter| Preset { counter, value: u32::MAX - u32::from(counter) % 3, record });
    let file = each_counter(start(Settings { timer_threshold: 1, ..base() }));
    let ended = file.clone().elapsed(300_000);
    let both = each_counter(ended.clone()).elapsed(1);
    let first: Vec<Preset> = at(13).collect();
    let first_and_second: Vec<Preset> = at(13).chain(at(26)).collect();
    vec![
        after_presets(file.elapsed(1), &first),
        after_presets(ended, &first),
        after_presets(both.clone(), &first),
        after_presets(both, &first_and_second),
    ]
}

fn random_event(random: &mut Random) -> Event {
    Event { measured_latency: random.bits() as u16, stamp: random_timestamp(random), stamp_unit: random.chance(50) }
}

/// A window with so many percent of its stamps set.
fn random_window(random: &mut Random, percent: u64) -> WindowFacts {
    std::array::from_fn(|_| {
        if random.chance(percent) {
            CounterFacts { count: random.bits() as u32, latest_load: Some(random_event(random)) }
        } else {
            CounterFacts { count: 0, latest_load: None }
        }
    })
}

/// Facts that a page may show, also such as no history has.
fn random_facts(random: &mut Random, percent: u64) -> Facts {
    Facts {
        settings: Settings {
            timer_threshold: random.bits() as u16,
            thresholds: (random.bits() as u32).to_le_bytes(),
            mode: random.below(4_096) as u16,
            minimum_window: random.bits() as u8,
            debug_trigger: random.below(4_096) as u16,
            discard: 0,
            enable: random.below(2) as u8,
        },
        timer: random.bits() as u16,
        active_window: random_window(random, percent),
        static_window: random_window(random, percent),
        debug_log: random.chance(percent).then(|| (random.below(12) as usize, random_event(random))),
        active_below_a: [0; 3],
        static_below_a: [0; 3],
    }
}

fn random_fields(random: &mut Random) -> Vec<Page> {
    (0..32).map(|n| page_bytes(&random_facts(random, [100, 80, 50, 20][n % 4]))).collect()
}

/// Bytes that may hold anything: 2 to 9 and 12, and the first bit of byte 0.
fn free_bytes() -> Vec<Page> {
    let mut pages = Vec::new();
    for base in [new(), full()] {
        for (n, place) in (2..10).chain([12]).enumerate() {
            pages.push(flipped(base, place, BITS[(n + pages.len()) % BITS.len()]));
        }
        pages.push(with(with(base, 2, &[0; 8]), 12, &[0]));
        pages.push(with(with(base, 2, &[255; 8]), 12, &[255]));
        // Falling thresholds, and a timer above its threshold.
        pages.push(with(base, 6, &[9, 3, 1, 0]));
        pages.push(with(base, 2, &[4, 1, 3, 1]));
        pages.push(flipped(base, 0, 1));
    }
    pages
}

fn other_lengths() -> Vec<Vec<u8>> {
    let mut pages = Vec::new();
    for (n, length) in [0, 1, 2, 256, 480, 510, 511, 513, 514, 1_024, 4_096, 4_200].into_iter().enumerate() {
        let mut page = new_or_full(n).to_vec();
        page.resize(length, 0);
        pages.push(page);
    }
    // A byte too many in front.
    pages.push([&[0][..], &full()].concat());
    pages
}

fn other_versions() -> Vec<Page> {
    let mut pages = Vec::new();
    for (n, place) in (494..512).enumerate() {
        pages.push(flipped(new_or_full(n), place, BITS[n % BITS.len()]));
    }
    for version in [0u16, 1, 3, 5, 0x0400, 0x0104] {
        pages.push(with(full(), 494, &version.to_le_bytes()));
    }
    let mut reversed = full();
    reversed[496..].reverse();
    pages.push(reversed);
    pages.push(with(full(), 496, &[0; 16]));
    pages.push(with(new(), 496, &[255; 16]));
    // The page from its second byte on, and of zeros or ones alone.
    let mut moved = full();
    moved.rotate_left(1);
    pages.extend([moved, [0; PAGE_LENGTH], [255; PAGE_LENGTH]]);
    pages
}

/// Each byte that is zero on every page, and the other bits of byte 0.
fn zero_bytes() -> Vec<Page> {
    let mut pages = Vec::new();
    for (n, place) in zero_places().into_iter().enumerate() {
        pages.push(with(new_or_full(n), place, &[BITS[n % BITS.len()]]));
    }
    for bit in 1..8 {
        pages.push(flipped(new_or_full(bit), 0, 1 << bit));
    }
    pages.push(with(full(), 0, &[255]));
    pages
}

/// Bits 12 to 15 of each mask, and all of the others.
fn bits_of_masks() -> Vec<Page> {
    let mut pages = Vec::new();
    for place in MASKS {
        for bit in 4..8 {
            pages.push(flipped(full(), place + 1, 1 << bit));
        }
        pages.push(flipped(new(), place + 1, 0xF0));
        pages.push(with(full(), place, &[0xFF, 0x0F]));
        pages.push(with(full(), place, &[0, 0]));
    }
    pages
}

fn set_stamps() -> Vec<Page> {
    let mut pages = Vec::new();
    for (n, (window, counter)) in all_counters().enumerate() {
        let alone = |count, event| with_counter(new(), window, counter, count, event);
        // The largest timestamp, and the smallest with nothing counted.
        pages.push(alone(1, Event { measured_latency: 1, stamp: TIMESTAMP_TOP, stamp_unit: true }));
        pages.push(alone(0, Event { stamp: 0, ..NO_EVENT }));
        // Above the largest timestamp, up to the last number that is not unset.
        pages.push(with_stamp(full(), window, counter, TIMESTAMP_TOP + 1));
        pages.push(with_stamp(full(), window, counter, NO_TIMESTAMPS[n % NO_TIMESTAMPS.len()]));
        pages.push(alone(0, Event { stamp: u64::MAX - 1, ..NO_EVENT }));
    }
    // All stamps set and nothing counted.
    pages.push(
        all_counters()
            .fold(full(), |page, (window, counter)| with(page, BLOCKS[window] + counter_place(counter), &[0; 4])),
    );
    pages
}

fn unset_stamps() -> Vec<Page> {
    let mut pages = Vec::new();
    for (n, (window, counter)) in all_counters().enumerate() {
        let unset = |count, event| with_counter(full(), window, counter, count, event);
        pages.push(unset(0, NO_EVENT));
        pages.push(unset(1, NO_EVENT));
        pages.push(unset(0, Event { measured_latency: 1, ..NO_EVENT }));
        pages.push(unset(0, Event { stamp_unit: true, ..NO_EVENT }));
        // On a page without stamps, and with bits of other bytes.
        let count = [1 << 8, 1 << 16, 1 << 31, 0, u32::MAX, 0][n % 6];
        let measured_latency = [0, 0, 0, 1 << 8, u16::MAX, 1 << 15][n % 6];
        pages.push(with_counter(new(), window, counter, count, Event { measured_latency, ..NO_EVENT }));
    }
    pages
}

fn with_debug_log() -> Vec<Page> {
    let mut pages = Vec::new();
    let zero = Event { stamp: 0, ..NO_EVENT };
    for source in (0..16).map(|bit| 1 << bit).chain([0]) {
        pages.push(with(full(), DEBUG_SOURCE, &u16::to_le_bytes(source)));
        pages.push(with_log(new(), source, zero));
    }
    for source in [0x0003u16, 0x0801, 0x0C00, 0x0180, 0x0108, 0x0007, 0x07FE, 0x0FFF] {
        pages.push(with(full(), DEBUG_SOURCE, &source.to_le_bytes()));
    }
    for source in [0x1001u16, 0x2010, 0x4100, 0x8800, 0xF000, 0xFFFF] {
        pages.push(with(full(), DEBUG_SOURCE, &source.to_le_bytes()));
    }
    for unit in [0, 1, 2, 3, 4, 8, 16, 32, 64, 128, 254, 255] {
        pages.push(with(full(), DEBUG_UNIT, &[unit]));
    }
    for stamp in [0, 1, 1 << 47, TIMESTAMP_TOP, TIMESTAMP_TOP + 1, u64::MAX - 1].into_iter().chain(NO_TIMESTAMPS) {
        pages.push(with(full(), DEBUG_STAMP, &stamp.to_le_bytes()));
    }
    for measured_latency in [0, 1, 256, u16::MAX] {
        pages.push(with(full(), DEBUG_LATENCY, &measured_latency.to_le_bytes()));
        pages.push(with_log(new(), 1 << 11, Event { measured_latency, ..zero }));
    }
    pages
}

fn without_debug_log() -> Vec<Page> {
    let without = with_log(full(), 0, NO_EVENT);
    // None, though all counters trigger one.
    let mut pages = vec![without, with(new(), 448, &[0xFF, 0x0F])];
    for measured_latency in [1, 256, u16::MAX] {
        pages.push(with_log(new(), 0, Event { measured_latency, ..NO_EVENT }));
        pages.push(with_log(without, 0, Event { measured_latency, ..NO_EVENT }));
    }
    for bit in 0..16 {
        pages.push(with_log(if bit % 2 == 0 { new() } else { without }, 1 << bit, NO_EVENT));
    }
    for unit in [1, 2, 128, 255] {
        pages.push(with(without, DEBUG_UNIT, &[unit]));
    }
    // A whole one but for its stamp.
    pages.push(with(full(), DEBUG_STAMP, &[255; 8]));
    pages
}

/// Pages that break a layout rule each.
fn broken() -> [Page; 8] {
    [
        with(full(), 0, &[2]),
        with(full(), 1, &[1]),
        flipped(new(), 11, 0x80),
        flipped(new(), 449, 0x10),
        with_stamp(full(), 0, 3, TIMESTAMP_TOP + 1),
        with_counter(full(), 1, 8, 1, NO_EVENT),
        with(full(), DEBUG_SOURCE, &[0, 0]),
        with_log(new(), 1, NO_EVENT),
    ]
}

/// The refusal of the earliest rule that is broken: by the length, by version or GUID, by the layout.
fn several_rules() -> Vec<Vec<u8>> {
    let mut pages: Vec<Vec<u8>> = Vec::new();
    for (n, page) in broken().into_iter().enumerate() {
        let other = flipped(page, [494, 495, 496, 503, 511][n % 5], BITS[n]);
        pages.push(other.to_vec());
        // A byte too few, with the right version, and a byte too many, with another version or GUID.
        pages.push(page[..511].to_vec());
        pages.push([&other[..], &[0]].concat());
        // Another layout rule.
        pages.push(flipped(page, [13, 240, 425, 465][n % 4], 0x80).to_vec());
    }
    pages.push(flipped(full(), 494, 1)[..511].to_vec());
    pages.push([&flipped(new(), 511, 1)[..], &[0; 16]].concat());
    // Zeros and ones, with version and GUID: stamps of zeros are set, and the debug log needs its source.
    let identity = &full()[494..];
    let zeros = with([0; PAGE_LENGTH], 494, identity);
    pages.push(zeros.to_vec());
    pages.push(with(zeros, DEBUG_SOURCE, &[0, 8]).to_vec());
    pages.push(with([255; PAGE_LENGTH], 494, identity).to_vec());
    pages
}

fn damaged(random: &mut Random) -> Vec<Vec<u8>> {
    (0..100).map(|_| damaged_page(random)).collect()
}

/// A page with a few bits, bytes or fields changed.
pub(crate) fn damaged_page(random: &mut Random) -> Vec<u8> {
    let mut page = if random.chance(30) {
        let records = random.from(5, 40);
        after(random_mixture(random, records))
    } else {
        let percent = random.pick(&[100, 90, 50]);
        page_bytes(&random_facts(random, percent))
    };
    for _ in 0..random.from(1, 3) {
        damage(random, &mut page);
    }
    let length = if random.chance(4) { random.from(500, 530) as usize } else { PAGE_LENGTH };
    let mut page = page.to_vec();
    page.resize(length, 0);
    page
}

fn damage(random: &mut Random, page: &mut Page) {
    let place = random.below(PAGE_LENGTH as u64) as usize;
    let (window, counter) = (random.below(2) as usize, random.below(12) as usize);
    match random.below(10) {
        0..=3 => page[place] ^= 1 << random.below(8),
        4..=5 => page[place] = random.bits() as u8,
        6 => page[place] = random.pick(&[0, 255]),
        7 => *page = with_counter(*page, window, counter, 0, NO_EVENT),
        8 => *page = with_stamp(*page, window, counter, random_timestamp(random)),
        _ => *page = with_log(*page, 1 << random.below(16), random_event(random)),
    }
}
