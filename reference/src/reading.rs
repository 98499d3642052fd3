//! Pages read back: the facts that they show, or the number by which they are turned away.

use crate::facts::{CounterFacts, Event, Facts, WindowFacts, COUNTERS, NO_EVENT, NO_STAMP};
use crate::history::{Settings, PAGE_LENGTH, TIMESTAMP_TOP};
use crate::page::{counter_place, latency_place, stamp_place, BLOCKS, GUID, STAMP_UNITS, VERSION};

/// The refusal of a page that breaks a layout rule.
const LAYOUT: u8 = 15;

/// The first and last byte of each field of the page.
const NAMED: [(usize, usize); 16] = [
    (0, 0),
    (2, 3),
    (4, 5),
    (6, 9),
    (10, 11),
    (12, 12),
    (32, 217),
    (240, 425),
    (448, 449),
    (450, 451),
    (452, 459),
    (460, 461),
    (462, 463),
    (464, 464),
    (494, 495),
    (496, 511),
];

/// The places of the bytes that are zero on every page: those that no field has, the debug log pointer, and four
/// before the counters of each bucket.
pub fn zero_places() -> Vec<usize> {
    let named = |place: usize| NAMED.iter().any(|&(first, last)| (first..=last).contains(&place));
    let mut places: Vec<usize> = (0..PAGE_LENGTH).filter(|&place| !named(place)).collect();
    places.extend([460, 461]);
    for start in BLOCKS {
        places.extend((0..4).flat_map(|bucket| (0..4).map(move |byte| start + 16 * bucket + byte)));
    }
    places
}

/// The facts that a page shows, or the number by which it is turned away. Of the counts below A it shows nothing.
pub fn read_page(page: &[u8]) -> Result<Facts, u8> {
    if page.len() != PAGE_LENGTH {
        return Err(13);
    }
    if page[494..496] != VERSION.to_le_bytes() || page[496..] != GUID.to_le_bytes() {
        return Err(14);
    }
    if zero_places().iter().any(|&place| page[place] != 0) {
        return Err(LAYOUT);
    }
    Ok(Facts {
        settings: settings(page)?,
        timer: u16_at(page, 2),
        active_window: window(&page[BLOCKS[0]..])?,
        static_window: window(&page[BLOCKS[1]..])?,
        debug_log: debug_log(page)?,
        active_below_a: [0; 3],
        static_below_a: [0; 3],
    })
}

/// What the listing prints for a page: each counter in both windows, or the refusal.
pub fn listing(page: &[u8]) -> String {
    match read_page(page) {
        Ok(facts) => {
            let counts = facts.active_window.iter().zip(&facts.static_window);
            counts.enumerate().map(|(n, (a, s))| format!("{n} {} {}\n", a.count, s.count)).collect()
        }
        Err(number) => format!("refused {number}\n"),
    }
}

fn u16_at(bytes: &[u8], place: usize) -> u16 {
    u16::from_le_bytes(bytes[place..place + 2].try_into().unwrap())
}

fn u32_at(bytes: &[u8], place: usize) -> u32 {
    u32::from_le_bytes(bytes[place..place + 4].try_into().unwrap())
}

fn u64_at(bytes: &[u8], place: usize) -> u64 {
    u64::from_le_bytes(bytes[place..place + 8].try_into().unwrap())
}

/// A mask with a bit for each counter. The others are zero.
fn mask(bytes: &[u8], place: usize) -> Result<u16, u8> {
    match u16_at(bytes, place) {
        mask @ 0..=0x0FFF => Ok(mask),
        _ => Err(LAYOUT),
    }
}

/// A byte that is 0 or 1.
fn yes_or_no(byte: u8) -> Result<bool, u8> {
    match byte {
        0 => Ok(false),
        1 => Ok(true),
        _ => Err(LAYOUT),
    }
}

/// The settings in force. The page does not show the discard byte.
fn settings(page: &[u8]) -> Result<Settings, u8> {
    Ok(Settings {
        timer_threshold: u16_at(page, 4),
        thresholds: page[6..10].try_into().unwrap(),
        mode: mask(page, 10)?,
        minimum_window: page[12],
        debug_trigger: mask(page, 448)?,
        discard: 0,
        enable: yes_or_no(page[0])?.into(),
    })
}

fn window(block: &[u8]) -> Result<WindowFacts, u8> {
    let units = mask(block, STAMP_UNITS)?;
    let counters: Result<Vec<CounterFacts>, u8> = (0..COUNTERS).map(|n| counter_facts(block, units, n)).collect();
    Ok(counters?.try_into().expect("a counter for each number"))
}

/// Without a stamp, count, measured latency and stamp unit are zero.
fn counter_facts(block: &[u8], units: u16, counter: usize) -> Result<CounterFacts, u8> {
    let count = u32_at(block, counter_place(counter));
    let event = Event {
        measured_latency: u16_at(block, latency_place(counter)),
        stamp: u64_at(block, stamp_place(counter)),
        stamp_unit: units >> counter & 1 == 1,
    };
    match event.stamp {
        NO_STAMP if count == 0 && event == NO_EVENT => Ok(CounterFacts { count, latest_load: None }),
        0..=TIMESTAMP_TOP => Ok(CounterFacts { count, latest_load: Some(event) }),
        _ => Err(LAYOUT),
    }
}

/// A debug log is held if its stamp is set. Then its source has the one bit of a counter, else all is zero.
fn debug_log(page: &[u8]) -> Result<Option<(usize, Event)>, u8> {
    let source = mask(page, 462)?;
    let event =
        Event { measured_latency: u16_at(page, 450), stamp: u64_at(page, 452), stamp_unit: yes_or_no(page[464])? };
    match event.stamp {
        NO_STAMP if source == 0 && event == NO_EVENT => Ok(None),
        0..=TIMESTAMP_TOP if source.count_ones() == 1 => Ok(Some((source.trailing_zeros() as usize, event))),
        _ => Err(LAYOUT),
    }
}
