//! Pages to be read: of histories, of any fields, and damaged.

use latency_monitor::Reading;
use reference::facts::{CounterFacts, Event, Facts, WindowFacts, COUNTERS, NO_STAMP};
use reference::history::{Settings, PAGE_LENGTH, TIMESTAMP_TOP};
use reference::page::page_bytes;
use reference::random::Random;

use crate::compare;
use crate::lent::patterned_reading;
use crate::tally::Tally;

type Page = [u8; PAGE_LENGTH];

/// Longer than any page that is accepted.
const LONGEST: usize = 4_200;
/// Where a page has the stamps of each window, and the debug log's stamp and source.
const STAMPS: [usize; 2] = [96, 304];
const DEBUG_STAMP: usize = 452;
const DEBUG_SOURCE: usize = 462;
/// Damaged pages that are made of one.
const DAMAGED: usize = 2;

/// Reads a page, one of other fields, and damaged ones that are made of each.
pub fn read_around(random: &mut Random, page: Page, tally: &mut Tally) -> Result<(), String> {
    let lent = patterned_reading(random.bits() as u8);
    for page in [page, page_bytes(&any_facts(random, 75))] {
        read(&lent, &page, tally)?;
        for _ in 0..DAMAGED {
            read(&lent, &damaged(random, &page), tally)?;
        }
    }
    Ok(())
}

/// Each length, each value of each byte, and each source of a debug log, on pages with no stamps, some and all.
pub fn sweep(tally: &mut Tally) -> Result<(), String> {
    let random = &mut Random::new(0);
    let lent = patterned_reading(0);
    for percent in [0, 50, 100] {
        let page = page_bytes(&any_facts(random, percent));
        for length in 0..LONGEST {
            let mut bytes = page.to_vec();
            bytes.resize(length, 0);
            read(&lent, &bytes, tally)?;
        }
        for place in 0..PAGE_LENGTH {
            for byte in 0..=0xFF {
                read(&lent, &with(page, place, &[byte]), tally)?;
            }
        }
        for source in 0..=0xFFFF {
            read(&lent, &with(page, DEBUG_SOURCE, &u16::to_le_bytes(source)), tally)?;
        }
    }
    Ok(())
}

/// Reads bytes into a copy of the lent fields.
fn read(lent: &Reading, bytes: &[u8], tally: &mut Tally) -> Result<(), String> {
    let answer = compare::read(&mut { *lent }, bytes);
    tally.page(answer.map_err(|difference| format!("{bytes:02X?}\nread as a page: {difference}"))?);
    Ok(())
}

/// Facts that a page may show, also such as no history has, with so many percent of the stamps set.
fn any_facts(random: &mut Random, percent: u64) -> Facts {
    Facts {
        settings: Settings {
            timer_threshold: random.bits() as u16,
            thresholds: (random.bits() as u32).to_le_bytes(),
            mode: random.below(1 << COUNTERS) as u16,
            minimum_window: random.bits() as u8,
            debug_trigger: random.below(1 << COUNTERS) as u16,
            discard: 0,
            enable: u8::from(random.chance(50)),
        },
        timer: random.bits() as u16,
        active_window: any_window(random, percent),
        static_window: any_window(random, percent),
        debug_log: random.chance(percent).then(|| (random.below(COUNTERS as u64) as usize, any_event(random))),
        active_below_a: [0; 3],
        static_below_a: [0; 3],
    }
}

fn any_window(random: &mut Random, percent: u64) -> WindowFacts {
    std::array::from_fn(|_| {
        let latest_load = random.chance(percent).then(|| any_event(random));
        CounterFacts { count: latest_load.map_or(0, |_| random.bits() as u32), latest_load }
    })
}

fn any_event(random: &mut Random) -> Event {
    let stamp = random.bits() >> 16;
    Event { measured_latency: random.bits() as u16, stamp, stamp_unit: random.chance(50) }
}

/// A page with one to three bits, bytes or stamps changed, and of another length in a few cases.
fn damaged(random: &mut Random, page: &Page) -> Vec<u8> {
    let mut page = *page;
    for _ in 0..random.from(1, 3) {
        page = with_damage(random, page);
    }
    let mut bytes = page.to_vec();
    if random.chance(4) {
        let any = random.below(LONGEST as u64) as usize;
        bytes.resize(random.pick(&[0, 1, PAGE_LENGTH - 1, PAGE_LENGTH + 1, any]), 0);
    }
    bytes
}

fn with_damage(random: &mut Random, page: Page) -> Page {
    let place = random.below(PAGE_LENGTH as u64) as usize;
    match random.below(10) {
        0..=4 => with(page, place, &[page[place] ^ 1 << random.below(8)]),
        5..=6 => with(page, place, &[random.bits() as u8]),
        7 => with(page, place, &[random.pick(&[0, 0xFF])]),
        _ => {
            let of_a_window = random.pick(&STAMPS) + 8 * random.below(COUNTERS as u64) as usize;
            let at = random.pick(&[of_a_window, of_a_window, of_a_window, DEBUG_STAMP]);
            let above = TIMESTAMP_TOP + 1;
            let stamp = random.pick(&[0, TIMESTAMP_TOP, above, above | 1, 1 << 63, NO_STAMP - 1, NO_STAMP, NO_STAMP]);
            with(page, at, &stamp.to_le_bytes())
        }
    }
}

/// The page with these bytes stored at a place.
fn with(mut page: Page, place: usize, bytes: &[u8]) -> Page {
    page[place..place + bytes.len()].copy_from_slice(bytes);
    page
}
