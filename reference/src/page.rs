//! The bytes of log page C3h and of the settings given back, from the facts of a history.

use crate::facts::{facts, in_force, Facts, WindowFacts, COUNTERS, NO_EVENT};
use crate::history::{refusal, Call, Settings, PAGE_LENGTH};

pub(crate) const VERSION: u16 = 0x0004;
pub(crate) const GUID: u128 = 0x85D45E58D4E643709C6C84D08CC07A92;

/// Where the block of the active window starts, and that of the static one.
pub(crate) const BLOCKS: [usize; 2] = [32, 240];
/// Where a block has its stamp units.
pub(crate) const STAMP_UNITS: usize = 184;

/// Where a block has a counter: by buckets, kinds from the last to the first, after four bytes that are zero.
pub(crate) fn counter_place(counter: usize) -> usize {
    16 * (counter / 3) + 12 - 4 * (counter % 3)
}

/// Where a block has a counter's stamp: from the last counter to the first.
pub(crate) fn stamp_place(counter: usize) -> usize {
    64 + 8 * (COUNTERS - 1 - counter)
}

/// Where a block has a counter's measured latency, in the order of the stamps.
pub(crate) fn latency_place(counter: usize) -> usize {
    160 + 2 * (COUNTERS - 1 - counter)
}

/// The page that ends a history, or the number by which it is turned away.
pub fn page(history: &[Call], buffer_length: usize) -> Result<[u8; PAGE_LENGTH], u8> {
    match refusal(&Call::Page(buffer_length)) {
        Some(number) => Err(number),
        None => Ok(page_bytes(&facts(history))),
    }
}

/// Bytes 0 to 12 of the settings given back, or the number by which that is turned away.
pub fn settings_back(history: &[Call], buffer_length: usize) -> Result<[u8; 13], u8> {
    match refusal(&Call::SettingsBack(buffer_length)) {
        Some(number) => Err(number),
        None => Ok(Settings { discard: 0, ..in_force(history) }.to_bytes()),
    }
}

pub(crate) fn put(page: &mut [u8], place: usize, bytes: &[u8]) {
    page[place..place + bytes.len()].copy_from_slice(bytes);
}

/// The page that shows these facts.
pub fn page_bytes(facts: &Facts) -> [u8; PAGE_LENGTH] {
    let settings = &facts.settings;
    let mut page = [0; PAGE_LENGTH];
    page[0] = settings.enable;
    put(&mut page, 2, &facts.timer.to_le_bytes());
    put(&mut page, 4, &settings.timer_threshold.to_le_bytes());
    put(&mut page, 6, &settings.thresholds);
    put(&mut page, 10, &settings.mode.to_le_bytes());
    page[12] = settings.minimum_window;
    put_window(&mut page[BLOCKS[0]..], &facts.active_window);
    put_window(&mut page[BLOCKS[1]..], &facts.static_window);
    let (source, event) = facts.debug_log.map_or((0, NO_EVENT), |(counter, event)| (1u16 << counter, event));
    put(&mut page, 448, &settings.debug_trigger.to_le_bytes());
    put(&mut page, 450, &event.measured_latency.to_le_bytes());
    put(&mut page, 452, &event.stamp.to_le_bytes());
    put(&mut page, 462, &source.to_le_bytes());
    page[464] = u8::from(event.stamp_unit);
    put(&mut page, 494, &VERSION.to_le_bytes());
    put(&mut page, 496, &GUID.to_le_bytes());
    page
}

/// A window's block.
fn put_window(block: &mut [u8], window: &WindowFacts) {
    let mut stamp_units = 0u16;
    for (counter, shown) in window.iter().enumerate() {
        let event = shown.latest_load.unwrap_or(NO_EVENT);
        put(block, counter_place(counter), &shown.count.to_le_bytes());
        put(block, stamp_place(counter), &event.stamp.to_le_bytes());
        put(block, latency_place(counter), &event.measured_latency.to_le_bytes());
        stamp_units |= u16::from(event.stamp_unit) << counter;
    }
    put(block, STAMP_UNITS, &stamp_units.to_le_bytes());
}

/// Page bytes 0 to 479 as text, 16 a line, without the lines of zeros.
pub fn page_text(page: &[u8; PAGE_LENGTH]) -> String {
    let mut text = String::new();
    for (row, bytes) in page[..480].chunks(16).enumerate() {
        if bytes.iter().any(|&b| b != 0) {
            let digits: String = bytes.iter().map(|b| format!("{b:02X}")).collect();
            text += &format!("{:03X}: {digits}\n", 16 * row);
        }
    }
    text
}
