//! Buffers and readings lent to a call.

use std::ops::Range;

use latency_monitor::{Reading, READING_LENGTH};
use reference::history::SETTINGS_LENGTH;

/// Bytes before and behind a lent buffer, so that a store outside of it is seen; no call has more to store.
const MARGIN: usize = SETTINGS_LENGTH;
/// Where the header has a reading's bools.
const READING_BOOLS: [Range<usize>; 5] = [11..12, 184..196, 368..380, 396..397, 400..401];

pub struct Lent {
    bytes: Vec<u8>,
    length: usize,
    salt: u8,
}

impl Lent {
    /// A buffer filled with a pattern.
    pub fn patterned(length: usize, salt: u8) -> Lent {
        let bytes = (0..length + 2 * MARGIN).map(|place| pattern(place, salt)).collect();
        Lent { bytes, length, salt }
    }

    /// A buffer with this content.
    pub fn holding(content: &[u8], salt: u8) -> Lent {
        let mut lent = Lent::patterned(content.len(), salt);
        lent.slice().copy_from_slice(content);
        lent
    }

    pub fn slice(&mut self) -> &mut [u8] {
        &mut self.bytes[MARGIN..MARGIN + self.length]
    }

    /// Holds the buffer to its content, or to the pattern, and what is around it to the pattern.
    pub fn check(&self, content: Option<&[u8]>) -> Result<(), String> {
        let mut due = Lent::patterned(self.length, self.salt);
        if let Some(content) = content {
            due.slice().copy_from_slice(content);
        }
        match difference(&self.bytes, &due.bytes) {
            None => Ok(()),
            Some(place) => {
                let (is, due) = (self.bytes[place], due.bytes[place]);
                Err(format!("byte {} of the buffer is {is:02X}, not {due:02X}", place as isize - MARGIN as isize))
            }
        }
    }
}

/// A reading filled with a pattern, 0 or 1 in each bool.
pub fn patterned_reading(salt: u8) -> Reading {
    let mut bytes: [u8; READING_LENGTH] = std::array::from_fn(|place| pattern(place, salt));
    for place in READING_BOOLS.into_iter().flatten() {
        bytes[place] = bytes[place] >> 1 & 1;
    }
    // SAFETY: each bool is 0 or 1, and every other field is of numbers, which may be any bytes.
    unsafe { bytes.as_ptr().cast::<Reading>().read_unaligned() }
}

/// Neither 00h nor FFh, which most bytes of a page are.
fn pattern(place: usize, salt: u8) -> u8 {
    (place as u8 ^ salt) & 0x7F | 1
}

/// The first place where two byte strings of one length differ.
pub fn difference(a: &[u8], b: &[u8]) -> Option<usize> {
    if a == b {
        return None;
    }
    a.iter().zip(b).position(|(a, b)| a != b)
}
