//! The file of vectors: its writer and its checker.
//!
//! Numbers of several bytes have the lowest byte first. The file is a sequence of groups and then a byte 'E'. A group is
//! - a byte 'G', a byte with the length of its name, the name (lower case words), and the number of its vectors (u32);
//! - its vectors. In a group whose name starts with "settings" they are settings vectors, in one whose name starts with
//!   "pages" page vectors, in one whose name starts with "reasons" reasons vectors, else event vectors.
//!
//! An event vector, played on a new monitor, is
//! - the length of an event file (u32, at most 131,072) and its bytes, also 1 to 15 after the last whole record;
//! - the number of presets (u8), and for each a counter number (u8, 0 to 14), a value (u32) and a record number (u32):
//!   just before that record is read, the counter of the active window is set to the value, where 12 to 14 are the
//!   counts below A of Read, Write and Deallocate. Records count from 0, the record is a whole one of the file, presets
//!   stand in order of it, the counter has been counted in the window, and the monitor is enabled;
//! - the number of answers (u16), and each of them (u16): one for each whole record, and one for the end of the file.
//!   An answer is 8 x N if refused by N, which is 12 at the end with bytes left over; 1 'done', also at the end with
//!   none; 2 'not counted'; 3 if counted, with 8 more if the stamp was loaded, 16 more if a debug log was taken, and 32
//!   x the counter; for elapsed time 4, and 5 if a window ended;
//! - the length of the lines that are printed of what is refused (u32) and their bytes, the same with presets or
//!   without;
//! - the length of the buffer lent for the page (u16, at most 4,200) and the refusal (u8), 9 or 0; after 0 follow the
//!   512 bytes of the page;
//! - the length of the buffer lent for settings back (u16, at most 4,200) and the refusal (u8), 10 or 0; after 0 follow
//!   bytes 0 to 12 of the settings, and all others are zero;
//! - the counts below A of the active window and then of the static one (u32), each as Read, Write and Deallocate.
//!
//! A settings vector, given to a new monitor, is
//! - the length of the settings (u16, at most 4,200), all zero but for patches: their number (u8), and for each the
//!   place (u16, below the length) and the byte (u8);
//! - the refusal (u8), 1 to 6 or 0; after 0 follow bytes 0 to 12 of the settings given back afterwards, and all others
//!   are zero.
//!
//! A page vector is
//! - the length of what is read as a page (u16, at most 4,200) and its bytes;
//! - the refusal (u8), 13 to 15 or 0;
//! - 389 bytes of fields, which after a refusal are those of a new monitor:
//!   - timer threshold (u16), mode (u16), debug trigger (u16), thresholds A to D (4 bytes), minimum window (u8) and
//!     enabled (u8, 0 or 1) of the settings, and the timer (u16);
//!   - the active window and then the static one, each as 12 counts (u32), 12 stamps (u64), 12 measured latencies (u16)
//!     and 12 stamp units (u8, 0 or 1), in the order of the counters' numbers;
//!   - the debug log's stamp (u64), measured latency (u16), source (u16) and stamp unit (u8, 0 or 1), whether one is held
//!     (u8, 0 or 1), and the number of its counter (u8, 0 if none is held);
//! - the length of what the listing prints (u16) and its bytes.
//!
//! A reasons vector is
//! - the length of an event file (u32, at most 131,072) and its bytes, also 1 to 15 after the last whole record;
//! - the number of questions (u16, at most 3,000), and 17 bytes for each, by the place in them:
//!   - 0: how many bytes of the record number are there, 0 to 4. With fewer than 4 the input of `explain` ends there,
//!     and has nothing of the event file;
//!   - 1-4: these bytes, and zeros after them;
//!   - 5: the length of what `explain` prints, 2 or 11;
//!   - 6-16: its bytes, and zeros after them.

use crate::answers::Answer;
use crate::events::{read, record_answers, refused_lines, Preset, RECORD};
use crate::facts::{facts, Facts, WindowFacts, COUNTERS, NO_EVENT};
use crate::history::{Call, PAGE_LENGTH};
use crate::page::{page, settings_back};
use crate::reading::{listing, read_page};
use crate::reasons::{EventFile, NUMBER, REFUSED};

pub const LONGEST_FILE: usize = 131_072;
pub const LONGEST_BUFFER: u16 = 4_200;
pub const MOST_QUESTIONS: u16 = 3_000;
/// The bytes of the counts below A of both windows.
const BELOW_A_BYTES: usize = 24;
/// The fields of a page vector, and where they have the counts of the two windows.
const FIELDS: usize = 389;
const COUNTS: [usize; 2] = [14, 194];

/// An event file and the lengths of the buffers that are lent after it.
pub struct EventVector {
    pub file: Vec<u8>,
    pub presets: Vec<Preset>,
    pub page_buffer: u16,
    pub back_buffer: u16,
}

/// Settings: a length, and the bytes that are not zero.
pub struct SettingsVector {
    pub length: u16,
    pub patches: Vec<(u16, u8)>,
}

/// An event file, and the record numbers that are asked for, each as those of its bytes that are there.
pub struct ReasonsVector {
    pub file: Vec<u8>,
    pub numbers: Vec<Vec<u8>>,
}

pub enum Vectors {
    Events(Vec<EventVector>),
    Settings(Vec<SettingsVector>),
    /// What is read as a page.
    Pages(Vec<Vec<u8>>),
    Reasons(Vec<ReasonsVector>),
}

pub struct Group {
    pub name: &'static str,
    pub vectors: Vectors,
}

/// The whole file, with all results computed.
pub fn write(groups: &[Group]) -> Vec<u8> {
    let mut out = Vec::new();
    for group in groups {
        out.push(b'G');
        out.push(group.name.len() as u8);
        out.extend(group.name.as_bytes());
        match &group.vectors {
            Vectors::Events(vectors) => {
                out.extend((vectors.len() as u32).to_le_bytes());
                vectors.iter().for_each(|v| write_events(&mut out, v));
            }
            Vectors::Settings(vectors) => {
                out.extend((vectors.len() as u32).to_le_bytes());
                vectors.iter().for_each(|v| write_settings(&mut out, v));
            }
            Vectors::Pages(vectors) => {
                out.extend((vectors.len() as u32).to_le_bytes());
                vectors.iter().for_each(|v| write_page(&mut out, v));
            }
            Vectors::Reasons(vectors) => {
                out.extend((vectors.len() as u32).to_le_bytes());
                vectors.iter().for_each(|v| write_reasons(&mut out, v));
            }
        }
    }
    out.push(b'E');
    out
}

fn write_events(out: &mut Vec<u8>, vector: &EventVector) {
    let (history, refused) = read(&vector.file, &vector.presets);
    out.extend((vector.file.len() as u32).to_le_bytes());
    out.extend(&vector.file);
    out.push(vector.presets.len() as u8);
    for preset in &vector.presets {
        out.push(preset.counter);
        out.extend(preset.value.to_le_bytes());
        out.extend(preset.record.to_le_bytes());
    }
    let mut answers = record_answers(&vector.file, &vector.presets);
    answers.push(if vector.file.len() % RECORD == 0 { Answer::Done } else { Answer::Refused(12) });
    out.extend((answers.len() as u16).to_le_bytes());
    answers.iter().for_each(|&answer| out.extend(coded(answer).to_le_bytes()));
    let lines = refused_lines(&refused);
    out.extend((lines.len() as u32).to_le_bytes());
    out.extend(lines.as_bytes());
    out.extend(vector.page_buffer.to_le_bytes());
    write_answer(out, &page(&history, vector.page_buffer.into()));
    out.extend(vector.back_buffer.to_le_bytes());
    write_answer(out, &settings_back(&history, vector.back_buffer.into()));
    let facts = facts(&history);
    let below_a = facts.active_below_a.into_iter().chain(facts.static_below_a);
    below_a.for_each(|count| out.extend(count.to_le_bytes()));
}

/// A record's answer as a number.
pub fn coded(answer: Answer) -> u16 {
    match answer {
        Answer::Refused(number) => 8 * u16::from(number),
        Answer::Done => 1,
        Answer::NotCounted => 2,
        Answer::Counted { counter, loaded, debug } => {
            3 + 8 * u16::from(loaded) + 16 * u16::from(debug) + 32 * counter as u16
        }
        Answer::Elapsed { ended } => 4 + u16::from(ended),
        Answer::BelowA(_) => unreachable!("no record stands for this call"),
    }
}

fn write_settings(out: &mut Vec<u8>, vector: &SettingsVector) {
    out.extend(vector.length.to_le_bytes());
    out.push(vector.patches.len() as u8);
    let mut bytes = vec![0; vector.length.into()];
    for &(place, byte) in &vector.patches {
        out.extend(place.to_le_bytes());
        out.push(byte);
        bytes[usize::from(place)] = byte;
    }
    let history = [Call::Settings(bytes)];
    match crate::history::refusal(&history[0]) {
        Some(number) => out.push(number),
        None => write_answer(out, &settings_back(&history, 4096)),
    }
}

fn write_page(out: &mut Vec<u8>, bytes: &[u8]) {
    let (refusal, facts) = match read_page(bytes) {
        Ok(facts) => (0, facts),
        Err(number) => (number, facts(&[])),
    };
    out.extend((bytes.len() as u16).to_le_bytes());
    out.extend(bytes);
    out.push(refusal);
    write_fields(out, &facts);
    let text = listing(bytes);
    out.extend((text.len() as u16).to_le_bytes());
    out.extend(text.as_bytes());
}

fn write_fields(out: &mut Vec<u8>, facts: &Facts) {
    let settings = &facts.settings;
    for number in [settings.timer_threshold, settings.mode, settings.debug_trigger] {
        out.extend(number.to_le_bytes());
    }
    out.extend(settings.thresholds);
    out.extend([settings.minimum_window, settings.enable]);
    out.extend(facts.timer.to_le_bytes());
    write_window(out, &facts.active_window);
    write_window(out, &facts.static_window);
    let (counter, event) = facts.debug_log.unwrap_or((0, NO_EVENT));
    let held = u8::from(facts.debug_log.is_some());
    out.extend(event.stamp.to_le_bytes());
    out.extend(event.measured_latency.to_le_bytes());
    out.extend((u16::from(held) << counter).to_le_bytes());
    out.extend([event.stamp_unit.into(), held, counter as u8]);
}

fn write_window(out: &mut Vec<u8>, window: &WindowFacts) {
    let events = window.map(|shown| shown.latest_load.unwrap_or(NO_EVENT));
    window.iter().for_each(|shown| out.extend(shown.count.to_le_bytes()));
    events.iter().for_each(|event| out.extend(event.stamp.to_le_bytes()));
    events.iter().for_each(|event| out.extend(event.measured_latency.to_le_bytes()));
    events.iter().for_each(|event| out.push(event.stamp_unit.into()));
}

fn write_reasons(out: &mut Vec<u8>, vector: &ReasonsVector) {
    out.extend((vector.file.len() as u32).to_le_bytes());
    out.extend(&vector.file);
    out.extend((vector.numbers.len() as u16).to_le_bytes());
    let file = EventFile::new(&vector.file);
    for number in &vector.numbers {
        write_padded::<NUMBER>(out, number);
        write_padded::<{ REFUSED.len() }>(out, file.printed(number).as_bytes());
    }
}

/// The number of the bytes, and these with zeros after them.
fn write_padded<const N: usize>(out: &mut Vec<u8>, bytes: &[u8]) {
    let mut padded = [0; N];
    padded[..bytes.len()].copy_from_slice(bytes);
    out.push(bytes.len() as u8);
    out.extend(padded);
}

/// The refusal, or 0 and the bytes.
fn write_answer<const N: usize>(out: &mut Vec<u8>, answer: &Result<[u8; N], u8>) {
    match answer {
        Ok(bytes) => {
            out.push(0);
            out.extend(bytes);
        }
        Err(number) => out.push(*number),
    }
}

/// Reads a file of vectors by the format alone, and gives a line for each group: its name and the number of vectors.
pub fn check(file: &[u8]) -> Result<String, String> {
    let mut reader = Reader { file, at: 0 };
    let mut lines = String::new();
    loop {
        match reader.u8()? {
            b'E' if reader.at == file.len() => return Ok(lines),
            b'G' => lines += &check_group(&mut reader)?,
            _ => return reader.wrong("neither a group nor the end"),
        }
    }
}

fn check_group(reader: &mut Reader) -> Result<String, String> {
    let length = reader.u8()?;
    let name = String::from_utf8_lossy(reader.bytes(length.into())?).into_owned();
    if !name.bytes().all(|b| b.is_ascii_lowercase() || b == b' ') {
        return reader.wrong("a name of other characters");
    }
    let count = reader.u32()?;
    for _ in 0..count {
        if name.starts_with("settings") {
            check_settings(reader)?;
        } else if name.starts_with("pages") {
            check_page(reader)?;
        } else if name.starts_with("reasons") {
            check_reasons(reader)?;
        } else {
            check_events(reader)?;
        }
    }
    Ok(format!("{name} {count}\n"))
}

fn check_events(reader: &mut Reader) -> Result<(), String> {
    let length = reader.u32()? as usize;
    if length > LONGEST_FILE {
        return reader.wrong("an event file too long");
    }
    reader.bytes(length)?;
    let records = (length / RECORD) as u32;
    let mut earliest = 0;
    for _ in 0..reader.u8()? {
        let (counter, _, record) = (reader.u8()?, reader.u32()?, reader.u32()?);
        if counter > 14 || record >= records || record < earliest {
            return reader.wrong("a preset out of place");
        }
        earliest = record;
    }
    check_answers(reader, records, length % RECORD != 0)?;
    check_lines(reader)?;
    check_buffer(reader, PAGE_LENGTH, 9, PAGE_LENGTH)?;
    check_buffer(reader, 4096, 10, 13)?;
    reader.bytes(BELOW_A_BYTES).map(|_| ())
}

/// An answer for each record, and one for the end.
fn check_answers(reader: &mut Reader, records: u32, left_over: bool) -> Result<(), String> {
    if u32::from(reader.u16()?) != records + 1 {
        return reader.wrong("not an answer for each record and the end");
    }
    for _ in 0..records {
        let answer = reader.u16()?;
        let fits = match answer % 8 {
            0 => matches!(answer / 8, 3..=8 | 11),
            3 => usize::from(answer / 32) < COUNTERS,
            _ => matches!(answer, 1 | 2 | 4 | 5),
        };
        if !fits {
            return reader.wrong("an answer that no record has");
        }
    }
    if reader.u16()? != if left_over { 8 * 12 } else { 1 } {
        return reader.wrong("the answer at the end");
    }
    Ok(())
}

/// Whole lines, each of what is refused.
fn check_lines(reader: &mut Reader) -> Result<(), String> {
    let length = reader.u32()? as usize;
    let lines = reader.bytes(length)?;
    if lines.split_inclusive(|&b| b == b'\n').all(|l| l.starts_with(b"refused ") && l.ends_with(b"\n")) {
        Ok(())
    } else {
        reader.wrong("a line that is not one of a refusal")
    }
}

/// A buffer's length and the refusal, which is due exactly when the length is not the right one, or so many bytes.
fn check_buffer(reader: &mut Reader, right: usize, number: u8, bytes: usize) -> Result<(), String> {
    let length = reader.u16()?;
    let refusal = reader.u8()?;
    let due = if usize::from(length) == right { 0 } else { number };
    if length > LONGEST_BUFFER || refusal != due {
        return reader.wrong("a buffer's answer");
    }
    reader.bytes(if due == 0 { bytes } else { 0 }).map(|_| ())
}

fn check_settings(reader: &mut Reader) -> Result<(), String> {
    let length = reader.u16()?;
    if length > LONGEST_BUFFER {
        return reader.wrong("settings too long");
    }
    for _ in 0..reader.u8()? {
        let (place, _) = (reader.u16()?, reader.u8()?);
        if place >= length {
            return reader.wrong("a patch out of place");
        }
    }
    match reader.u8()? {
        0 => reader.bytes(13).map(|_| ()),
        1..=6 => Ok(()),
        _ => reader.wrong("a refusal of settings"),
    }
}

/// 13 is due exactly when the length is not the right one. The fields stand there all the same.
fn check_page(reader: &mut Reader) -> Result<(), String> {
    let length = reader.u16()?;
    if length > LONGEST_BUFFER {
        return reader.wrong("a page too long");
    }
    reader.bytes(length.into())?;
    let refusal = reader.u8()?;
    if !matches!((refusal, usize::from(length) == PAGE_LENGTH), (13, false) | (0 | 14 | 15, true)) {
        return reader.wrong("a page's refusal");
    }
    let fields = reader.bytes(FIELDS)?;
    if !fields_fit(fields) || refusal != 0 && fields != new_fields() {
        return reader.wrong("a page's fields");
    }
    let length = reader.u16()?;
    let expected = if refusal == 0 { counts(fields) } else { format!("refused {refusal}\n") };
    if reader.bytes(length.into())? != expected.as_bytes() {
        return reader.wrong("what the listing prints");
    }
    Ok(())
}

/// 16 is due also where the number's bytes are not all there or no whole record has it.
fn check_reasons(reader: &mut Reader) -> Result<(), String> {
    let length = reader.u32()? as usize;
    if length > LONGEST_FILE {
        return reader.wrong("an event file too long");
    }
    reader.bytes(length)?;
    let questions = reader.u16()?;
    if questions == 0 || questions > MOST_QUESTIONS {
        return reader.wrong("no questions, or too many");
    }
    for _ in 0..questions {
        let number = reader.padded(NUMBER)?;
        let printed = reader.padded(REFUSED.len())?;
        let record = number.try_into().map(u32::from_le_bytes);
        let reason = matches!(printed, [b'0'..=b'6', b'\n']) && record.is_ok_and(|n| (n as usize) < length / RECORD);
        if !reason && printed != REFUSED.as_bytes() {
            return reader.wrong("what is printed for a record number");
        }
    }
    Ok(())
}

/// What is yes or no is 0 or 1, and the source of a debug log is its counter's bit.
fn fields_fit(fields: &[u8]) -> bool {
    let flags = [11..12, 182..194, 362..374, 386..388];
    let source = u16::from_le_bytes([fields[384], fields[385]]);
    let (held, counter) = (fields[387], fields[388]);
    flags.into_iter().all(|places| fields[places].iter().all(|&flag| flag <= 1))
        && usize::from(counter) < if held == 1 { COUNTERS } else { 1 }
        && source == u16::from(held) << counter
}

/// The fields of a new monitor.
fn new_fields() -> Vec<u8> {
    let mut fields = Vec::new();
    write_fields(&mut fields, &facts(&[]));
    fields
}

/// The counts among a page's fields as the listing prints them.
fn counts(fields: &[u8]) -> String {
    let count = |place: usize| u32::from_le_bytes(fields[place..place + 4].try_into().unwrap());
    let line = |n: usize| format!("{n} {} {}\n", count(COUNTS[0] + 4 * n), count(COUNTS[1] + 4 * n));
    (0..COUNTERS).map(line).collect()
}

struct Reader<'a> {
    file: &'a [u8],
    at: usize,
}

impl<'a> Reader<'a> {
    fn wrong<T>(&self, what: &str) -> Result<T, String> {
        Err(format!("{what}, before byte {}", self.at))
    }

    fn bytes(&mut self, count: usize) -> Result<&'a [u8], String> {
        match self.file.get(self.at..self.at + count) {
            Some(bytes) => {
                self.at += count;
                Ok(bytes)
            }
            None => self.wrong("the file ends too early"),
        }
    }

    /// How many bytes there are, and these, with zeros after them up to so many.
    fn padded(&mut self, most: usize) -> Result<&'a [u8], String> {
        let length = usize::from(self.u8()?);
        match self.bytes(most)?.split_at_checked(length) {
            Some((bytes, zeros)) if zeros.iter().all(|&b| b == 0) => Ok(bytes),
            _ => self.wrong("bytes that are not padded"),
        }
    }

    fn u8(&mut self) -> Result<u8, String> {
        Ok(self.bytes(1)?[0])
    }

    fn u16(&mut self) -> Result<u16, String> {
        Ok(u16::from_le_bytes(self.bytes(2)?.try_into().unwrap()))
    }

    fn u32(&mut self) -> Result<u32, String> {
        Ok(u32::from_le_bytes(self.bytes(4)?.try_into().unwrap()))
    }
}
