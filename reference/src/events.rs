//! Event files: records of 16 bytes, read as calls, and a writer for them.

use crate::answers::{answers, Answer};
use crate::history::{refusal, Call, Command, Settings};
use crate::page::{page, page_text};

pub const RECORD: usize = 16;

/// A refused record: its number and the refusal.
#[derive(Clone, Copy, Debug, PartialEq)]
pub struct Refused {
    pub record: u32,
    pub number: u8,
}

/// The bytes that each kind of record names, after the kind itself.
fn named(kind: u8) -> Option<Vec<usize>> {
    match kind {
        1 => Some((1..=13).collect()),
        2 => Some(vec![1, 2, 4, 5, 6, 7]),
        3 => Some((4..=7).collect()),
        4 => Some((4..=11).collect()),
        5 => Some(vec![]),
        _ => None,
    }
}

/// The places of the bytes that a kind of record leaves unnamed.
pub fn unnamed(kind: u8) -> Option<Vec<usize>> {
    let named = named(kind)?;
    Some((1..RECORD).filter(|place| !named.contains(place)).collect())
}

/// The call that a record stands for, none if it is turned away by 11.
pub(crate) fn call(record: &[u8]) -> Option<Call> {
    if unnamed(record[0])?.iter().any(|&place| record[place] != 0) {
        return None;
    }
    if record[0] == 2 && record[2] > 1 {
        return None;
    }
    let low = u32::from_le_bytes(record[4..8].try_into().unwrap());
    let long = u64::from_le_bytes(record[4..12].try_into().unwrap());
    Some(match record[0] {
        1 => Call::Settings(Settings::from_bytes(&record[1..14]).to_buffer()),
        2 => {
            let command = Command { opcode: record[1], deallocate: record[2] == 1 };
            Call::Completion { command, latency_us: low }
        }
        3 => Call::Elapsed(low),
        4 => Call::Timestamp(long),
        _ => Call::PowerUp,
    })
}

/// A counter to be set before the record with this number, for tests.
#[derive(Clone, Copy, Debug)]
pub struct Preset {
    pub counter: u8,
    pub value: u32,
    pub record: u32,
}

/// The history that an event file stands for, and what is refused on the way.
pub fn read(file: &[u8], presets: &[Preset]) -> (Vec<Call>, Vec<Refused>) {
    let mut history = Vec::new();
    let mut refused = Vec::new();
    let whole = file.len() / RECORD;
    for (number, record) in file.chunks_exact(RECORD).enumerate() {
        for preset in presets.iter().filter(|p| p.record as usize == number) {
            history.push(Call::Preset { counter: preset.counter as usize, value: preset.value });
        }
        let number = number as u32;
        match call(record) {
            Some(call) => {
                refused.extend(refusal(&call).map(|n| Refused { record: number, number: n }));
                history.push(call);
            }
            None => refused.push(Refused { record: number, number: 11 }),
        }
    }
    if file.len() % RECORD != 0 {
        refused.push(Refused { record: whole as u32, number: 12 });
    }
    (history, refused)
}

/// The answer of each whole record. One that is turned away by 11 stands for no call, and a preset is no record.
pub fn record_answers(file: &[u8], presets: &[Preset]) -> Vec<Answer> {
    let (history, _) = read(file, presets);
    let answered = history.iter().zip(answers(&history)).filter(|(call, _)| !matches!(call, Call::Preset { .. }));
    let mut answered = answered.map(|(_, answer)| answer);
    let records = file.chunks_exact(RECORD).map(call);
    records.map(|call| call.map_or(Answer::Refused(11), |_| answered.next().expect("an answer"))).collect()
}

/// The lines that are printed of what is refused.
pub fn refused_lines(refused: &[Refused]) -> String {
    refused.iter().map(|r| format!("refused {} {}\n", r.record, r.number)).collect()
}

/// What the page program prints for an event file.
pub fn printed(file: &[u8]) -> String {
    let (history, refused) = read(file, &[]);
    let mut text = refused_lines(&refused);
    text += &page_text(&page(&history, 512).expect("a buffer of 512 bytes"));
    text
}

/// An event file being written.
#[derive(Clone, Default)]
pub struct Events(pub Vec<u8>);

impl Events {
    pub fn raw(mut self, bytes: &[u8]) -> Events {
        self.0.extend_from_slice(bytes);
        self
    }

    pub fn settings(self, settings: Settings) -> Events {
        let mut record = [0; RECORD];
        record[0] = 1;
        record[1..14].copy_from_slice(&settings.to_bytes());
        self.raw(&record)
    }

    pub fn completion(self, command: Command, latency_us: u32) -> Events {
        let mut record = [0; RECORD];
        record[0] = 2;
        record[1] = command.opcode;
        record[2] = command.deallocate.into();
        record[4..8].copy_from_slice(&latency_us.to_le_bytes());
        self.raw(&record)
    }

    pub fn elapsed(self, ms: u32) -> Events {
        let mut record = [0; RECORD];
        record[0] = 3;
        record[4..8].copy_from_slice(&ms.to_le_bytes());
        self.raw(&record)
    }

    pub fn timestamp(self, value: u64) -> Events {
        let mut record = [0; RECORD];
        record[0] = 4;
        record[4..12].copy_from_slice(&value.to_le_bytes());
        self.raw(&record)
    }

    pub fn power_up(self) -> Events {
        let mut record = [0; RECORD];
        record[0] = 5;
        self.raw(&record)
    }
}
