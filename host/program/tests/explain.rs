//! `explain` on record numbers and event files, beside what is written down by hand or the reference prints.

use std::fs;

use program::{asked, busy, prints, BLOCK, EXPLAIN, RECORDS, SAMPLE};
use reference::events::{Events, RECORD};
use reference::history::{Command, Settings};
use reference::questions;
use reference::random::Random;
use reference::reasons::{explained, EventFile, NUMBER, REFUSED};
use reference::vectors::Vectors;

const READ: Command = Command { opcode: 0x02, deallocate: false };
const WRITE: Command = Command { opcode: 0x01, deallocate: false };
const WRITE_ZEROES: Command = Command { opcode: 0x08, deallocate: false };

/// Around the ends of the first two blocks.
const EDGES: [usize; 7] =
    [RECORDS - 2, RECORDS - 1, RECORDS, RECORDS + 1, 2 * RECORDS - 1, 2 * RECORDS, 2 * RECORDS + 1];

fn says(what: &str, input: &[u8], due: &str) {
    prints(what, &EXPLAIN.given(input), due);
}

fn check(name: &str, file: &[u8], numbers: impl IntoIterator<Item = usize>) {
    let reference = EventFile::new(file);
    for number in numbers.into_iter().map(|number| number as u32) {
        let due = reference.printed(&number.to_le_bytes());
        says(&format!("{name}, record {number}"), &asked(number, file), &due);
    }
}

/// Each record in turn, and the one behind the last: a digit, or '-' for 16.
fn answers(name: &str, file: &[u8], digits: &str) {
    for (number, digit) in (0..).zip(digits.chars()) {
        let due = if digit == '-' { REFUSED.into() } else { format!("{digit}\n") };
        says(&format!("{name}, record {number}"), &asked(number, file), &due);
    }
}

/// Thirteen records with every answer.
fn every_answer() -> Vec<u8> {
    let settings = Settings {
        timer_threshold: 1,
        thresholds: [0, 1, 3, 9],
        mode: 0x0FFE,
        minimum_window: 1,
        enable: 1,
        ..Settings::default()
    };
    let file = Events::default().completion(READ, 7_000).settings(settings).completion(WRITE_ZEROES, 7_000);
    // Counter 0, of the Reads, is in mode first.
    let file = file.completion(READ, 4_999).completion(READ, 5_000).completion(READ, 9_000);
    let file = file.completion(WRITE, 7_000).completion(WRITE, 7_999).completion(WRITE, 8_000);
    file.elapsed(100).completion(WRITE, 8_000).raw(&[0; RECORD]).completion(WRITE, 8_000).0
}

/// What a busy drive reports, with slow Reads at these places.
fn with_reads(records: usize, places: &[usize]) -> Vec<u8> {
    let mut file = busy(records, &[]);
    for (us, &place) in (60_000..).step_by(500).zip(places) {
        file[RECORD * place..][..RECORD].copy_from_slice(&Events::default().completion(READ, us).0);
    }
    file
}

#[test]
fn samples() {
    let (input, due) =
        (include_bytes!("../../../crates/explain/stdin"), include_str!("../../../crates/explain/stdout"));
    says("the program's sample", input, due);
    answers("the page program's sample", &fs::read(SAMPLE).expect("the sample"), "--0-");
    answers("every answer", &every_answer(), "1-2304056-0-5-");
}

/// Every seventh question of each vector, from another one on in the next.
#[test]
fn vectors() {
    for group in questions::groups() {
        let Vectors::Reasons(vectors) = group.vectors else { continue };
        for (place, vector) in vectors.iter().enumerate() {
            let whole = vector.numbers.iter().filter_map(|number| number.as_slice().try_into().ok());
            let numbers = whole.map(|number| u32::from_le_bytes(number) as usize);
            check(&format!("{} {place}", group.name), &vector.file, numbers.skip(place % 7).step_by(7));
        }
    }
}

#[test]
fn at_a_blocks_end() {
    check("Reads there", &with_reads(2 * RECORDS + 2, &EDGES), EDGES);
    for refused in [vec![RECORDS - 1], vec![RECORDS], vec![RECORDS + 1], EDGES.to_vec()] {
        check(&format!("refused {refused:?}"), &busy(2 * RECORDS + 2, &refused), EDGES);
    }
}

#[test]
fn in_several_blocks() {
    let places = [5, 2 * RECORDS + 9, 3 * RECORDS - 1, 3 * RECORDS, 4 * RECORDS + 77, 5 * RECORDS + 2];
    let file = with_reads(5 * RECORDS + 3, &places);
    check("six blocks", &file, places);
    check("six blocks", &file, [5 * RECORDS + 3, 6 * RECORDS, 1 << 28, (1 << 28) + 5]);
}

#[test]
fn lengths_at_a_blocks_end() {
    let file = with_reads(RECORDS + 2, &EDGES[..4]);
    for beside in [-17, -16, -15, -1, 0, 1, 15, 16, 17, 31] {
        let length = BLOCK.checked_add_signed(beside).expect("a length");
        let whole = length / RECORD;
        check(&format!("{length} bytes"), &file[..length], [whole - 1, whole, whole + 1]);
    }
}

/// Beyond the end, also where a number's low byte alone, or 16 x the number in 32 bits, is that of a record.
#[test]
fn numbers_of_no_record() {
    let beyond = [1 << 8, 1 << 16, 1 << 24, 1 << 27, 1 << 28, 3 << 28, 1 << 31, 15 << 28];
    for file in [every_answer(), vec![]] {
        for number in beyond.iter().flat_map(|n| [0, 2, 12].map(|record| n + record)).chain([0x7FFF_FFFF, u32::MAX]) {
            says(&format!("record {number} of {} bytes", file.len()), &asked(number, &file), REFUSED);
        }
    }
}

#[test]
fn number_cut_off() {
    for length in 0..NUMBER {
        for byte in [0, 2, 255] {
            says(&format!("{length} bytes of {byte}"), &vec![byte; length], REFUSED);
        }
    }
}

#[test]
fn no_file() {
    answers("an empty file", &[], "--");
}

/// Bytes left over are no record, even those of a completion but for the last.
#[test]
fn bytes_left_over() {
    let (file, tail) = (every_answer(), Events::default().completion(READ, 50_000).0);
    for length in 0..RECORD {
        let cut = [&file, &tail[..length]].concat();
        answers(&format!("{length} bytes left over"), &cut[12 * RECORD..], "1-");
        check(&format!("{length} bytes left over"), &cut, [12, 13, 14]);
    }
}

/// Many refused records before the completion, and none else.
#[test]
fn behind_refused_records() {
    let read = Events::default().completion(READ, 7_000).0;
    for refused in [1, RECORDS - 1, RECORDS, 2 * RECORDS + 1] {
        let file = [vec![0; RECORD * refused], read.clone()].concat();
        says(&format!("behind {refused} refused"), &asked(refused as u32, &file), "1\n");
        says(&format!("the last of {refused} refused"), &asked(refused as u32 - 1, &file), REFUSED);
    }
}

/// Text, alone and behind a number, and bytes in no order.
#[test]
fn no_event_file() {
    let text = include_bytes!("../../../README.md");
    says("text", text, REFUSED);
    check("text behind a number", text, [0, 1, 64, text.len() / RECORD, text.len()]);
    let mut random = Random::new(5);
    for length in [1_000, 2 * BLOCK + 5] {
        let bytes: Vec<u8> = (0..length).map(|_| random.bits() as u8).collect();
        says(&format!("{length} drawn bytes"), &bytes, &explained(&bytes));
        check(&format!("{length} drawn bytes behind a number"), &bytes, [0, 1, 62, length / RECORD - 1]);
    }
}
