//! `explain` stops reading once it has answered: the block with the record is the last that it reads.

use std::fs::{self, File};
use std::io::{Seek, Write};
use std::path::Path;

use program::{asked, busy, prints, BLOCK, EXPLAIN, RECORDS};
use reference::events::RECORD;
use reference::reasons::{EventFile, NUMBER};

/// What is due for these records of three blocks and five records.
fn three_blocks(numbers: &[usize]) -> (Vec<u8>, Vec<(u32, String)>) {
    let file = busy(3 * RECORDS + 5, &[1]);
    let reference = EventFile::new(&file);
    let due = numbers.iter().map(|&n| (n as u32, reference.printed(&(n as u32).to_le_bytes()))).collect();
    (file, due)
}

/// The pipe stays open behind the block.
#[test]
fn with_more_to_come() {
    // Settings, a refused record, and completions up to the second block's last record.
    let (file, due) = three_blocks(&[0, 1, 3, RECORDS - 1, RECORDS, 2 * RECORDS - 1]);
    for (number, due) in due {
        let blocks = number as usize / RECORDS + 1;
        let mut child = EXPLAIN.command(&[], "").spawn().expect("a shell");
        let mut input = child.stdin.take().expect("a pipe");
        input.write_all(&asked(number, &file[..BLOCK * blocks])).expect("a program that reads");
        prints(&format!("record {number}, and an open pipe"), &EXPLAIN.ended(child), &due);
        drop(input);
    }
}

/// How far a file was read is where its next read would begin.
#[test]
fn no_byte_further() {
    let (file, due) = three_blocks(&[0, 3, RECORDS - 1, RECORDS, 2 * RECORDS + 7, 3 * RECORDS + 4, 3 * RECORDS + 5]);
    for (number, due) in due {
        let path = Path::new(env!("CARGO_TARGET_TMPDIR")).join(format!("record {number}"));
        fs::write(&path, asked(number, &file)).expect("a file");
        let mut input = File::open(&path).expect("the file");
        let child = EXPLAIN.command(&[], "").stdin(input.try_clone().expect("a descriptor")).spawn().expect("a shell");
        prints(&format!("record {number}"), &EXPLAIN.ended(child), &due);
        let read = NUMBER + (BLOCK * (number as usize / RECORDS + 1)).min(RECORD * (3 * RECORDS + 5));
        assert_eq!(input.stream_position().expect("a place"), read as u64, "record {number}");
    }
}
