//! Standard input that arrives a few bytes at a time.

use std::io::Write;
use std::thread::sleep;
use std::time::Duration;

use program::{asked, busy, prints, Program, Written, BLOCK, EXPLAIN, PAGE, RECORDS};
use reference::events::{printed, RECORD};
use reference::reasons::{explained, NUMBER};

/// Pauses in a run, each long enough for the program to read all that there is.
const PAUSES: usize = 100;
const PAUSE: Duration = Duration::from_millis(2);

/// A run whose input comes in these pieces, with a pause behind some of them.
fn in_pieces(program: &Program, pieces: &[&[u8]]) -> Written {
    program.run(&[], "", |pipe| {
        for (number, piece) in pieces.iter().enumerate() {
            pipe.write_all(piece)?;
            if number % pieces.len().div_ceil(PAUSES) == 0 {
                sleep(PAUSE);
            }
        }
        Ok(())
    })
}

fn check(program: &Program, name: &str, input: &[u8], due: &str) {
    for length in [1, 3, 7, 16, 4_097] {
        let pieces: Vec<&[u8]> = input.chunks(length).collect();
        prints(&format!("{name} in pieces of {length}"), &in_pieces(program, &pieces), due);
    }
}

fn page(name: &str, file: &[u8]) {
    check(&PAGE, name, file, &printed(file));
}

fn explain(name: &str, number: usize, file: &[u8]) {
    let input = asked(number as u32, file);
    let (name, due) = (format!("{name}, record {number},"), explained(&input));
    check(&EXPLAIN, &name, &input, &due);
    // Within the number, behind it, within a record, and at the first block's end.
    let cuts = [1, 2, 3, 4, 5, NUMBER + RECORD - 1, NUMBER + BLOCK - 1, NUMBER + BLOCK, NUMBER + BLOCK + 9];
    let ends = cuts.map(|cut| cut.min(input.len()));
    let starts = [0].into_iter().chain(ends);
    let pieces: Vec<&[u8]> = starts.zip(ends.into_iter().chain([input.len()])).map(|(s, e)| &input[s..e]).collect();
    prints(&format!("{name} cut at {cuts:?}"), &in_pieces(&EXPLAIN, &pieces), &due);
}

#[test]
fn a_few_records() {
    let file = busy(6, &[2, 4]);
    page("six records", &file);
    page("five records and 13 bytes", &file[..5 * RECORD + 13]);
}

#[test]
fn more_than_a_block() {
    let file = busy(RECORDS + 5, &[RECORDS - 1, RECORDS, RECORDS + 1]);
    page("one block and more", &file);
    page("one block and 15 bytes", &file[..BLOCK + 15]);
}

#[test]
fn a_few_records_before_the_one() {
    let file = busy(6, &[2, 4]);
    for number in 0..=6 {
        explain("six records", number, &file);
    }
    explain("five records and 13 bytes", 5, &file[..5 * RECORD + 13]);
}

#[test]
fn more_than_a_block_before_the_one() {
    let file = busy(RECORDS + 5, &[RECORDS - 1]);
    for number in [RECORDS - 2, RECORDS - 1, RECORDS, RECORDS + 4] {
        explain("one block and more", number, &file);
    }
    explain("one block and 15 bytes", RECORDS, &file[..BLOCK + 15]);
}
