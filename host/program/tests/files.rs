//! Event files by standard input and by name, beside what the reference prints for them.

use std::fs;
use std::io::Write;
use std::path::Path;

use program::{busy, prints, Written, BLOCK, PAGE, RECORDS, SAMPLE, SAMPLE_PAGE};
use reference::events::{printed, RECORD};
use reference::groups::groups;
use reference::vectors::Vectors;

/// A run on a file by its name, with standard input that would be refused.
fn named(name: &str, file: &[u8]) -> Written {
    let path = Path::new(env!("CARGO_TARGET_TMPDIR")).join(name);
    fs::write(&path, file).expect("a file");
    PAGE.run(&[path.to_str().expect("a name in UTF-8")], "", |input| input.write_all(&[7; RECORD]))
}

fn check(name: &str, file: &[u8]) {
    let due = printed(file);
    prints(&format!("{name}, by standard input"), &PAGE.given(file), &due);
    prints(&format!("{name}, by name"), &named(name, file), &due);
}

#[test]
fn sample() {
    let file = fs::read(SAMPLE).expect("the sample");
    assert_eq!(printed(&file), SAMPLE_PAGE);
    check("sample", &file);
}

#[test]
fn a_named_file_needs_no_standard_input() {
    prints("sample", &PAGE.run(&[SAMPLE], "<&-", |_| Ok(())), SAMPLE_PAGE);
}

#[test]
fn vectors() {
    for group in groups() {
        let Vectors::Events(vectors) = group.vectors else { continue };
        for (number, vector) in vectors.iter().enumerate() {
            prints(&format!("{} {number}", group.name), &PAGE.given(&vector.file), &printed(&vector.file));
        }
    }
}

/// Refusals just before and behind a block's end.
#[test]
fn refusals_at_a_blocks_end() {
    let [last, first, second] = [RECORDS - 1, RECORDS, RECORDS + 1];
    for refused in [vec![last], vec![first], vec![second], vec![last, first, second]] {
        check(&format!("refused {refused:?}"), &busy(RECORDS + 4, &refused));
    }
    let refused = [0, last, first, second, RECORDS + last, RECORDS + first];
    check("refused in three blocks", &busy(2 * RECORDS + 4, &refused));
}

#[test]
fn lengths_at_a_blocks_end() {
    let file = busy(RECORDS + 2, &[RECORDS - 1, RECORDS]);
    for beside in [-17, -16, -15, -1, 0, 1, 15, 16, 17, 31] {
        let length = BLOCK.checked_add_signed(beside).expect("a length");
        check(&format!("{length} bytes"), &file[..length]);
    }
    let two = busy(2 * RECORDS + 1, &[2 * RECORDS - 1]);
    check("two blocks", &two[..2 * BLOCK]);
    check("two blocks and a byte", &two[..2 * BLOCK + 1]);
}

/// More lines than a pipe holds.
#[test]
fn every_record_refused() {
    check("refused throughout", &vec![0; 2 * BLOCK + 15]);
}
