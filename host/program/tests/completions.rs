//! Byte 2 of a completion, its deallocate attribute or bit, and byte 3, which has no name.

use program::{prints, PAGE};
use reference::events::{printed, Events, RECORD};
use reference::history::Settings;

/// Settings as record 0, then completions in bucket 0 with these opcodes and bytes 2 and 3.
fn file(starts: impl IntoIterator<Item = [u8; 3]>) -> Vec<u8> {
    let settings = Settings { timer_threshold: 2, thresholds: [0, 1, 3, 9], enable: 1, ..Settings::default() };
    let completions = starts.into_iter().map(|[opcode, attribute, unnamed]| {
        let mut record = [0; RECORD];
        record[..4].copy_from_slice(&[2, opcode, attribute, unnamed]);
        record[4..8].copy_from_slice(&5_000u32.to_le_bytes());
        record
    });
    completions.fold(Events::default().settings(settings), |file, record| file.raw(&record)).0
}

/// What the program prints, held to the reference: the lines of refused records, and the page's.
fn lines(what: &str, file: &[u8]) -> (String, String) {
    let written = PAGE.given(file);
    prints(what, &written, &printed(file));
    let (refused, page) = written.output.split_at(written.output.find("000:").expect("a page"));
    (refused.into(), page.into())
}

fn refused(records: impl IntoIterator<Item = usize>) -> String {
    records.into_iter().map(|record| format!("refused {record} 11\n")).collect()
}

/// Each value; a bucket's line has zeros, Deallocate, Write and Read.
#[test]
fn attribute() {
    let buckets = [
        (0x02, Some("020: 00000000000000000000000002000000")),
        (0x01, Some("020: 00000000000000000200000000000000")),
        (0x09, Some("020: 00000000010000000000000000000000")),
        (0x08, Some("020: 00000000010000000000000000000000")),
        (0x0C, None),
    ];
    for (opcode, bucket) in buckets {
        let what = format!("opcode {opcode:02X}h");
        let (above_one, page) = lines(&what, &file((0..=0xFF).map(|attribute| [opcode, attribute, 0])));
        assert_eq!(above_one, refused(3..=256), "{what}");
        assert_eq!(page.lines().find(|line| line.starts_with("020:")), bucket, "{what}");
    }
}

#[test]
fn unnamed() {
    let (_, of_settings) = lines("settings", &file([]));
    for opcode in [0x02, 0x01, 0x09, 0x08, 0x0C] {
        for attribute in [0, 1] {
            let what = format!("opcode {opcode:02X}h, attribute {attribute}");
            let (not_zero, page) = lines(&what, &file((1..=0xFF).map(|unnamed| [opcode, attribute, unnamed])));
            assert_eq!(not_zero, refused(1..=255), "{what}");
            assert_eq!(page, of_settings, "{what}");
        }
    }
}
