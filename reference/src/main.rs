//! The reference at the command line:
//!
//!     reference vectors > FILE         the file of vectors
//!     reference check < FILE           its groups, one a line, after reading it by the format
//!     reference page < EVENTS          what the page program prints
//!     reference listing < PAGE         what the listing prints
//!     reference explain < INPUT        what `explain` prints; the input is a record number and an event file
//!     reference sample > EVENTS        the scope paper's example
//!     reference mixed BYTES > EVENTS   a long event file for measurements
//!     reference files FOLDER           each vector's event file, with what the page program prints for it

use std::fs;
use std::io::{self, BufWriter, Read, Write};
use std::process::ExitCode;

use reference::vectors::Vectors;
use reference::{events, groups, mixed, reading, reasons, vectors};

fn main() -> ExitCode {
    let words: Vec<String> = std::env::args().skip(1).collect();
    let words: Vec<&str> = words.iter().map(String::as_str).collect();
    match run(&words) {
        Ok(()) => ExitCode::SUCCESS,
        Err(error) => {
            eprintln!("reference: {error}");
            ExitCode::FAILURE
        }
    }
}

fn run(words: &[&str]) -> io::Result<()> {
    let mut out = BufWriter::new(io::stdout().lock());
    match words {
        ["vectors"] => out.write_all(&vectors::write(&groups::groups()))?,
        ["check"] => {
            let lines = vectors::check(&input()?).map_err(io::Error::other)?;
            out.write_all(lines.as_bytes())?;
        }
        ["page"] => out.write_all(events::printed(&input()?).as_bytes())?,
        ["listing"] => out.write_all(reading::listing(&input()?).as_bytes())?,
        ["explain"] => out.write_all(reasons::explained(&input()?).as_bytes())?,
        ["sample"] => out.write_all(&groups::example().0)?,
        ["mixed", bytes] => mixed::write(bytes.parse().map_err(io::Error::other)?, &mut out)?,
        ["files", folder] => files(folder)?,
        _ => {
            return Err(io::Error::other("vectors, check, page, listing, explain, sample, mixed BYTES or files FOLDER"))
        }
    }
    out.flush()
}

fn input() -> io::Result<Vec<u8>> {
    let mut bytes = Vec::new();
    io::stdin().lock().read_to_end(&mut bytes)?;
    Ok(bytes)
}

/// Presets have no part in the event files, so what is printed is without them.
fn files(folder: &str) -> io::Result<()> {
    fs::create_dir_all(folder)?;
    for group in groups::groups() {
        let Vectors::Events(vectors) = group.vectors else { continue };
        for (number, vector) in vectors.iter().enumerate() {
            let name = format!("{folder}/{}-{number:03}", group.name.replace(' ', "-"));
            fs::write(format!("{name}.events"), &vector.file)?;
            fs::write(format!("{name}.text"), events::printed(&vector.file))?;
        }
    }
    Ok(())
}
