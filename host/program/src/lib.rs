//! Runs the programs on event files as their users do, from a shell.

use std::env;
use std::io::{Result, Write};
use std::path::{Path, PathBuf};
use std::process::{Child, ChildStdin, Command, Output, Stdio};
use std::thread;

use reference::events::{Events, RECORD};
use reference::history::Settings;
use reference::mixed;

/// Document 01's example, and what the page program prints for it.
pub const SAMPLE: &str = concat!(env!("CARGO_MANIFEST_DIR"), "/../../samples/example.events");
pub const SAMPLE_PAGE: &str = include_str!("../../../samples/example.page");
/// A page, which the listing is stored of.
pub const LISTED: &[u8] = include_bytes!("../../../crates/listing/stdin");
/// A program reads so many bytes at a time.
pub const BLOCK: usize = 65_536;
/// Whole records of a block.
pub const RECORDS: usize = BLOCK / RECORD;

pub struct Program {
    name: &'static str,
    /// Names the program, where it is not the repository's.
    variable: &'static str,
}

pub const PAGE: Program = Program { name: "page", variable: "LATENCY_MONITOR_PAGE" };
pub const EXPLAIN: Program = Program { name: "explain", variable: "LATENCY_MONITOR_EXPLAIN" };
pub const LISTING: Program = Program { name: "listing", variable: "LATENCY_MONITOR_LISTING" };

/// What a run wrote.
pub struct Written {
    pub output: String,
    pub errors: String,
}

impl Program {
    /// A run to be, with these arguments and redirections, ended after a minute.
    pub fn command(&self, arguments: &[&str], redirections: &str) -> Command {
        let mut command = Command::new("sh");
        command
            .args(["-c", &format!("exec timeout 60 \"$0\" \"$@\" {redirections}")])
            .arg(env::var_os(self.variable).map_or_else(|| self.repositorys(), PathBuf::from))
            .args(arguments)
            .stdin(Stdio::piped())
            .stdout(Stdio::piped())
            .stderr(Stdio::piped());
        command
    }

    fn repositorys(&self) -> PathBuf {
        let crates = Path::new(env!("CARGO_MANIFEST_DIR")).join("../../crates");
        crates.join(self.name).join("out").join(self.name)
    }

    /// A run; `feed` writes its standard input.
    pub fn run(
        &self,
        arguments: &[&str],
        redirections: &str,
        feed: impl FnOnce(&mut ChildStdin) -> Result<()> + Send,
    ) -> Written {
        let mut child = self.command(arguments, redirections).spawn().expect("a shell");
        let mut input = child.stdin.take().expect("a pipe");
        thread::scope(|scope| {
            // Not every run reads its input, so a failed write is no failure.
            scope.spawn(move || feed(&mut input).ok());
            self.ended(child)
        })
    }

    /// Waits for a run's end.
    pub fn ended(&self, child: Child) -> Written {
        let Output { status, stdout, stderr } = child.wait_with_output().expect("a run that ends");
        assert!(status.success(), "{}: {status}", self.name);
        let text = |bytes| String::from_utf8(bytes).expect("text");
        Written { output: text(stdout), errors: text(stderr) }
    }

    /// A run with this standard input.
    pub fn given(&self, input: &[u8]) -> Written {
        self.run(&[], "", |pipe| pipe.write_all(input))
    }
}

/// What `explain` reads: a record's number, and the file.
pub fn asked(number: u32, file: &[u8]) -> Vec<u8> {
    [&number.to_le_bytes(), file].concat()
}

/// Holds a run to its output, line by line, and to silence on standard error.
pub fn prints(what: &str, written: &Written, due: &str) {
    assert_eq!(written.errors, "", "{what}: standard error");
    for (number, (is, due)) in (1..).zip(written.output.lines().zip(due.lines())) {
        assert_eq!(is, due, "{what}: line {number}");
    }
    assert_eq!(written.output.len(), due.len(), "{what}: the output's length");
}

/// What a busy drive reports, these of its records refused.
pub fn busy(records: usize, refused: &[usize]) -> Vec<u8> {
    let mut file = Vec::new();
    mixed::write((RECORD * records) as u64, &mut file).expect("a vector that grows");
    for (&place, record) in refused.iter().zip(refusals().iter().cycle()) {
        file[RECORD * place..][..RECORD].copy_from_slice(record);
    }
    file
}

/// Records that are turned away, by 11, 7, 8 and 4.
fn refusals() -> [Vec<u8>; 4] {
    let file = Events::default();
    [
        file.clone().raw(&[7; RECORD]).0,
        file.clone().elapsed(300_001).0,
        file.clone().timestamp(1 << 48).0,
        file.settings(Settings { enable: 1, ..Settings::default() }).0,
    ]
}
