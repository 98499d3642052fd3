//! What cannot be read or written, and wrong arguments.

use std::fs;
use std::io::Write;
use std::thread::sleep;
use std::time::Duration;

use program::{asked, Program, Written, BLOCK, EXPLAIN, LISTED, LISTING, PAGE, SAMPLE};

/// Long enough for a reader of nothing to be gone.
const PAUSE: Duration = Duration::from_millis(100);

/// Each program, and a sample as its standard input.
fn programs() -> [(Program, Vec<u8>); 3] {
    let sample = fs::read(SAMPLE).expect("the sample");
    [(EXPLAIN, asked(2, &sample)), (LISTING, LISTED.to_vec()), (PAGE, sample)]
}

/// Runs of all programs.
fn of_sample(redirections: &str) -> [Written; 3] {
    programs().map(|(program, input)| program.run(&[], redirections, |pipe| pipe.write_all(&input)))
}

fn says_a_line(written: &Written) {
    let errors = &written.errors;
    assert!(errors.ends_with('\n') && errors.lines().count() == 1, "not a line on standard error: {errors:?}");
}

/// Nothing is printed, since an answer to what could not be read would be taken for the drive's.
fn says_only_a_line(written: &Written) {
    says_a_line(written);
    assert_eq!(written.output, "");
}

fn cannot_read(redirections: &str) {
    of_sample(redirections).iter().for_each(says_only_a_line);
}

fn cannot_write(redirections: &str) {
    of_sample(redirections).iter().for_each(says_a_line);
}

fn says_usage(arguments: &[&str]) {
    let usages = ["usage: explain < INPUT", "usage: listing < PAGE", "usage: page [FILE]"];
    for ((program, input), usage) in programs().iter().zip(usages) {
        let written = program.run(arguments, "", |pipe| pipe.write_all(input));
        assert!(written.errors.contains(usage), "no usage on standard error: {:?}", written.errors);
        assert_eq!(written.output, "");
    }
}

#[test]
fn closed_input() {
    cannot_read("<&-");
}

#[test]
fn input_for_writing() {
    cannot_read("0> /dev/null");
}

#[test]
fn directory() {
    says_only_a_line(&PAGE.run(&["/"], "", |_| Ok(())));
}

#[test]
fn directory_as_input() {
    cannot_read("< /");
}

#[test]
fn missing_file() {
    says_usage(&["/no/such/file"]);
}

#[test]
fn empty_name() {
    says_usage(&[""]);
}

#[test]
fn two_arguments() {
    says_usage(&[SAMPLE, SAMPLE]);
}

/// The page program takes a name, and the others none.
#[test]
fn name_of_a_file() {
    for (program, usage) in [(EXPLAIN, "usage: explain < INPUT\n"), (LISTING, "usage: listing < PAGE\n")] {
        let written = program.run(&[SAMPLE], "", |_| Ok(()));
        says_only_a_line(&written);
        assert_eq!(written.errors, usage);
    }
}

#[test]
fn full_output() {
    cannot_write("> /dev/full");
}

#[test]
fn full_output_of_refused_records() {
    says_a_line(&PAGE.run(&[], "> /dev/full", |pipe| pipe.write_all(&[0; 2 * BLOCK + 1])));
}

#[test]
fn full_output_of_a_refused_number() {
    says_a_line(&EXPLAIN.run(&[], "> /dev/full", |pipe| pipe.write_all(&[0; 3])));
}

#[test]
fn closed_output() {
    cannot_write(">&-");
}

#[test]
fn closed_output_of_a_named_file() {
    says_a_line(&PAGE.run(&[SAMPLE], ">&-", |_| Ok(())));
}

/// A program whose reader is gone says nothing.
#[test]
fn closed_pipe() {
    for (program, input) in programs() {
        let written = program.run(&[], "| true", |pipe| {
            sleep(PAUSE);
            pipe.write_all(&input)
        });
        assert_eq!((written.output.as_str(), written.errors.as_str()), ("", ""));
    }
}
