//! How often each call, refusal, answer, command and reason was met, what became of counts below A, and each of the
//! pages that are read.

use std::fmt::{Display, Formatter, Result as Written};

use reference::answers::Answer;
use reference::facts::Facts;
use reference::history::{Call, Command, Window};

use crate::calls::{reached, OF_A_KIND, OPCODES};

/// A run that meets one of them less often has not tried it.
const LEAST: u64 = 500;

const CALLS: [&str; 9] = [
    "settings",
    "completion",
    "elapsed",
    "clock",
    "power-up",
    "page",
    "settings back",
    "active below A",
    "static below A",
];
const REFUSALS: [&str; 10] = ["by 1", "by 2", "by 3", "by 4", "by 5", "by 6", "by 7", "by 8", "by 9", "by 10"];
const ANSWERS: [&str; 6] = ["done", "not counted", "counted", "stamp loaded", "debug log taken", "window ended"];
/// Enabled completions, by opcode, without the deallocate attribute or bit and with it.
const COMMANDS: [&str; 10] = [
    "Read without",
    "Read with",
    "Write without",
    "Write with",
    "Dataset Management without",
    "Dataset Management with",
    "Write Zeroes without",
    "Write Zeroes with",
    "other without",
    "other with",
];
/// Completions that were counted, by kind, and what met counts that were not all zero: a window's end that moved them,
/// and one that put others in their place; settings that emptied or kept them; a completion below A while disabled.
const BELOW_A: [&str; 8] = ["Read", "Write", "Deallocate", "moved", "replaced", "emptied", "kept", "frozen"];
/// By number; 0 of a stamp that is not set, and of one that is.
const REASONS: [&str; 8] = ["0", "1", "2", "3", "4", "5", "6", "0 with a stamp set"];
const PAGES: [&str; 4] = ["accepted", "by 13", "by 14", "by 15"];

#[derive(Clone, Default)]
pub struct Tally {
    histories: u64,
    calls: [u64; CALLS.len()],
    refusals: [u64; REFUSALS.len()],
    answers: [u64; ANSWERS.len()],
    /// Commands at A and above.
    slow: [u64; COMMANDS.len()],
    /// Commands below A.
    fast: [u64; COMMANDS.len()],
    below_a: [u64; BELOW_A.len()],
    reasons: [u64; REASONS.len()],
    pages: [u64; PAGES.len()],
}

/// What is counted, its cases, and how often each was met.
type Group<'a> = (&'static str, &'static [&'static str], &'a [u64]);

impl Tally {
    /// So many histories, with no call yet.
    pub fn of_histories(histories: usize) -> Tally {
        Tally { histories: histories as u64, ..Tally::default() }
    }

    /// A call, with the facts before and after it.
    pub fn call(&mut self, call: &Call, answer: Answer, before: &Facts, after: &Facts) {
        self.calls[kind(call)] += 1;
        match answer {
            Answer::Refused(number) => self.refusals[usize::from(number) - 1] += 1,
            Answer::Done => self.answers[0] += 1,
            Answer::NotCounted => self.answers[1] += 1,
            Answer::Counted { loaded, debug, .. } => {
                self.answers[2] += 1;
                self.answers[3] += u64::from(loaded);
                self.answers[4] += u64::from(debug);
            }
            Answer::Elapsed { ended } => self.answers[5] += u64::from(ended),
            Answer::BelowA(_) => {}
        }
        if let Call::Completion { command, latency_us } = call {
            if before.settings.enabled() {
                let commands = if is_below_a(*latency_us, before) { &mut self.fast } else { &mut self.slow };
                commands[case(*command)] += 1;
            }
        }
        for (sum, met) in self.below_a.iter_mut().zip(below_a(call, answer, before, after)) {
            *sum += u64::from(met);
        }
    }

    /// A reason that was asked for, by number, and whether the completion met a stamp that was set.
    pub fn reason(&mut self, number: u8, stamp_set: bool) {
        let case = if number == 0 && stamp_set { REASONS.len() - 1 } else { number.into() };
        self.reasons[case] += 1;
    }

    /// A page that was read, accepted by 0.
    pub fn page(&mut self, answer: u8) {
        self.pages[usize::from(answer.saturating_sub(12))] += 1;
    }

    pub fn add(&mut self, other: &Tally) {
        self.histories += other.histories;
        for (sum, more) in self.counts_mut().zip(other.groups().into_iter().flat_map(|(_, _, counts)| counts)) {
            *sum += more;
        }
    }

    /// The tally, unless something was met too rarely.
    pub fn if_complete(self) -> Result<Tally, String> {
        let rare: Vec<String> = self.groups().into_iter().flat_map(rare).collect();
        if rare.is_empty() {
            Ok(self)
        } else {
            Err(format!("{self}\nmet fewer than {LEAST} times: {}", rare.join("; ")))
        }
    }

    fn groups(&self) -> [Group<'_>; 8] {
        [
            ("calls", &CALLS, &self.calls),
            ("refused", &REFUSALS, &self.refusals),
            ("answers", &ANSWERS, &self.answers),
            ("slow commands, by deallocate attribute", &COMMANDS, &self.slow),
            ("commands below A, by deallocate attribute", &COMMANDS, &self.fast),
            ("counts below A", &BELOW_A, &self.below_a),
            ("reasons", &REASONS, &self.reasons),
            ("pages read", &PAGES, &self.pages),
        ]
    }

    /// In the order of the groups.
    fn counts_mut(&mut self) -> impl Iterator<Item = &mut u64> {
        let of_calls = self.calls.iter_mut().chain(&mut self.refusals).chain(&mut self.answers);
        let of_commands = self.slow.iter_mut().chain(&mut self.fast);
        of_calls.chain(of_commands).chain(&mut self.below_a).chain(&mut self.reasons).chain(&mut self.pages)
    }
}

/// The cases that were met too rarely.
fn rare((title, names, counts): Group<'_>) -> impl Iterator<Item = String> + '_ {
    let rare = names.iter().zip(counts).filter(|&(_, &count)| count < LEAST);
    rare.map(move |(name, _)| format!("{title}: {name}"))
}

fn kind(call: &Call) -> usize {
    match call {
        Call::Settings(_) => 0,
        Call::Completion { .. } => 1,
        Call::Elapsed(_) => 2,
        Call::Timestamp(_) => 3,
        Call::PowerUp => 4,
        Call::Page(_) => 5,
        Call::SettingsBack(_) => 6,
        Call::BelowA(Window::Active) => 7,
        Call::BelowA(Window::Static) => 8,
        Call::Preset { .. } => unreachable!("no call of the library"),
    }
}

/// Which of the cases of counts below A a call is.
fn below_a(call: &Call, answer: Answer, before: &Facts, after: &Facts) -> [bool; BELOW_A.len()] {
    let [read, write, deallocate] =
        std::array::from_fn(|kind| after.active_below_a[kind] > before.active_below_a[kind]);
    let ended = answer == Answer::Elapsed { ended: true };
    let accepted = matches!(call, Call::Settings(_)) && answer == Answer::Done;
    let any = |facts: &Facts| [facts.active_below_a, facts.static_below_a] != [[0; 3]; 2];
    [
        read,
        write,
        deallocate,
        ended && before.active_below_a != [0; 3],
        ended && before.static_below_a != [0; 3],
        accepted && any(before) && !any(after),
        accepted && any(after),
        any(before) && !before.settings.enabled() && of_a_kind_below_a(call, before),
    ]
}

fn of_a_kind_below_a(call: &Call, before: &Facts) -> bool {
    match call {
        Call::Completion { command, latency_us } => OF_A_KIND.contains(command) && is_below_a(*latency_us, before),
        _ => false,
    }
}

fn is_below_a(latency_us: u32, before: &Facts) -> bool {
    latency_us < reached(before.settings.thresholds[0])
}

/// Which of the commands it is.
fn case(command: Command) -> usize {
    let opcode = OPCODES.iter().position(|&opcode| opcode == command.opcode);
    2 * opcode.unwrap_or(OPCODES.len()) + usize::from(command.deallocate)
}

impl Display for Tally {
    fn fmt(&self, f: &mut Formatter) -> Written {
        write!(f, "{} histories, {} calls", self.histories, self.calls.iter().sum::<u64>())?;
        for (title, names, counts) in self.groups() {
            let met: Vec<String> = names.iter().zip(counts).map(|(name, count)| format!("{name} {count}")).collect();
            write!(f, "\n{title}: {}", met.join(", "))?;
        }
        Ok(())
    }
}
