//! Monitors side by side, each with the history of its calls.

use latency_monitor::{Monitor, RECORD_LENGTH};
use reference::answers::{answer, Answer};
use reference::facts::{facts, Facts};
use reference::history::{Call, Command, Window, PAGE_LENGTH, SETTINGS_LENGTH};
use reference::page::page_bytes;
use reference::random::Random;

use crate::compare;
use crate::pages;
use crate::tally::Tally;

pub struct Bench {
    monitors: Vec<Monitor>,
    histories: Vec<Vec<Call>>,
    /// Of each history.
    facts: Vec<Facts>,
    tally: Tally,
}

impl Bench {
    pub fn new(monitors: usize) -> Bench {
        Bench {
            monitors: (0..monitors).map(|_| Monitor::new()).collect(),
            histories: vec![vec![]; monitors],
            facts: (0..monitors).map(|_| facts(&[])).collect(),
            tally: Tally::of_histories(monitors),
        }
    }

    pub fn history(&self, at: usize) -> &[Call] {
        &self.histories[at]
    }

    /// Reads the page of each history, and damaged ones.
    pub fn read_pages(&mut self, random: &mut Random) -> Result<(), String> {
        for facts in &self.facts {
            pages::read_around(random, page_bytes(facts), &mut self.tally)?;
        }
        Ok(())
    }

    /// Makes each record a new monitor's, and gives the tally.
    pub fn end(mut self) -> Result<Tally, String> {
        let facts = facts(&[]);
        for monitor in &mut self.monitors {
            monitor.reset();
            look(monitor, &[], &facts, 0).map_err(|difference| format!("after a reset: {difference}"))?;
        }
        Ok(self.tally)
    }

    /// Makes a call on one of the monitors, and looks at all that can be seen. Of a completion it asks for the reason
    /// first.
    pub fn call(&mut self, at: usize, call: Call, salt: u8) -> Result<(), String> {
        if let Call::Completion { command, latency_us } = call {
            self.ask(at, command, latency_us)?;
        }
        self.histories[at].push(call);
        let history = &self.histories[at];
        let (due, facts) = (answer(history), facts(history));
        self.tally.call(&history[history.len() - 1], due, &self.facts[at], &facts);
        step(&mut self.monitors, at, history, due, &facts, salt)
            .map_err(|difference| after(history, at, &difference))?;
        self.facts[at] = facts;
        Ok(())
    }

    /// Asks one of the monitors why a completion would not load its stamp.
    pub fn ask(&mut self, at: usize, command: Command, latency_us: u32) -> Result<(), String> {
        let history = &self.histories[at];
        let (number, stamp_set) =
            compare::reason(&self.monitors[at], history, command, latency_us).map_err(|difference| {
                after(history, at, &format!("asked for {latency_us} us of {command:?}: {difference}"))
            })?;
        self.tally.reason(number, stamp_set);
        Ok(())
    }
}

/// A difference, and the calls that it was seen after.
fn after(history: &[Call], at: usize, difference: &str) -> String {
    let calls: String = history.iter().map(|call| shown(call) + "\n").collect();
    format!("{calls}monitor {at}, after the last of these calls: {difference}")
}

/// Makes the last call of a history with these facts; the other monitors stay as they were.
fn step(
    monitors: &mut [Monitor],
    at: usize,
    history: &[Call],
    due: Answer,
    facts: &Facts,
    salt: u8,
) -> Result<(), String> {
    let before: Vec<[u8; RECORD_LENGTH]> = monitors.iter().map(|monitor| *monitor.as_bytes()).collect();
    compare::call(&mut monitors[at], &history[history.len() - 1], due, facts, salt)?;
    look(&mut monitors[at], history, facts, salt)?;
    for other in (0..monitors.len()).filter(|&other| other != at) {
        compare::left(&before[other], &monitors[other])
            .map_err(|difference| format!("monitor {other}: {difference}"))?;
    }
    Ok(())
}

/// The record, the page, what is read of the page, the settings given back and the counts below A show the facts of a
/// history, and the record's bytes bring the monitor back.
fn look(monitor: &mut Monitor, history: &[Call], facts: &Facts, salt: u8) -> Result<(), String> {
    compare::fields(monitor.record(), history, facts)?;
    compare::restored(monitor, facts).map_err(|difference| format!("restored: {difference}"))?;
    let reads = [
        (Call::Page(PAGE_LENGTH), Answer::Done),
        (Call::SettingsBack(SETTINGS_LENGTH), Answer::Done),
        (Call::BelowA(Window::Active), Answer::BelowA(facts.active_below_a)),
        (Call::BelowA(Window::Static), Answer::BelowA(facts.static_below_a)),
    ];
    for (call, due) in reads {
        compare::call(monitor, &call, due, facts, salt)
            .map_err(|difference| format!("{}: {difference}", shown(&call)))?;
    }
    compare::read_back(monitor, facts).map_err(|difference| format!("the page, read: {difference}"))
}

fn shown(call: &Call) -> String {
    match call {
        Call::Settings(bytes) => settings(bytes),
        call => format!("{call:?}"),
    }
}

/// The bytes up to 12, and the others that are not zero.
fn settings(bytes: &[u8]) -> String {
    let (named, reserved) = bytes.split_at(bytes.len().min(13));
    let mut text = format!("Settings, {} bytes: {named:02X?}", bytes.len());
    for (place, byte) in reserved.iter().enumerate().filter(|(_, &byte)| byte != 0) {
        text += &format!(", {}: {byte:02X}", 13 + place);
    }
    text
}
