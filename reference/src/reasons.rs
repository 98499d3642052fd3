//! Why a completion would not load its latency stamp (Ticket 5), asked of the history before it, and what the program
//! `explain` prints.

use crate::events::{call, read, RECORD};
use crate::facts::{all_completions, bucket, counted, in_force, kind, latest_load, number_of, of_kind, Completion};
use crate::history::{Call, Command, Settings, Window};

/// What is printed where there is no completion to ask for.
pub const REFUSED: &str = "refused 16\n";
/// The bytes of a record number.
pub const NUMBER: usize = 4;

/// A completion, and the facts of the history before it.
struct Asked<'a> {
    before: &'a [Call],
    command: Command,
    latency_us: u32,
    /// In force at its place.
    settings: Settings,
    /// It and the last load of its counter in the active window, if it has a counter and the counter's stamp is set.
    stamped: Option<(Completion, &'a Completion)>,
}

/// Each reason is a test of its own, and its digit is its place here, from 1.
const REASONS: [fn(&Asked) -> bool; 6] =
    [disabled, not_counted, below_a, mode_first, not_larger, within_minimum_window];

fn disabled(asked: &Asked) -> bool {
    !asked.settings.enabled()
}

/// By its opcode, or by its deallocate attribute or bit.
fn not_counted(asked: &Asked) -> bool {
    kind(asked.command).is_none()
}

fn below_a(asked: &Asked) -> bool {
    bucket(asked.settings.thresholds, asked.latency_us).is_none()
}

fn mode_first(asked: &Asked) -> bool {
    asked.stamped.is_some_and(|(this, _)| !this.largest())
}

fn not_larger(asked: &Asked) -> bool {
    asked.stamped.is_some_and(|(this, load)| this.largest() && !this.larger(load))
}

fn within_minimum_window(asked: &Asked) -> bool {
    asked.stamped.is_some_and(|(this, load)| this.largest() && !this.after_minimum_window(asked.before, load))
}

/// The lowest reason why what completes after a history would not load its stamp, 0 if there is none.
pub fn reason(before: &[Call], command: Command, latency_us: u32) -> u8 {
    lowest(&applying(before, &all_completions(before), command, latency_us))
}

fn lowest(reasons: &[u8]) -> u8 {
    reasons.iter().copied().min().unwrap_or(0)
}

/// All reasons of what completes after a history with these enabled completions.
pub(crate) fn applying(before: &[Call], completions: &[Completion], command: Command, latency_us: u32) -> Vec<u8> {
    let stamped = of_kind(before, command, latency_us).and_then(|this| {
        let in_window = counted(before, completions, this.counter?, number_of(before, Window::Active));
        Some((this, latest_load(before, &in_window)?))
    });
    let asked = Asked { before, command, latency_us, settings: in_force(before), stamped };
    (1..).zip(REASONS).filter(|(_, applies)| applies(&asked)).map(|(digit, _)| digit).collect()
}

/// The reason of each call that is a completion, none of the others. What a completion is goes by what is before it, so
/// that is asked once for all.
pub fn reasons(history: &[Call]) -> Vec<Option<u8>> {
    let completions = all_completions(history);
    (0..history.len()).map(|place| at(history, &completions, place)).collect()
}

/// The reason of the call at a place of a history with these enabled completions, if it is a completion.
fn at(history: &[Call], completions: &[Completion], place: usize) -> Option<u8> {
    let Call::Completion { command, latency_us } = history[place] else { return None };
    let before = completions.partition_point(|c| c.place < place);
    Some(lowest(&applying(&history[..place], &completions[..before], command, latency_us)))
}

/// An event file, read once for any number of questions.
pub struct EventFile {
    history: Vec<Call>,
    completions: Vec<Completion>,
    /// The place in the history of each whole record. One that is turned away by 11 has none.
    places: Vec<Option<usize>>,
}

impl EventFile {
    pub fn new(file: &[u8]) -> EventFile {
        let (history, _) = read(file, &[]);
        let completions = all_completions(&history);
        let mut next = 0..;
        let places = file.chunks_exact(RECORD).map(|record| call(record).and_then(|_| next.next())).collect();
        EventFile { history, completions, places }
    }

    /// What is printed for a record number, given as those of its bytes that are there.
    pub fn printed(&self, number: &[u8]) -> String {
        self.reason(number).map_or(REFUSED.into(), |reason| format!("{reason}\n"))
    }

    /// The reason of the numbered record, none if that is turned away by 16.
    fn reason(&self, number: &[u8]) -> Option<u8> {
        let number = u32::from_le_bytes(number.try_into().ok()?);
        let place = self.places.get(number as usize).copied().flatten()?;
        at(&self.history, &self.completions, place)
    }
}

/// What `explain` prints for its whole input: a record number and an event file.
pub fn explained(input: &[u8]) -> String {
    let (number, file) = input.split_at(input.len().min(NUMBER));
    EventFile::new(file).printed(number)
}
