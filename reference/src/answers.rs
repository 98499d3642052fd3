//! What the calls of a history answer, asked of the history itself.

use crate::facts::{
    all_completions, below_a, counted, first_trigger, latest_load, number_of, window_number, BelowA, Completion,
};
use crate::history::{refusal, Call};

#[derive(Clone, Copy, Debug, PartialEq)]
pub enum Answer {
    /// The number by which the call is turned away.
    Refused(u8),
    /// Accepted, where no other answer is named.
    Done,
    NotCounted,
    Counted {
        counter: usize,
        loaded: bool,
        debug: bool,
    },
    Elapsed {
        ended: bool,
    },
    /// By kind.
    BelowA(BelowA),
}

/// The answer to the last call of a history.
pub fn answer(history: &[Call]) -> Answer {
    last(history, &all_completions(history))
}

/// The answer to each call. What a completion is goes by what is before it, so that is asked once for all.
pub fn answers(history: &[Call]) -> Vec<Answer> {
    let completions = all_completions(history);
    let before = |end: usize| completions.partition_point(|c| c.place < end);
    (1..=history.len()).map(|end| last(&history[..end], &completions[..before(end)])).collect()
}

/// The answer to the last call of a history with these enabled completions.
fn last(history: &[Call], completions: &[Completion]) -> Answer {
    let call = history.last().expect("a call");
    match (refusal(call), call) {
        (Some(number), _) => Answer::Refused(number),
        (None, Call::Completion { .. }) => completion(history, completions),
        (None, Call::Elapsed(_)) => Answer::Elapsed { ended: ended(history) },
        (None, Call::BelowA(window)) => Answer::BelowA(below_a(history, completions, number_of(history, *window))),
        (None, _) => Answer::Done,
    }
}

/// The stamp is loaded if this completion is its counter's last load in the window, and a debug log taken if it is the
/// first trigger since the last discard.
fn completion(history: &[Call], completions: &[Completion]) -> Answer {
    let place = history.len() - 1;
    let this = completions.last().filter(|c| c.place == place);
    let Some(counter) = this.and_then(|c| c.counter) else { return Answer::NotCounted };
    let number = window_number(history, place);
    let in_window = counted(history, completions, counter, number);
    Answer::Counted {
        counter,
        loaded: latest_load(history, &in_window).is_some_and(|c| c.place == place),
        debug: first_trigger(history, completions).is_some_and(|c| c.place == place),
    }
}

/// A window ends in the call where the time while enabled reaches a further multiple of the window's length.
fn ended(history: &[Call]) -> bool {
    window_number(history, history.len()) > window_number(history, history.len() - 1)
}
