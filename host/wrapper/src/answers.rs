//! What the calls answer.

use core::error::Error;
use core::fmt::{Display, Formatter, Result as Written};

use crate::sys;

/// Why a call is turned away, with the numbers of documents 01 and 02. No call has 11 and 12, which are of event files,
/// or 16, which is of the program `explain`.
#[derive(Clone, Copy, Debug, PartialEq, Eq)]
#[repr(u8)]
pub enum Refusal {
    SettingsLength = 1,
    ReservedByte = 2,
    FlagAboveOne = 3,
    NoTimerThreshold = 4,
    ThresholdOrder = 5,
    ReservedBit = 6,
    ElapsedTime = 7,
    ClockValue = 8,
    PageLength = 9,
    SettingsBackLength = 10,
    ReadLength = 13,
    ReadIdentity = 14,
    ReadLayout = 15,
}

impl Refusal {
    pub fn number(self) -> u8 {
        self as u8
    }
}

impl Display for Refusal {
    fn fmt(&self, f: &mut Formatter) -> Written {
        f.write_str(match self {
            Refusal::SettingsLength => "settings are not 4,096 bytes",
            Refusal::ReservedByte => "a settings byte from 13 on is not zero",
            Refusal::FlagAboveOne => "discard or enable is above 1",
            Refusal::NoTimerThreshold => "the timer threshold is 0",
            Refusal::ThresholdOrder => "A is above B, B above C, or C above D",
            Refusal::ReservedBit => "bit 12 to 15 of mode or trigger is set",
            Refusal::ElapsedTime => "elapsed time is above 300,000 ms",
            Refusal::ClockValue => "the clock is 2^48 ms or more",
            Refusal::PageLength => "the page's buffer is not 512 bytes",
            Refusal::SettingsBackLength => "the settings' buffer is not 4,096 bytes",
            Refusal::ReadLength => "the page to be read is not 512 bytes",
            Refusal::ReadIdentity => "the page's version or GUID is not that of log page C3h",
            Refusal::ReadLayout => "the page breaks a rule of the layout",
        })
    }
}

impl Error for Refusal {}

/// The refusal of a number, none if the call was accepted.
pub(crate) fn accepted(number: u8) -> Result<(), Refusal> {
    Err(match number {
        0 => return Ok(()),
        1 => Refusal::SettingsLength,
        2 => Refusal::ReservedByte,
        3 => Refusal::FlagAboveOne,
        4 => Refusal::NoTimerThreshold,
        5 => Refusal::ThresholdOrder,
        6 => Refusal::ReservedBit,
        7 => Refusal::ElapsedTime,
        8 => Refusal::ClockValue,
        9 => Refusal::PageLength,
        10 => Refusal::SettingsBackLength,
        13 => Refusal::ReadLength,
        14 => Refusal::ReadIdentity,
        15 => Refusal::ReadLayout,
        _ => unreachable!("the library has no refusal {number}"),
    })
}

/// Why a command would not load a latency stamp, with the numbers of document 02, Ticket 5. The last three are of a
/// stamp that is set.
#[derive(Clone, Copy, Debug, PartialEq, Eq)]
#[repr(u8)]
pub enum Reason {
    Disabled = 1,
    /// Its opcode or attribute is not counted.
    OfNoKind = 2,
    BelowA = 3,
    ModeFirst = 4,
    /// In mode largest: its latency in ms is not larger than the measured one.
    NotLarger = 5,
    /// In mode largest: the minimum window is not over since the last load.
    MinimumWindow = 6,
}

impl Reason {
    pub fn number(self) -> u8 {
        self as u8
    }
}

impl Display for Reason {
    fn fmt(&self, f: &mut Formatter) -> Written {
        f.write_str(match self {
            Reason::Disabled => "the monitor is disabled",
            Reason::OfNoKind => "the opcode or attribute is not counted",
            Reason::BelowA => "the latency is below threshold A",
            Reason::ModeFirst => "the stamp is set, in mode first",
            Reason::NotLarger => "the latency is not larger than the measured one",
            Reason::MinimumWindow => "the minimum window is not over",
        })
    }
}

/// The reason of a number, none if the stamp would be loaded.
pub(crate) fn reason(number: u8) -> Option<Reason> {
    Some(match number {
        0 => return None,
        1 => Reason::Disabled,
        2 => Reason::OfNoKind,
        3 => Reason::BelowA,
        4 => Reason::ModeFirst,
        5 => Reason::NotLarger,
        6 => Reason::MinimumWindow,
        _ => unreachable!("the library has no reason {number}"),
    })
}

/// The answer to a completion.
#[derive(Clone, Copy, Debug, PartialEq, Eq)]
pub enum CompletionAnswer {
    /// No counter has it. One below threshold A may be in [`active_below_a`](crate::Monitor::active_below_a).
    NotCounted,
    Counted {
        counter: usize,
        /// Whether the latency stamp was loaded.
        loaded: bool,
        /// Whether a debug log was taken.
        debug: bool,
    },
}

impl From<sys::CompletionAnswer> for CompletionAnswer {
    fn from(answer: sys::CompletionAnswer) -> CompletionAnswer {
        let sys::CompletionAnswer { counter, counted, loaded, debug } = answer;
        if counted {
            CompletionAnswer::Counted { counter: counter.into(), loaded, debug }
        } else {
            debug_assert_eq!((counter, loaded, debug), (0, false, false));
            CompletionAnswer::NotCounted
        }
    }
}

/// The answer to elapsed time.
#[derive(Clone, Copy, Debug, PartialEq, Eq)]
pub enum ElapsedAnswer {
    /// The active window goes on.
    Active,
    /// The active window ended, and is the static one now.
    Ended,
}

impl TryFrom<sys::ElapsedAnswer> for ElapsedAnswer {
    type Error = Refusal;

    fn try_from(answer: sys::ElapsedAnswer) -> Result<ElapsedAnswer, Refusal> {
        debug_assert!(answer.refusal == 0 || !answer.ended);
        accepted(answer.refusal)?;
        Ok(if answer.ended { ElapsedAnswer::Ended } else { ElapsedAnswer::Active })
    }
}
