//! What the calls answer.

use std::error::Error;
use std::fmt;

/// Why a call is refused: document 01's "Numbers a refused call returns".
#[derive(Clone, Copy, Debug, PartialEq, Eq)]
#[repr(u8)]
pub enum Refusal {
    /// Start: head over 15; start and quorum test: W0 empty, Q over its size; quorum test: Q 0.
    Group = 1,
    /// Recover: the words are not a whole record even after its steps.
    Record = 2,
    /// The line breaks a rule, or is of the other kind.
    Line = 3,
    /// Own head (enter) or the sender is not in M.
    Stranger = 4,
    /// Enter: the view is at or below the highest view entered.
    OldView = 5,
    /// There is no session: no view was entered since the start or the recovery.
    NoSession = 6,
    /// The line is of another view.
    OtherView = 7,
    /// This sender was heard, or is own head.
    Heard = 8,
    /// Decide or form with a member not yet heard.
    Missing = 9,
    /// Decide or the state line after deciding; form after forming.
    Decided = 10,
    /// Form or the attempt line before deciding.
    Undecided = 11,
    /// The session was closed by decide: hear an attempt, form, the attempt line.
    Closed = 12,
    /// The output is too short. Not met here: a [`crate::Line`] has the room.
    Short = 13,
}

impl Refusal {
    /// All of them, by number.
    pub const ALL: [Refusal; 13] = [
        Refusal::Group,
        Refusal::Record,
        Refusal::Line,
        Refusal::Stranger,
        Refusal::OldView,
        Refusal::NoSession,
        Refusal::OtherView,
        Refusal::Heard,
        Refusal::Missing,
        Refusal::Decided,
        Refusal::Undecided,
        Refusal::Closed,
        Refusal::Short,
    ];

    /// Document 01's number.
    pub fn number(self) -> u8 {
        self as u8
    }

    fn of(number: u8) -> Option<Refusal> {
        Refusal::ALL.into_iter().find(|r| r.number() == number)
    }
}

/// What decide answers. The last three close the session and keep what was learnt.
#[derive(Clone, Copy, Debug, PartialEq, Eq)]
pub enum Decision {
    Attempted,
    NoQuorum,
    NumbersRunOut,
    NoPlace,
}

/// Why a call did not do its work.
#[derive(Clone, Copy, Debug, PartialEq, Eq)]
pub enum Fault {
    /// Nothing changed.
    Refused(Refusal),
    /// The store said stop, in this call or in one before. The head is out of
    /// use: recover another one from the store.
    Stopped,
    /// A number that is no answer of this call: the linked library is not the
    /// one that this crate was written for. The head is out of use.
    Unknown(u8),
}

impl fmt::Display for Fault {
    fn fmt(&self, f: &mut fmt::Formatter) -> fmt::Result {
        match self {
            Fault::Refused(refusal) => write!(f, "refused: {refusal:?} ({})", refusal.number()),
            Fault::Stopped => write!(f, "the store stopped"),
            Fault::Unknown(number) => write!(f, "the answer {number} has no meaning here"),
        }
    }
}

impl Error for Fault {}

/// The fault of a number that is not the call's usual answer.
pub(crate) fn fault(number: u8) -> Fault {
    match Refusal::of(number) {
        Some(refusal) => Fault::Refused(refusal),
        None => Fault::Unknown(number),
    }
}
