//! "Numbers a refused call returns", and the other answers.

/// The refusals, with the numbers of document 01's table.
#[derive(Clone, Copy, PartialEq, Eq, Debug, PartialOrd, Ord)]
pub enum Refusal {
    BadStart = 1,
    BadRecordOrSession = 2,
    BadLine = 3,
    NotAMember = 4,
    OldView = 5,
    NoSession = 6,
    OtherView = 7,
    AlreadyHeard = 8,
    NotYetHeard = 9,
    TooLate = 10,
    TooEarly = 11,
    Closed = 12,
    ShortOutput = 13,
}

impl Refusal {
    pub fn number(self) -> u8 {
        self as u8
    }
}

/// The answer of a call that takes a record.
#[derive(Clone, Copy, PartialEq, Eq, Debug, PartialOrd, Ord)]
pub enum Answer {
    /// The call was refused and changed nothing.
    Refused(Refusal),
    /// The call needed more stores than it was given.
    Cut,
    Started,
    Recovered,
    Entered,
    Heard,
    Attempted,
    NoQuorum,
    NumbersRunOut,
    NoPlace,
    Formed,
    /// A line was written, of this many characters.
    Written(usize),
}
