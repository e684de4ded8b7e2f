//! The calls of a head, made on either side, and their stores one by one.

use compare::side::Side;
use second::answers::Answer;
use second::head_session::HeadSession;
use second::lines::STATE_CHARACTERS;
use second::record::{MARKS, PLACE};
use second::stores::Stores;

/// A call with what it is given beside record and session.
#[derive(Clone, PartialEq, Eq, Debug)]
pub enum Call {
    Recover,
    Enter { view: u32, members: u16 },
    HearState(Vec<u8>),
    HearAttempt(Vec<u8>),
    Decide,
    Form,
    WriteState,
    WriteAttempt,
}

/// The four calls that store.
#[derive(Clone, Copy, PartialEq, Eq, PartialOrd, Ord, Debug)]
pub enum Kind {
    Enter,
    Decide,
    Form,
    Recover,
}

impl Kind {
    pub const ALL: [Kind; 4] = [Kind::Enter, Kind::Decide, Kind::Form, Kind::Recover];

    pub fn name(self) -> &'static str {
        match self {
            Kind::Enter => "enter",
            Kind::Decide => "decide",
            Kind::Form => "form",
            Kind::Recover => "recover",
        }
    }

    pub fn named(name: &str) -> Option<Kind> {
        Kind::ALL.into_iter().find(|kind| kind.name() == name)
    }
}

impl Call {
    /// Which of the calls that store this is; the others have none.
    pub fn kind(&self) -> Option<Kind> {
        match self {
            Call::Recover => Some(Kind::Recover),
            Call::Enter { .. } => Some(Kind::Enter),
            Call::Decide => Some(Kind::Decide),
            Call::Form => Some(Kind::Form),
            _ => None,
        }
    }
}

/// What a call that was not cut did.
#[derive(Clone, PartialEq, Eq, Debug)]
pub struct Outcome {
    /// Its stores in order: word and value.
    pub stores: Stores,
    pub record: Vec<u64>,
    pub session: HeadSession,
    pub answer: Answer,
    /// The line it wrote, if it wrote one.
    pub line: Vec<u8>,
}

/// Makes a call once, with the number of stores it may make.
fn make(
    side: &mut impl Side,
    call: &Call,
    record: &mut [u64],
    session: &mut HeadSession,
    budget: u64,
) -> (Answer, Vec<u8>) {
    let mut output = [0u8; STATE_CHARACTERS];
    let answer = match call {
        Call::Recover => {
            let answer = side.recover(record, budget);
            *session = HeadSession::none();
            answer
        }
        Call::Enter { view, members } => side.enter(record, session, *view, *members, budget),
        Call::HearState(line) => side.hear_state(record, session, line),
        Call::HearAttempt(line) => side.hear_attempt(record, session, line),
        Call::Decide => side.decide(record, session, budget),
        Call::Form => side.form(record, session, budget),
        Call::WriteState => side.write_state(record, session, &mut output),
        Call::WriteAttempt => side.write_attempt(record, session, &mut output),
    };
    let length = match answer {
        Answer::Written(length) => length,
        _ => 0,
    };
    (answer, output[..length].to_vec())
}

/// More stores than any call makes.
const TOO_MANY: u64 = 200;

/// What a call does, with its stores one by one: given k stores it makes the
/// first k, so the k-th is what differs between k - 1 and k.
pub fn outcome(
    side: &mut impl Side,
    call: &Call,
    record: &[u64],
    session: &HeadSession,
) -> Result<Outcome, String> {
    let mut stores = Stores::new();
    let mut before = record.to_vec();
    for budget in 0..TOO_MANY {
        let mut after = record.to_vec();
        let mut next = session.clone();
        let (answer, line) = make(side, call, &mut after, &mut next, budget);
        if budget > 0 {
            let store = store_between(&before, &after, stores.last().copied())?;
            stores.push(store);
        } else if after != record {
            return Err(format!("{call:?} given no store stored"));
        }
        if answer != Answer::Cut {
            return Ok(Outcome {
                stores,
                record: after,
                session: next,
                answer,
                line,
            });
        }
        before = after;
    }
    Err(format!("{call:?} makes more than {TOO_MANY} stores"))
}

/// The one store that leads from a record to another. A store of the value
/// that is there shows nowhere. Only one is known to be so: after a place's
/// session word is cleared its marks word is stored as 0, also if it was 0.
fn store_between(
    before: &[u64],
    after: &[u64],
    last: Option<(usize, u64)>,
) -> Result<(usize, u64), String> {
    let mut differing = (0..before.len()).filter(|&word| before[word] != after[word]);
    match (differing.next(), differing.next(), last) {
        (Some(word), None, _) => Ok((word, after[word])),
        (None, _, Some((word, 0))) if (PLACE..MARKS).contains(&word) => {
            Ok((word - PLACE + MARKS, 0))
        }
        (None, _, _) => Err(String::from("a store shows nowhere and clears no marks")),
        _ => Err(String::from("one store changed more than one word")),
    }
}
