//! The calls of one head as the explorer makes them, the stores apart.

use compare::side::Side;
use second::answers::Answer;
use second::head_session::HeadSession;
use second::record::WORDS;

pub type Record = [u64; WORDS];

/// No limit of stores.
pub const ALL: u64 = u64::MAX;

pub enum Call<'a> {
    Enter { view: u32, members: u16 },
    HearState { line: &'a [u8] },
    HearAttempt { line: &'a [u8] },
    Decide,
    Form,
    Recover,
    WriteState { room: usize },
    WriteAttempt { room: usize },
}

impl Call<'_> {
    pub fn name(&self) -> &'static str {
        match self {
            Call::Enter { .. } => "enter",
            Call::HearState { .. } => "hear state",
            Call::HearAttempt { .. } => "hear attempt",
            Call::Decide => "decide",
            Call::Form => "form",
            Call::Recover => "recover",
            Call::WriteState { .. } => "write state",
            Call::WriteAttempt { .. } => "write attempt",
        }
    }
}

/// What output holds before a line is written in it.
pub const UNWRITTEN: u8 = b'.';

/// Makes the call on the record and the session in place; the output is that
/// of a call that writes.
pub fn make(
    side: &mut dyn Side,
    record: &mut Record,
    session: &mut HeadSession,
    call: &Call,
    budget: u64,
) -> (Answer, Vec<u8>) {
    let mut output = Vec::new();
    let answer = match *call {
        Call::Enter { view, members } => side.enter(record, session, view, members, budget),
        Call::HearState { line } => side.hear_state(record, session, line),
        Call::HearAttempt { line } => side.hear_attempt(record, session, line),
        Call::Decide => side.decide(record, session, budget),
        Call::Form => side.form(record, session, budget),
        Call::Recover => {
            // Recover takes no session and leaves none, unless it is refused.
            let answer = side.recover(record, budget);
            if !matches!(answer, Answer::Refused(_)) {
                *session = HeadSession::none();
            }
            answer
        }
        Call::WriteState { room } => {
            output = vec![UNWRITTEN; room];
            side.write_state(record, session, &mut output)
        }
        Call::WriteAttempt { room } => {
            output = vec![UNWRITTEN; room];
            side.write_attempt(record, session, &mut output)
        }
    };
    (answer, output)
}

/// The name of an answer in the counts.
pub fn answer_name(answer: Answer) -> &'static str {
    const REFUSALS: [&str; 14] = [
        "refusal 0",
        "refusal 1",
        "refusal 2",
        "refusal 3",
        "refusal 4",
        "refusal 5",
        "refusal 6",
        "refusal 7",
        "refusal 8",
        "refusal 9",
        "refusal 10",
        "refusal 11",
        "refusal 12",
        "refusal 13",
    ];
    match answer {
        Answer::Refused(r) => REFUSALS[r.number() as usize],
        Answer::Cut => "cut",
        Answer::Started => "started",
        Answer::Recovered => "recovered",
        Answer::Entered => "entered",
        Answer::Heard => "heard",
        Answer::Attempted => "attempted",
        Answer::NoQuorum => "no quorum",
        Answer::NumbersRunOut => "numbers run out",
        Answer::NoPlace => "no place",
        Answer::Formed => "formed",
        Answer::Written(_) => "written",
    }
}
