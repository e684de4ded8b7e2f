//! The proved library as a side.

use crate::side::{refusal_of, Side};
use proved::codes;
use second::answers::Answer;
use second::head_session::{HeadSession, Held, Stage};
use second::lines::{Frame, State};

pub struct Proved;

/// The answer of a number; `usual` is the answer of a call that did its work.
fn answer(number: u8, usual: Answer) -> Answer {
    match number {
        codes::DONE => usual,
        codes::CUT => Answer::Cut,
        codes::ATTEMPTED => Answer::Attempted,
        codes::NO_QUORUM => Answer::NoQuorum,
        codes::NUMBERS_RUN_OUT => Answer::NumbersRunOut,
        codes::NO_PLACE => Answer::NoPlace,
        n => match refusal_of(n) {
            Some(refusal) => Answer::Refused(refusal),
            None => panic!("the answer {n} has no meaning"),
        },
    }
}

/// A session as the proved calls take it.
fn given(session: &HeadSession) -> proved::Session {
    let blank = proved::State {
        number: 0,
        primary: 0,
        formed: [0; 16],
        count: 0,
        places: [0; 16],
    };
    let mut held = [blank; 16];
    for (to, from) in held.iter_mut().zip(&session.held) {
        *to = proved::State {
            number: from.number,
            primary: from.last_primary,
            formed: from.last_formed,
            count: from.count as usize,
            places: from.places,
        };
    }
    proved::Session {
        stage: match session.stage {
            Stage::None => 0,
            Stage::Undecided => 1,
            Stage::Closed => 2,
            Stage::Attempted => 3,
            Stage::Formed => 4,
        },
        view: session.view,
        members: session.members,
        states: session.states_heard,
        attempts: session.attempts_heard,
        held,
    }
}

/// A session that a proved call handed back.
fn handed_back(session: &proved::Session) -> HeadSession {
    HeadSession {
        stage: match session.stage {
            0 => Stage::None,
            1 => Stage::Undecided,
            2 => Stage::Closed,
            3 => Stage::Attempted,
            4 => Stage::Formed,
            other => panic!("a session of stage {other} was handed back"),
        },
        view: session.view,
        members: session.members,
        states_heard: session.states,
        attempts_heard: session.attempts,
        held: session
            .held
            .iter()
            .map(|from| Held {
                number: from.number,
                last_primary: from.primary,
                last_formed: from.formed,
                count: u8::try_from(from.count).expect("a count of a held state"),
                places: from.places,
            })
            .collect(),
    }
}

impl Side for Proved {
    fn name(&self) -> &'static str {
        "proved"
    }

    fn quorum_test(&mut self, w0: u16, q: u8, s: u16, t: u16) -> Result<bool, u8> {
        match proved::quorum(w0, q, s, t) {
            codes::HOLDS => Ok(true),
            codes::FAILS => Ok(false),
            n => Err(n),
        }
    }

    fn read(&mut self, bytes: &[u8]) -> (Option<Frame>, usize) {
        let line = proved::read_line(bytes);
        let (view, sender) = (line.view, line.sender);
        let frame = match line.kind {
            0 => None,
            1 => Some(Frame::State {
                view,
                sender,
                state: State {
                    number: line.state.number,
                    last_primary: line.state.primary,
                    last_formed: line.state.formed.to_vec(),
                    places: line.state.places[..line.state.count].to_vec(),
                },
            }),
            _ => Some(Frame::Attempt { view, sender }),
        };
        (frame, line.left)
    }

    fn whole(&mut self, record: &[u64]) -> bool {
        proved::whole(record)
    }

    fn start(&mut self, record: &mut [u64], head: u8, w0: u16, q: u8) -> Answer {
        answer(proved::start(record, head, w0, q), Answer::Started)
    }

    fn recover(&mut self, record: &mut [u64], budget: u64) -> Answer {
        answer(proved::recover(record, budget), Answer::Recovered)
    }

    fn enter(
        &mut self,
        record: &mut [u64],
        session: &mut HeadSession,
        view: u32,
        members: u16,
        budget: u64,
    ) -> Answer {
        let end = proved::enter(record, given(session), view, members, budget);
        *session = handed_back(&end.session);
        answer(end.code, Answer::Entered)
    }

    fn hear_state(&mut self, record: &mut [u64], session: &mut HeadSession, line: &[u8]) -> Answer {
        let end = proved::hear_state(record, given(session), line);
        *session = handed_back(&end.session);
        answer(end.code, Answer::Heard)
    }

    fn hear_attempt(
        &mut self,
        record: &mut [u64],
        session: &mut HeadSession,
        line: &[u8],
    ) -> Answer {
        let end = proved::hear_attempt(record, given(session), line);
        *session = handed_back(&end.session);
        answer(end.code, Answer::Heard)
    }

    fn decide(&mut self, record: &mut [u64], session: &mut HeadSession, budget: u64) -> Answer {
        let end = proved::decide(record, given(session), budget);
        *session = handed_back(&end.session);
        // 0 is no answer of decide.
        answer(end.code, Answer::Started)
    }

    fn form(&mut self, record: &mut [u64], session: &mut HeadSession, budget: u64) -> Answer {
        let end = proved::form(record, given(session), budget);
        *session = handed_back(&end.session);
        answer(end.code, Answer::Formed)
    }

    fn write_state(
        &mut self,
        record: &mut [u64],
        session: &mut HeadSession,
        output: &mut [u8],
    ) -> Answer {
        let end = proved::write_state(record, given(session), output);
        *session = handed_back(&end.session);
        answer(end.code, Answer::Written(end.length))
    }

    fn write_attempt(
        &mut self,
        record: &mut [u64],
        session: &mut HeadSession,
        output: &mut [u8],
    ) -> Answer {
        let end = proved::write_attempt(record, given(session), output);
        *session = handed_back(&end.session);
        answer(end.code, Answer::Written(end.length))
    }
}
