//! The plain library as a side of the comparisons.

use crate::session::{Session, State, ATTEMPTED, CLOSED, FORMED, NONE, UNDECIDED};
use crate::{calls, lines, record};
use compare::side::Side;
use second::answers::Answer;
use second::head_session::{HeadSession, Held, Stage};
use second::lines::Frame;

pub struct Plain;

/// A session as the plain calls take it.
fn given(session: &HeadSession) -> Session {
    let mut to = Session {
        stage: match session.stage {
            Stage::None => NONE,
            Stage::Undecided => UNDECIDED,
            Stage::Closed => CLOSED,
            Stage::Attempted => ATTEMPTED,
            Stage::Formed => FORMED,
        },
        view: session.view,
        members: session.members,
        states: session.states_heard,
        attempts: session.attempts_heard,
        ..Session::NO_SESSION
    };
    for (to, from) in to.held.iter_mut().zip(&session.held) {
        *to = State {
            number: from.number,
            count: from.count as u32,
            primary: from.last_primary,
            formed: from.last_formed,
            places: from.places,
        };
    }
    to
}

/// A session that a plain call left.
fn left(session: &Session) -> HeadSession {
    HeadSession {
        stage: match session.stage {
            NONE => Stage::None,
            UNDECIDED => Stage::Undecided,
            CLOSED => Stage::Closed,
            ATTEMPTED => Stage::Attempted,
            FORMED => Stage::Formed,
            other => panic!("a session of stage {other} was left"),
        },
        view: session.view,
        members: session.members,
        states_heard: session.states,
        attempts_heard: session.attempts,
        held: session
            .held
            .iter()
            .map(|from| Held {
                number: from.number,
                last_primary: from.primary,
                last_formed: from.formed,
                count: u8::try_from(from.count).expect("a count of a held state"),
                places: from.places,
            })
            .collect(),
    }
}

/// Makes a call on a session of `second`.
fn with(session: &mut HeadSession, call: impl FnOnce(&mut Session) -> Answer) -> Answer {
    let mut plain = given(session);
    let answer = call(&mut plain);
    *session = left(&plain);
    answer
}

impl Side for Plain {
    fn name(&self) -> &'static str {
        "plain"
    }

    fn quorum_test(&mut self, w0: u16, q: u8, s: u16, t: u16) -> Result<bool, u8> {
        calls::quorum_test(w0, q, s, t).map_err(|r| r.number())
    }

    fn read(&mut self, bytes: &[u8]) -> (Option<Frame>, usize) {
        let (line, rest) = lines::read(bytes);
        let frame = line.map(|line| match line {
            lines::Line::Attempt { view, sender } => Frame::Attempt { view, sender },
            lines::Line::State {
                view,
                sender,
                state,
            } => Frame::State {
                view,
                sender,
                state: second::lines::State {
                    number: state.number,
                    last_primary: state.primary,
                    last_formed: state.formed.to_vec(),
                    places: state.listed().to_vec(),
                },
            },
        });
        (frame, rest.len())
    }

    fn whole(&mut self, record: &[u64]) -> bool {
        record
            .try_into()
            .is_ok_and(|words| record::whole(words).is_some())
    }

    fn start(&mut self, record: &mut [u64], head: u8, w0: u16, q: u8) -> Answer {
        record::start(record, head, w0, q)
    }

    fn recover(&mut self, record: &mut [u64], budget: u64) -> Answer {
        record::recover(record, budget)
    }

    fn enter(
        &mut self,
        record: &mut [u64],
        session: &mut HeadSession,
        view: u32,
        members: u16,
        budget: u64,
    ) -> Answer {
        with(session, |s| calls::enter(record, s, view, members, budget))
    }

    fn hear_state(&mut self, record: &mut [u64], session: &mut HeadSession, line: &[u8]) -> Answer {
        with(session, |s| calls::hear_state(record, s, line))
    }

    fn hear_attempt(
        &mut self,
        record: &mut [u64],
        session: &mut HeadSession,
        line: &[u8],
    ) -> Answer {
        with(session, |s| calls::hear_attempt(record, s, line))
    }

    fn decide(&mut self, record: &mut [u64], session: &mut HeadSession, budget: u64) -> Answer {
        with(session, |s| calls::decide(record, s, budget))
    }

    fn form(&mut self, record: &mut [u64], session: &mut HeadSession, budget: u64) -> Answer {
        with(session, |s| calls::form(record, s, budget))
    }

    fn write_state(
        &mut self,
        record: &mut [u64],
        session: &mut HeadSession,
        output: &mut [u8],
    ) -> Answer {
        with(session, |s| calls::write_state(record, s, output))
    }

    fn write_attempt(
        &mut self,
        record: &mut [u64],
        session: &mut HeadSession,
        output: &mut [u8],
    ) -> Answer {
        with(session, |s| calls::write_attempt(record, s, output))
    }
}
