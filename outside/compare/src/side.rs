//! The calls as the comparison makes them, on one side or the other.
//!
//! Every call of a head is given the record as words that may be changed and
//! the session in place, so that a change that should not be is seen.

use second::answers::{Answer, Refusal};
use second::head_session::HeadSession;
use second::lines::Frame;

pub trait Side {
    fn name(&self) -> &'static str;

    /// The quorum test; `Err` holds the number of the refusal.
    fn quorum_test(&mut self, w0: u16, q: u8, s: u16, t: u16) -> Result<bool, u8>;

    /// Reads a line: what it is, `None` if it breaks a rule, and the number
    /// of lent bytes after it.
    fn read(&mut self, bytes: &[u8]) -> (Option<Frame>, usize);

    fn whole(&mut self, record: &[u64]) -> bool;

    fn start(&mut self, record: &mut [u64], head: u8, w0: u16, q: u8) -> Answer;

    fn recover(&mut self, record: &mut [u64], budget: u64) -> Answer;

    fn enter(
        &mut self,
        record: &mut [u64],
        session: &mut HeadSession,
        view: u32,
        members: u16,
        budget: u64,
    ) -> Answer;

    fn hear_state(
        &mut self,
        record: &mut [u64],
        session: &mut HeadSession,
        line: &[u8],
    ) -> Answer;

    fn hear_attempt(
        &mut self,
        record: &mut [u64],
        session: &mut HeadSession,
        line: &[u8],
    ) -> Answer;

    fn decide(&mut self, record: &mut [u64], session: &mut HeadSession, budget: u64) -> Answer;

    fn form(&mut self, record: &mut [u64], session: &mut HeadSession, budget: u64) -> Answer;

    fn write_state(
        &mut self,
        record: &mut [u64],
        session: &mut HeadSession,
        output: &mut [u8],
    ) -> Answer;

    fn write_attempt(
        &mut self,
        record: &mut [u64],
        session: &mut HeadSession,
        output: &mut [u8],
    ) -> Answer;
}

/// The refusal of a number.
pub fn refusal_of(number: u8) -> Option<Refusal> {
    use Refusal::*;
    [
        BadStart,
        BadRecordOrSession,
        BadLine,
        NotAMember,
        OldView,
        NoSession,
        OtherView,
        AlreadyHeard,
        NotYetHeard,
        TooLate,
        TooEarly,
        Closed,
        ShortOutput,
    ]
    .into_iter()
    .find(|r| r.number() == number)
}

/// `second` as a side.
pub struct Second;

/// Calls a function of `second` that takes the session by value.
fn with(
    session: &mut HeadSession,
    call: impl FnOnce(HeadSession) -> (Answer, HeadSession),
) -> Answer {
    let given = std::mem::replace(session, HeadSession::none());
    let (answer, next) = call(given);
    *session = next;
    answer
}

impl Side for Second {
    fn name(&self) -> &'static str {
        "second"
    }

    fn quorum_test(&mut self, w0: u16, q: u8, s: u16, t: u16) -> Result<bool, u8> {
        second::quorum::quorum_test(w0, q, s, t).map_err(|r| r.number())
    }

    fn read(&mut self, bytes: &[u8]) -> (Option<Frame>, usize) {
        let (verdict, rest) = second::lines::read(bytes);
        (verdict.ok(), rest.len())
    }

    fn whole(&mut self, record: &[u64]) -> bool {
        second::record::whole(record)
    }

    fn start(&mut self, record: &mut [u64], head: u8, w0: u16, q: u8) -> Answer {
        second::record::start(record, head, w0, q)
    }

    fn recover(&mut self, record: &mut [u64], budget: u64) -> Answer {
        second::stores::recover(record, budget)
    }

    fn enter(
        &mut self,
        record: &mut [u64],
        session: &mut HeadSession,
        view: u32,
        members: u16,
        budget: u64,
    ) -> Answer {
        with(session, |s| {
            second::calls::enter(record, s, view, members, budget)
        })
    }

    fn hear_state(
        &mut self,
        record: &mut [u64],
        session: &mut HeadSession,
        line: &[u8],
    ) -> Answer {
        with(session, |s| second::calls::hear_state(record, s, line))
    }

    fn hear_attempt(
        &mut self,
        record: &mut [u64],
        session: &mut HeadSession,
        line: &[u8],
    ) -> Answer {
        with(session, |s| second::calls::hear_attempt(record, s, line))
    }

    fn decide(&mut self, record: &mut [u64], session: &mut HeadSession, budget: u64) -> Answer {
        with(session, |s| second::calls::decide(record, s, budget))
    }

    fn form(&mut self, record: &mut [u64], session: &mut HeadSession, budget: u64) -> Answer {
        with(session, |s| second::calls::form(record, s, budget))
    }

    fn write_state(
        &mut self,
        record: &mut [u64],
        session: &mut HeadSession,
        output: &mut [u8],
    ) -> Answer {
        with(session, |s| second::calls::write_state(record, s, output))
    }

    fn write_attempt(
        &mut self,
        record: &mut [u64],
        session: &mut HeadSession,
        output: &mut [u8],
    ) -> Answer {
        with(session, |s| second::calls::write_attempt(record, s, output))
    }
}
