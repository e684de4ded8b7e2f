//! Each call on each side, as one function over a case and what the call works
//! on. Who makes calls by value holds the session and puts back what a call hands
//! back, so the copies that this makes are counted.

use crate::cases::{Call, Case};
use bench_calls::by_value::{self, code, Passed};
use bench_calls::record::Words;
use bench_calls::session::Session;
use bench_calls::{calls, lines, record};
use proved::codes;
use std::any::type_name;
use std::fmt::Debug;
use std::hint::black_box;

const NO_LIMIT: u64 = u64::MAX;

/// What a call changes.
#[derive(Clone, PartialEq, Eq, Debug)]
pub struct Work<S> {
    pub record: Words,
    pub session: S,
    pub out: [u8; 419],
}

/// A call; its answer as a number.
pub type Run<S> = fn(&Case, &mut Work<S>) -> u8;

/// A side: its session and its calls.
pub trait Side {
    type Session: Copy + PartialEq + Debug;

    fn session(plain: &Session) -> Self::Session;

    fn run(call: Call) -> Run<Self::Session>;

    /// What the call of a case begins with.
    fn work(case: &Case) -> Work<Self::Session> {
        Work {
            record: case.record,
            session: Self::session(&case.session),
            out: [0; 419],
        }
    }
}

/// No call: what the loop around the calls costs.
#[inline(never)]
pub fn nothing<S>(_: &Case, _: &mut Work<S>) -> u8 {
    0
}

/// A call that changes the session where it is.
macro_rules! in_place {
    ($work:ident, $call:path, $record:expr, $($given:expr),*) => {
        code($call($record, &mut $work.session, $($given),*))
    };
}

/// A call that takes the session by value; what it hands back is put back.
macro_rules! by_value {
    ($work:ident, $call:path, $record:expr, $($given:expr),*) => {{
        let end = $call($record, $work.session, $($given),*);
        $work.session = end.session;
        end.code
    }};
}

/// The calls of a library: those without a session as given, the others in one
/// of the two ways above.
macro_rules! run {
    ($library:ident, $way:ident, $call:ident, $($other:pat => $run:expr,)*) => {
        match $call {
            $($other => $run,)*
            Call::Enter => |case, work| {
                $way!(work, $library::enter, &mut work.record, case.view, case.members, NO_LIMIT)
            },
            Call::HearState => |case, work| {
                $way!(work, $library::hear_state, &work.record, &case.line)
            },
            Call::HearAttempt => |case, work| {
                $way!(work, $library::hear_attempt, &work.record, &case.line)
            },
            Call::Decide => |_, work| $way!(work, $library::decide, &mut work.record, NO_LIMIT),
            Call::Form => |_, work| $way!(work, $library::form, &mut work.record, NO_LIMIT),
            Call::WriteState => |_, work| {
                $way!(work, $library::write_state, &work.record, &mut work.out)
            },
            Call::WriteAttempt => |_, work| {
                $way!(work, $library::write_attempt, &work.record, &mut work.out)
            },
        }
    };
}

pub struct Proved;

impl Side for Proved {
    type Session = proved::Session;

    fn session(plain: &Session) -> proved::Session {
        proved::Session {
            stage: plain.stage,
            view: plain.view,
            members: plain.members,
            states: plain.states,
            attempts: plain.attempts,
            held: plain.held.map(|from| proved::State {
                number: from.number,
                primary: from.primary,
                formed: from.formed,
                count: from.count as usize,
                places: from.places,
            }),
        }
    }

    fn run(call: Call) -> Run<proved::Session> {
        run! { proved, by_value, call,
            Call::Quorum => |case, _| {
                let s = case.record[3] as u16;
                proved::quorum(case.core, Case::LEAST, s, case.members)
            },
            Call::Start => {
                |case, work| proved::start(&mut work.record, Case::HEAD, case.core, Case::LEAST)
            },
            Call::Whole => |_, work| proved::whole(&work.record) as u8,
            Call::Recover => |_, work| proved::recover(&mut work.record, NO_LIMIT),
            Call::ReadLine => |case, _| black_box(&proved::read_line(&case.line)).kind,
        }
    }
}

fn quorum<S>(case: &Case, _: &mut Work<S>) -> u8 {
    let s = case.record[3] as u16;
    match calls::quorum_test(case.core, Case::LEAST, s, case.members) {
        Ok(true) => codes::HOLDS,
        Ok(false) => codes::FAILS,
        Err(refusal) => refusal.number(),
    }
}

fn start<S>(case: &Case, work: &mut Work<S>) -> u8 {
    let answer = record::start(&mut work.record, Case::HEAD, case.core, Case::LEAST);
    code(answer)
}

fn whole<S>(_: &Case, work: &mut Work<S>) -> u8 {
    record::whole(&work.record).is_some() as u8
}

fn recover<S>(_: &Case, work: &mut Work<S>) -> u8 {
    code(record::recover(&mut work.record, NO_LIMIT))
}

/// The line that was read comes back by value also from the plain reader.
fn read_line<S>(case: &Case, _: &mut Work<S>) -> u8 {
    match black_box(&lines::read(&case.line)).0 {
        None => 0,
        Some(lines::Line::State { .. }) => 1,
        Some(lines::Line::Attempt { .. }) => 2,
    }
}

/// The plain calls behind the form of the proved ones.
pub struct ByValue;

impl Side for ByValue {
    type Session = Passed;

    fn session(plain: &Session) -> Passed {
        Passed::of(*plain)
    }

    fn run(call: Call) -> Run<Passed> {
        run! { by_value, by_value, call,
            Call::Quorum => quorum,
            Call::Start => start,
            Call::Whole => whole,
            Call::Recover => recover,
            Call::ReadLine => read_line,
        }
    }
}

/// The copies of a call by value and nothing else.
pub fn copies(_: &Case, work: &mut Work<Passed>) -> u8 {
    let end = by_value::nothing(work.session);
    work.session = end.session;
    end.code
}

pub struct Plain;

impl Side for Plain {
    type Session = Session;

    fn session(plain: &Session) -> Session {
        *plain
    }

    fn run(call: Call) -> Run<Session> {
        run! { calls, in_place, call,
            Call::Quorum => quorum,
            Call::Start => start,
            Call::Whole => whole,
            Call::Recover => recover,
            Call::ReadLine => read_line,
        }
    }
}

/// A side does on a case what the plain one does; otherwise how they differ.
fn agrees<C: Side>(call: Call, case: &Case) -> Result<(), String> {
    let mut side = C::work(case);
    let mut plain = Plain::work(case);
    let answers = (
        C::run(call)(case, &mut side),
        Plain::run(call)(case, &mut plain),
    );
    let same = answers.0 == answers.1
        && side.record == plain.record
        && side.session == C::session(&plain.session)
        && side.out == plain.out;
    if same {
        Ok(())
    } else {
        let name = type_name::<C>();
        Err(format!(
            "{call:?}, {name}: answers {answers:?}\n{side:?}\n{plain:?}"
        ))
    }
}

/// All sides do the same on a case.
pub fn agree(call: Call, case: &Case) -> Result<(), String> {
    agrees::<Proved>(call, case)?;
    agrees::<ByValue>(call, case)
}
