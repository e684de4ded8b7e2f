//! The plain calls in the form of `include/head.h`: a session goes in and comes
//! back by value, as C passes it. What this costs is the form's and not the
//! proof's, so it is measured beside the proved calls.

use crate::calls;
use crate::session::Session;
use proved::codes;
use second::answers::Answer;

/// A session in as many bytes as the proved one, in which each state takes
/// eight more than in the plain one.
#[repr(C)]
#[derive(Clone, Copy, PartialEq, Eq, Debug)]
pub struct Passed {
    pub session: Session,
    rest: [u64; 16],
}

const _: () = assert!(size_of::<Passed>() == 4496);
const _: () = assert!(size_of::<Passed>() == size_of::<proved::Session>());

impl Passed {
    pub fn of(session: Session) -> Passed {
        let rest = [0; 16];
        Passed { session, rest }
    }
}

/// What a call hands back.
#[repr(C)]
pub struct End {
    pub session: Passed,
    pub code: u8,
}

/// What a call that writes a line hands back.
#[repr(C)]
pub struct LineEnd {
    pub session: Passed,
    pub length: usize,
    pub code: u8,
}

/// The number that the proved library gives an answer.
pub fn code(answer: Answer) -> u8 {
    match answer {
        Answer::Refused(refusal) => refusal.number(),
        Answer::Cut => codes::CUT,
        Answer::Attempted => codes::ATTEMPTED,
        Answer::NoQuorum => codes::NO_QUORUM,
        Answer::NumbersRunOut => codes::NUMBERS_RUN_OUT,
        Answer::NoPlace => codes::NO_PLACE,
        _ => codes::DONE,
    }
}

fn length(answer: Answer) -> usize {
    match answer {
        Answer::Written(length) => length,
        _ => 0,
    }
}

/// Plain calls that change the copy of the session that they are given.
macro_rules! by_value {
    ($(
        $name:ident($record:ty $(, $given:ident: $type:ty)*) -> $end:ident $({ $more:ident })?;
    )*) => {$(
        // A slice is passed as its address and its length, as C would pass them.
        #[allow(improper_ctypes_definitions)]
        #[inline(never)]
        pub extern "C" fn $name(record: $record, mut session: Passed $(, $given: $type)*) -> $end {
            let answer = calls::$name(record, &mut session.session $(, $given)*);
            $end { session, $($more: $more(answer),)? code: code(answer) }
        }
    )*};
}

by_value! {
    enter(&mut [u64], view: u32, members: u16, budget: u64) -> End;
    hear_state(&[u64], line: &[u8]) -> End;
    hear_attempt(&[u64], line: &[u8]) -> End;
    decide(&mut [u64], budget: u64) -> End;
    form(&mut [u64], budget: u64) -> End;
    write_state(&[u64], out: &mut [u8]) -> LineEnd { length };
    write_attempt(&[u64], out: &mut [u8]) -> LineEnd { length };
}

/// No call: the copies of the session alone.
#[inline(never)]
pub extern "C" fn nothing(session: Passed) -> End {
    let code = codes::DONE;
    End { session, code }
}
