//! The calls that take a session. Refusals are tested in document 01's order,
//! before anything is changed.

use crate::decide::{Cut, Pen};
use crate::lines::{self, read_one, Line, ATTEMPT_ROOM, STATE_ROOM};
use crate::record::{Group, Words, VIEW};
use crate::session::{Session, ATTEMPTED, CLOSED, FORMED, NONE, UNDECIDED};
use crate::words::Weights;
use second::answers::{Answer, Refusal};

/// The quorum test as a call.
pub fn quorum_test(core: u16, least: u8, s: u16, t: u16) -> Result<bool, Refusal> {
    if least == 0 || least as u32 > core.count_ones() {
        return Err(Refusal::BadStart);
    }
    Ok(Weights::of(core, least, t).pass(s))
}

/// The words and the group of a whole record that the session fits.
#[inline]
fn open<'a>(record: &'a [u64], session: &Session) -> Result<(&'a Words, Group), Refusal> {
    let words = <&Words>::try_from(record).map_err(|_| Refusal::BadRecordOrSession)?;
    let group = session.group(words).ok_or(Refusal::BadRecordOrSession)?;
    Ok((words, group))
}

/// The same, with the words to be changed.
#[inline]
fn open_mut<'a>(
    record: &'a mut [u64],
    session: &Session,
) -> Result<(&'a mut Words, Group), Refusal> {
    let words = <&mut Words>::try_from(record).map_err(|_| Refusal::BadRecordOrSession)?;
    let group = session.group(words).ok_or(Refusal::BadRecordOrSession)?;
    Ok((words, group))
}

#[inline]
fn refuse_if(condition: bool, refusal: Refusal) -> Result<(), Refusal> {
    if condition {
        Err(refusal)
    } else {
        Ok(())
    }
}

fn answered(result: Result<Answer, Refusal>) -> Answer {
    result.unwrap_or_else(Answer::Refused)
}

/// The answer of a call whose stores were made or cut; cut leaves no session.
#[inline]
fn ended(session: &mut Session, stored: Result<(Answer, u8), Cut>) -> Answer {
    match stored {
        Ok((answer, stage)) => {
            session.stage = stage;
            answer
        }
        Err(Cut) => {
            *session = Session::NO_SESSION;
            Answer::Cut
        }
    }
}

pub fn enter(
    record: &mut [u64],
    session: &mut Session,
    view: u32,
    members: u16,
    budget: u64,
) -> Answer {
    answered(try_enter(record, session, view, members, budget))
}

fn try_enter(
    record: &mut [u64],
    session: &mut Session,
    view: u32,
    members: u16,
    budget: u64,
) -> Result<Answer, Refusal> {
    let (words, group) = open_mut(record, session)?;
    let me = 1 << group.own;
    refuse_if(members & me == 0, Refusal::NotAMember)?;
    refuse_if(view as u64 <= words[VIEW], Refusal::OldView)?;
    *session = Session::NO_SESSION;
    if budget == 0 {
        return Ok(Answer::Cut);
    }
    words[VIEW] = view as u64;
    session.stage = UNDECIDED;
    session.view = view;
    session.members = members;
    session.states = me;
    session.attempts = me;
    Ok(Answer::Entered)
}

pub fn hear_state(record: &[u64], session: &mut Session, line: &[u8]) -> Answer {
    answered(try_hear_state(record, session, line))
}

fn try_hear_state(record: &[u64], session: &mut Session, line: &[u8]) -> Result<Answer, Refusal> {
    let (_, group) = open(record, session)?;
    let Some(Line::State {
        view,
        sender,
        state,
    }) = read_one(line)
    else {
        return Err(Refusal::BadLine);
    };
    let from = 1 << sender;
    refuse_if(session.stage == NONE, Refusal::NoSession)?;
    refuse_if(view != session.view, Refusal::OtherView)?;
    refuse_if(session.members & from == 0, Refusal::NotAMember)?;
    let heard = session.states | 1 << group.own;
    refuse_if(heard & from != 0, Refusal::AlreadyHeard)?;
    session.states |= from;
    session.held[sender as usize] = state;
    Ok(Answer::Heard)
}

pub fn hear_attempt(record: &[u64], session: &mut Session, line: &[u8]) -> Answer {
    answered(try_hear_attempt(record, session, line))
}

fn try_hear_attempt(record: &[u64], session: &mut Session, line: &[u8]) -> Result<Answer, Refusal> {
    let (_, group) = open(record, session)?;
    let Some(Line::Attempt { view, sender }) = read_one(line) else {
        return Err(Refusal::BadLine);
    };
    let from = 1 << sender;
    refuse_if(session.stage == NONE, Refusal::NoSession)?;
    refuse_if(view != session.view, Refusal::OtherView)?;
    refuse_if(session.members & from == 0, Refusal::NotAMember)?;
    refuse_if(session.stage == CLOSED, Refusal::Closed)?;
    let heard = session.attempts | 1 << group.own;
    refuse_if(heard & from != 0, Refusal::AlreadyHeard)?;
    session.attempts |= from;
    Ok(Answer::Heard)
}

pub fn decide(record: &mut [u64], session: &mut Session, budget: u64) -> Answer {
    answered(try_decide(record, session, budget))
}

fn try_decide(record: &mut [u64], session: &mut Session, budget: u64) -> Result<Answer, Refusal> {
    let (words, group) = open_mut(record, session)?;
    refuse_if(session.stage == NONE, Refusal::NoSession)?;
    refuse_if(session.stage != UNDECIDED, Refusal::TooLate)?;
    refuse_if(session.states != session.members, Refusal::NotYetHeard)?;
    let mut pen = Pen {
        words,
        left: budget,
    };
    let stored = pen.decide(group, session).map(|answer| match answer {
        Answer::Attempted => (answer, ATTEMPTED),
        _ => (answer, CLOSED),
    });
    Ok(ended(session, stored))
}

pub fn form(record: &mut [u64], session: &mut Session, budget: u64) -> Answer {
    answered(try_form(record, session, budget))
}

fn try_form(record: &mut [u64], session: &mut Session, budget: u64) -> Result<Answer, Refusal> {
    let (words, _) = open_mut(record, session)?;
    refuse_if(session.stage == NONE, Refusal::NoSession)?;
    refuse_if(session.stage == CLOSED, Refusal::Closed)?;
    refuse_if(session.stage == FORMED, Refusal::TooLate)?;
    refuse_if(session.stage == UNDECIDED, Refusal::TooEarly)?;
    refuse_if(session.attempts != session.members, Refusal::NotYetHeard)?;
    let mut pen = Pen {
        words,
        left: budget,
    };
    let stored = pen.form(session.members).map(|()| (Answer::Formed, FORMED));
    Ok(ended(session, stored))
}

pub fn write_state(record: &[u64], session: &Session, out: &mut [u8]) -> Answer {
    answered(try_write_state(record, session, out))
}

fn try_write_state(record: &[u64], session: &Session, out: &mut [u8]) -> Result<Answer, Refusal> {
    let (words, group) = open(record, session)?;
    refuse_if(session.stage == NONE, Refusal::NoSession)?;
    refuse_if(session.stage != UNDECIDED, Refusal::TooLate)?;
    refuse_if(out.len() < STATE_ROOM, Refusal::ShortOutput)?;
    let length = lines::write_state(out, session.view, group.own, words);
    Ok(Answer::Written(length))
}

pub fn write_attempt(record: &[u64], session: &Session, out: &mut [u8]) -> Answer {
    answered(try_write_attempt(record, session, out))
}

fn try_write_attempt(record: &[u64], session: &Session, out: &mut [u8]) -> Result<Answer, Refusal> {
    let (_, group) = open(record, session)?;
    refuse_if(session.stage == NONE, Refusal::NoSession)?;
    refuse_if(session.stage == CLOSED, Refusal::Closed)?;
    refuse_if(session.stage == UNDECIDED, Refusal::TooEarly)?;
    refuse_if(out.len() < ATTEMPT_ROOM, Refusal::ShortOutput)?;
    let length = lines::write_attempt(out, session.view, group.own);
    Ok(Answer::Written(length))
}
