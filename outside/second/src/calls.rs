//! "The calls". Each takes the record and the head's session and hands the
//! session back with its answer.

use crate::answers::{Answer, Refusal};
use crate::group::{
    has, heads_in, number_of, session_in, single, Session, Set, HEADS, LARGEST_NUMBER, PLACES,
};
use crate::head_session::{fits, HeadSession, Held, Stage};
use crate::lines::{
    read_one, write, Frame, State, ATTEMPT_CHARACTERS, STATE_CHARACTERS,
};
use crate::quorum::sub_quorum;
use crate::record::{self, Whole, FORMED, MARKS, NUMBER, PLACE, PRIMARY, VIEW};
use crate::stores::{make, Stores};

/// Refusal 2: the record is not 52 words or not whole, or the session does
/// not fit it.
fn open(record: &[u64], session: &HeadSession) -> Result<Whole, Refusal> {
    let whole = record::open(record).ok_or(Refusal::BadRecordOrSession)?;
    if !fits(session, &whole) {
        return Err(Refusal::BadRecordOrSession);
    }
    Ok(whole)
}

/// Refusal 6: the session given is none.
fn some_session(session: &HeadSession) -> Result<(), Refusal> {
    if session.is_none() {
        Err(Refusal::NoSession)
    } else {
        Ok(())
    }
}

fn refuse_if(condition: bool, refusal: Refusal) -> Result<(), Refusal> {
    if condition {
        Err(refusal)
    } else {
        Ok(())
    }
}

/// A refused call hands back the session it was given.
fn refused(session: HeadSession, refusal: Refusal) -> (Answer, HeadSession) {
    (Answer::Refused(refusal), session)
}

// ---------------------------------------------------------------- enter

fn enter_refusal(
    record: &[u64],
    session: &HeadSession,
    view: u32,
    members: Set,
) -> Result<Whole, Refusal> {
    let whole = open(record, session)?;
    refuse_if(!has(members, whole.group.own), Refusal::NotAMember)?;
    refuse_if(view <= whole.view, Refusal::OldView)?;
    Ok(whole)
}

/// Enter a view of heads M.
pub fn enter(
    record: &mut [u64],
    session: HeadSession,
    view: u32,
    members: Set,
    budget: u64,
) -> (Answer, HeadSession) {
    let whole = match enter_refusal(record, &session, view, members) {
        Ok(whole) => whole,
        Err(refusal) => return refused(session, refusal),
    };
    let stores = vec![(VIEW, view as u64)];
    if !make(record, &stores, budget) {
        return (Answer::Cut, HeadSession::none());
    }
    let mut next = HeadSession::none();
    next.stage = Stage::Undecided;
    next.view = view;
    next.members = members;
    next.states_heard = single(whole.group.own);
    next.attempts_heard = single(whole.group.own);
    (Answer::Entered, next)
}

// ---------------------------------------------------------------- hear

fn hear_state_refusal(
    record: &[u64],
    session: &HeadSession,
    line: &[u8],
) -> Result<(usize, State), Refusal> {
    let whole = open(record, session)?;
    let Ok(Frame::State {
        view,
        sender,
        state,
    }) = read_one(line)
    else {
        return Err(Refusal::BadLine);
    };
    let sender = sender as usize;
    some_session(session)?;
    refuse_if(view != session.view, Refusal::OtherView)?;
    refuse_if(!has(session.members, sender), Refusal::NotAMember)?;
    refuse_if(
        has(session.states_heard, sender) || sender == whole.group.own,
        Refusal::AlreadyHeard,
    )?;
    Ok((sender, state))
}

/// Hear a state line.
pub fn hear_state(
    record: &[u64],
    session: HeadSession,
    line: &[u8],
) -> (Answer, HeadSession) {
    match hear_state_refusal(record, &session, line) {
        Err(refusal) => refused(session, refusal),
        Ok((sender, state)) => {
            let mut next = session;
            next.states_heard |= single(sender);
            next.held[sender] = Held::of(&state);
            (Answer::Heard, next)
        }
    }
}

fn hear_attempt_refusal(
    record: &[u64],
    session: &HeadSession,
    line: &[u8],
) -> Result<usize, Refusal> {
    let whole = open(record, session)?;
    let Ok(Frame::Attempt { view, sender }) = read_one(line) else {
        return Err(Refusal::BadLine);
    };
    let sender = sender as usize;
    some_session(session)?;
    refuse_if(view != session.view, Refusal::OtherView)?;
    refuse_if(!has(session.members, sender), Refusal::NotAMember)?;
    refuse_if(session.stage == Stage::Closed, Refusal::Closed)?;
    refuse_if(
        has(session.attempts_heard, sender) || sender == whole.group.own,
        Refusal::AlreadyHeard,
    )?;
    Ok(sender)
}

/// Hear an attempt line. It may come before the head has decided.
pub fn hear_attempt(
    record: &[u64],
    session: HeadSession,
    line: &[u8],
) -> (Answer, HeadSession) {
    match hear_attempt_refusal(record, &session, line) {
        Err(refusal) => refused(session, refusal),
        Ok(sender) => {
            let mut next = session;
            next.attempts_heard |= single(sender);
            (Answer::Heard, next)
        }
    }
}

// ---------------------------------------------------------------- decide

/// What another member said, with its sessions taken apart.
struct Said {
    head: usize,
    number: u32,
    last_primary: Option<Session>,
    last_formed: Vec<Option<Session>>,
    places: Vec<Session>,
}

/// The states of the members other than own head. They keep the line rules,
/// so every word is a session word.
fn said_by_others(session: &HeadSession, own: usize) -> Vec<Said> {
    let mut all = Vec::new();
    for q in heads_in(session.members) {
        if q == own {
            continue;
        }
        let held = &session.held[q];
        let read = |word: u64| session_in(word).unwrap_or(None);
        all.push(Said {
            head: q,
            number: held.number,
            last_primary: read(held.last_primary),
            last_formed: held.last_formed.iter().map(|&w| read(w)).collect(),
            places: held.places[..held.count as usize]
                .iter()
                .filter_map(|&w| read(w))
                .collect(),
        });
    }
    all
}

/// What decide does to a whole record whose session is complete: its stores
/// in order, and its answer if it is not cut.
fn decide_plan(whole: &Whole, session: &HeadSession) -> (Stores, Answer) {
    let p = whole.group.own;
    let m = session.members;
    let others = said_by_others(session, p);
    let mut stores = Stores::new();

    // The values of the record as the steps go on.
    let mut number = whole.number;
    let mut last_primary = whole.last_primary;
    let mut places = whole.places.clone();
    let mut marks = whole.marks.clone();

    // a. Mark q in place S if q is in S and M and q's last formed for p has a
    // number below S's.
    for i in 0..PLACES {
        let Some(s) = places[i] else { continue };
        let mut word = marks[i];
        for q in &others {
            if has(s.heads, q.head) && number_of(q.last_formed[p]) < s.number as i64 {
                word |= single(q.head);
            }
        }
        if word != marks[i] {
            marks[i] = word;
            stores.push((MARKS + i, word as u64));
        }
    }

    // b. Adopt the highest-numbered last formed for p among the q (lowest q
    // on a tie) if above own last primary's.
    let mut best: Option<Session> = None;
    for q in &others {
        if number_of(q.last_formed[p]) > number_of(best) {
            best = q.last_formed[p];
        }
    }
    if let Some(adopted) = best {
        if adopted.number as i64 > number_of(last_primary) {
            last_primary = Some(adopted);
            stores.push((PRIMARY, adopted.word()));
            if number < adopted.number {
                number = adopted.number;
                stores.push((NUMBER, number as u64));
            }
            for h in heads_in(adopted.heads) {
                stores.push((FORMED + h, adopted.word()));
            }
            for i in 0..PLACES {
                let Some(s) = places[i] else { continue };
                if s.number <= adopted.number {
                    clear(i, &mut places, &mut marks, &mut stores);
                }
            }
        }
    }

    // c. Clear each place S left whose heads less p are all marked, or for
    // which some q in S and M doesn't list S and has a last primary with a
    // lower number, or the same number and other heads.
    for i in 0..PLACES {
        let Some(s) = places[i] else { continue };
        let all_marked = heads_in(s.heads)
            .into_iter()
            .all(|h| h == p || has(marks[i], h));
        let disowned = others.iter().any(|q| {
            let theirs = q.last_primary;
            let lower = number_of(theirs) < s.number as i64;
            let other = number_of(theirs) == s.number as i64
                && theirs.is_some_and(|t| t.heads != s.heads);
            has(s.heads, q.head) && !q.places.contains(&s) && (lower || other)
        });
        if all_marked || disowned {
            clear(i, &mut places, &mut marks, &mut stores);
        }
    }

    // d. Highest number, and highest primary with the lowest head on a tie,
    // over M, own values as after c.
    let mut highest = number;
    for q in &others {
        highest = highest.max(q.number);
    }
    let mut highest_primary: Option<Session> = None;
    for h in heads_in(m) {
        let theirs = if h == p {
            last_primary
        } else {
            said(&others, h).last_primary
        };
        if number_of(theirs) > number_of(highest_primary) {
            highest_primary = theirs;
        }
    }

    // Weigh that primary, and every listed session numbered above it.
    let mut weighed: Vec<Set> = vec![highest_primary.map_or(0, |s| s.heads)];
    let own_places = places.iter().flatten();
    let listed = own_places.chain(others.iter().flat_map(|q| q.places.iter()));
    for s in listed {
        if s.number as i64 > number_of(highest_primary) {
            weighed.push(s.heads);
        }
    }
    let passes = weighed
        .iter()
        .all(|&s| sub_quorum(whole.group.w0, whole.group.q, s, m));
    if !passes {
        return (stores, Answer::NoQuorum);
    }
    if highest as u64 >= LARGEST_NUMBER {
        return (stores, Answer::NumbersRunOut);
    }
    let Some(free) = places.iter().position(|s| s.is_none()) else {
        return (stores, Answer::NoPlace);
    };
    let attempt = Session {
        heads: m,
        number: highest + 1,
    };
    stores.push((PLACE + free, attempt.word()));
    stores.push((NUMBER, attempt.number as u64));
    (stores, Answer::Attempted)
}

fn said(others: &[Said], head: usize) -> &Said {
    others
        .iter()
        .find(|q| q.head == head)
        .expect("every member but own head has said its state")
}

/// Clears a place: its session word, then its marks word.
fn clear(
    i: usize,
    places: &mut [Option<Session>],
    marks: &mut [Set],
    stores: &mut Stores,
) {
    places[i] = None;
    marks[i] = 0;
    stores.push((PLACE + i, 0));
    stores.push((MARKS + i, 0));
}

fn decide_refusal(record: &[u64], session: &HeadSession) -> Result<Whole, Refusal> {
    let whole = open(record, session)?;
    some_session(session)?;
    refuse_if(session.is_decided(), Refusal::TooLate)?;
    refuse_if(
        session.states_heard != session.members,
        Refusal::NotYetHeard,
    )?;
    Ok(whole)
}

/// The stores that decide needs, in order; `None` if it is refused.
pub fn decide_stores(record: &[u64], session: &HeadSession) -> Option<Stores> {
    let whole = decide_refusal(record, session).ok()?;
    Some(decide_plan(&whole, session).0)
}

/// Decide, once all states of M are in.
pub fn decide(
    record: &mut [u64],
    session: HeadSession,
    budget: u64,
) -> (Answer, HeadSession) {
    let whole = match decide_refusal(record, &session) {
        Ok(whole) => whole,
        Err(refusal) => return refused(session, refusal),
    };
    let (stores, answer) = decide_plan(&whole, &session);
    if !make(record, &stores, budget) {
        return (Answer::Cut, HeadSession::none());
    }
    let mut next = session;
    next.stage = if answer == Answer::Attempted {
        Stage::Attempted
    } else {
        Stage::Closed
    };
    (answer, next)
}

// ---------------------------------------------------------------- form

fn form_refusal(record: &[u64], session: &HeadSession) -> Result<Whole, Refusal> {
    let whole = open(record, session)?;
    some_session(session)?;
    refuse_if(session.stage == Stage::Closed, Refusal::Closed)?;
    refuse_if(session.stage == Stage::Formed, Refusal::TooLate)?;
    refuse_if(session.stage == Stage::Undecided, Refusal::TooEarly)?;
    refuse_if(
        session.attempts_heard != session.members,
        Refusal::NotYetHeard,
    )?;
    Ok(whole)
}

/// Form, once all attempts of M are in.
pub fn form(
    record: &mut [u64],
    session: HeadSession,
    budget: u64,
) -> (Answer, HeadSession) {
    let whole = match form_refusal(record, &session) {
        Ok(whole) => whole,
        Err(refusal) => return refused(session, refusal),
    };
    let formed = Session {
        heads: session.members,
        number: whole.number,
    };
    // Word 3, last formed words, then each used place's two words.
    let mut stores: Stores = vec![(PRIMARY, formed.word())];
    for h in heads_in(session.members) {
        stores.push((FORMED + h, formed.word()));
    }
    for i in 0..PLACES {
        if whole.places[i].is_some() {
            stores.push((PLACE + i, 0));
            stores.push((MARKS + i, 0));
        }
    }
    if !make(record, &stores, budget) {
        return (Answer::Cut, HeadSession::none());
    }
    let mut next = session;
    next.stage = Stage::Formed;
    (Answer::Formed, next)
}

// ---------------------------------------------------------------- write

/// The state of a whole record, with its places in rising number.
pub fn own_state(whole: &Whole) -> State {
    let mut listed: Vec<Session> = whole.places.iter().copied().flatten().collect();
    listed.sort_by_key(|s| s.number);
    State {
        number: whole.number,
        last_primary: whole.last_primary.map_or(0, Session::word),
        last_formed: (0..HEADS)
            .map(|q| whole.last_formed[q].map_or(0, Session::word))
            .collect(),
        places: listed.into_iter().map(Session::word).collect(),
    }
}

fn write_state_refusal(
    record: &[u64],
    session: &HeadSession,
    output: &[u8],
) -> Result<Whole, Refusal> {
    let whole = open(record, session)?;
    some_session(session)?;
    refuse_if(session.is_decided(), Refusal::TooLate)?;
    refuse_if(output.len() < STATE_CHARACTERS, Refusal::ShortOutput)?;
    Ok(whole)
}

/// Write state line, from entry until decided.
pub fn write_state(
    record: &[u64],
    session: HeadSession,
    output: &mut [u8],
) -> (Answer, HeadSession) {
    let whole = match write_state_refusal(record, &session, output) {
        Ok(whole) => whole,
        Err(refusal) => return refused(session, refusal),
    };
    let line = write(&Frame::State {
        view: session.view,
        sender: whole.group.own as u8,
        state: own_state(&whole),
    });
    (put(output, &line), session)
}

fn write_attempt_refusal(
    record: &[u64],
    session: &HeadSession,
    output: &[u8],
) -> Result<Whole, Refusal> {
    let whole = open(record, session)?;
    some_session(session)?;
    refuse_if(session.stage == Stage::Closed, Refusal::Closed)?;
    refuse_if(session.stage == Stage::Undecided, Refusal::TooEarly)?;
    refuse_if(output.len() < ATTEMPT_CHARACTERS, Refusal::ShortOutput)?;
    Ok(whole)
}

/// Write attempt line, once attempted.
pub fn write_attempt(
    record: &[u64],
    session: HeadSession,
    output: &mut [u8],
) -> (Answer, HeadSession) {
    let whole = match write_attempt_refusal(record, &session, output) {
        Ok(whole) => whole,
        Err(refusal) => return refused(session, refusal),
    };
    let line = write(&Frame::Attempt {
        view: session.view,
        sender: whole.group.own as u8,
    });
    (put(output, &line), session)
}

/// Output past the written line keeps its bytes.
fn put(output: &mut [u8], line: &[u8]) -> Answer {
    output[..line.len()].copy_from_slice(line);
    Answer::Written(line.len())
}
