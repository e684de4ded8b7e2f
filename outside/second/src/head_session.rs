//! The session a head holds between its calls, and when it fits a record.

use crate::group::{has, within, Session, Set, HEADS, PLACES};
use crate::lines::{rules_4_to_7, State};
use crate::record::Whole;

#[derive(Clone, Copy, PartialEq, Eq, Debug, PartialOrd, Ord)]
pub enum Stage {
    None,
    Undecided,
    /// Closed by decide.
    Closed,
    Attempted,
    Formed,
}

/// A state held, as its words stand in the session. Only the first `count`
/// places belong to the state.
#[derive(Clone, PartialEq, Eq, Debug)]
pub struct Held {
    pub number: u32,
    pub last_primary: u64,
    pub last_formed: [u64; HEADS],
    pub count: u8,
    pub places: [u64; PLACES],
}

impl Held {
    pub fn blank() -> Held {
        Held {
            number: 0,
            last_primary: 0,
            last_formed: [0; HEADS],
            count: 0,
            places: [0; PLACES],
        }
    }

    /// The held form of a state that was read.
    pub fn of(state: &State) -> Held {
        let mut held = Held::blank();
        held.number = state.number;
        held.last_primary = state.last_primary;
        held.last_formed.copy_from_slice(&state.last_formed);
        held.count = state.places.len() as u8;
        for (i, &word) in state.places.iter().enumerate() {
            held.places[i] = word;
        }
        held
    }

    /// The state held, if it has at most 16 places.
    pub fn state(&self) -> Option<State> {
        let count = self.count as usize;
        if count > PLACES {
            return None;
        }
        Some(State {
            number: self.number,
            last_primary: self.last_primary,
            last_formed: self.last_formed.to_vec(),
            places: self.places[..count].to_vec(),
        })
    }
}

/// The session of a head. `held[q]` is the state heard from q; it means
/// something only for other heads q whose state was heard.
#[derive(Clone, PartialEq, Eq, Debug)]
pub struct HeadSession {
    pub stage: Stage,
    pub view: u32,
    pub members: Set,
    pub states_heard: Set,
    pub attempts_heard: Set,
    pub held: Vec<Held>,
}

impl HeadSession {
    /// No session, with everything else blank.
    pub fn none() -> HeadSession {
        HeadSession {
            stage: Stage::None,
            view: 0,
            members: 0,
            states_heard: 0,
            attempts_heard: 0,
            held: vec![Held::blank(); HEADS],
        }
    }

    pub fn is_none(&self) -> bool {
        self.stage == Stage::None
    }

    /// Attempted, closed or formed.
    pub fn is_decided(&self) -> bool {
        matches!(
            self.stage,
            Stage::Closed | Stage::Attempted | Stage::Formed
        )
    }
}

/// Does the session fit the record?
pub fn fits(session: &HeadSession, record: &Whole) -> bool {
    if session.is_none() {
        return true;
    }
    let own = record.group.own;

    // Its view is word 1 and not 0, and M has own head.
    if session.view != record.view || session.view == 0 || !has(session.members, own) {
        return false;
    }

    // All it has heard is from M with own head among it.
    for heard in [session.states_heard, session.attempts_heard] {
        if !within(heard, session.members) || !has(heard, own) {
            return false;
        }
    }

    // Every state held keeps line rules 4 to 7, at most 16 places. The states
    // held are those heard from others; own state is the record's (reading 4).
    for q in 0..HEADS {
        if q == own || !has(session.states_heard, q) {
            continue;
        }
        let Some(state) = session.held[q].state() else {
            return false;
        };
        if rules_4_to_7(q, &state).is_err() {
            return false;
        }
    }

    // If decided all states of M are heard.
    if session.is_decided() && session.states_heard != session.members {
        return false;
    }

    let this = Some(Session {
        heads: session.members,
        number: record.number,
    });
    match session.stage {
        // If attempted and not formed (M, word 2) is a used place.
        Stage::Attempted => record.places.contains(&this),
        // If formed that is last primary and all attempts are heard.
        Stage::Formed => {
            record.last_primary == this && session.attempts_heard == session.members
        }
        Stage::None | Stage::Undecided | Stage::Closed => true,
    }
}
