//! The session, and when it fits a record. Its structs are laid out as in C, the
//! widest fields first.

use crate::record::{places, whole, Group, Words, NUMBER, PRIMARY, VIEW};
use crate::words::{number, primary_and_formed_agree, Rising, HEADS, PLACES};

/// What a state line says of its sender; the first `count` places count.
#[repr(C)]
#[derive(Clone, Copy, PartialEq, Eq, Debug)]
pub struct State {
    pub formed: [u64; HEADS],
    pub places: [u64; PLACES],
    pub primary: u64,
    pub number: u32,
    pub count: u32,
}

impl State {
    pub const BLANK: State = State {
        number: 0,
        count: 0,
        primary: 0,
        formed: [0; HEADS],
        places: [0; PLACES],
    };

    #[inline]
    pub fn listed(&self) -> &[u64] {
        &self.places[..(self.count as usize).min(PLACES)]
    }

    /// Line rules 4 to 7, with at most 16 places. That the sender is in a
    /// session says that it has heads, and last formed numbers are below last
    /// primary's.
    #[inline]
    pub fn keeps_rules(&self, sender: usize) -> bool {
        if self.count as usize > PLACES {
            return false;
        }
        let mut before = number(self.primary);
        for &place in self.listed() {
            if place >> sender & 1 == 0 || number(place) <= before {
                return false;
            }
            before = number(place);
        }
        before <= self.number as u64 && primary_and_formed_agree(sender, self.primary, &self.formed)
    }
}

pub const NONE: u8 = 0;
pub const UNDECIDED: u8 = 1;
pub const CLOSED: u8 = 2;
pub const ATTEMPTED: u8 = 3;
pub const FORMED: u8 = 4;

/// The session of a head. A stage of no meaning fits no record.
#[repr(C)]
#[derive(Clone, Copy, PartialEq, Eq, Debug)]
pub struct Session {
    pub held: [State; HEADS],
    pub view: u32,
    pub members: u16,
    pub states: u16,
    pub attempts: u16,
    pub stage: u8,
}

impl Session {
    pub const NO_SESSION: Session = Session {
        stage: NONE,
        view: 0,
        members: 0,
        states: 0,
        attempts: 0,
        held: [State::BLANK; HEADS],
    };

    fn stage_fits(&self, words: &Words) -> bool {
        let ours = words[NUMBER] << 16 | self.members as u64;
        let all_states = self.states == self.members;
        match self.stage {
            UNDECIDED => true,
            CLOSED => all_states,
            ATTEMPTED => all_states && places(words).contains(&ours),
            FORMED => all_states && words[PRIMARY] == ours && self.attempts == self.members,
            _ => false,
        }
    }

    fn fits(&self, words: &Words, own: usize) -> bool {
        if self.stage == NONE {
            return true;
        }
        let me = 1u16 << own;
        self.view as u64 == words[VIEW]
            && self.view != 0
            && self.members & self.states & self.attempts & me != 0
            && (self.states | self.attempts) & !self.members == 0
            && self.stage_fits(words)
            && Rising(self.states & !me).all(|q| self.held[q].keeps_rules(q))
    }

    /// The group of a whole record that the session fits.
    #[inline]
    pub fn group(&self, words: &Words) -> Option<Group> {
        whole(words).filter(|group| self.fits(words, group.own))
    }
}
