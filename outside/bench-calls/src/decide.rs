//! Decide's steps a to d and the stores of form, under a number of stores.

use crate::record::{places, Group, Words, FORMED, MARKS, NUMBER, PLACE, PRIMARY};
use crate::session::{Session, State};
use crate::words::{heads, number, rank, Rising, Weights, HEADS, PLACES, TOP};
use second::answers::Answer;

/// The call needs more stores than it may make.
pub struct Cut;

/// A record and how many stores may still be made in it.
pub struct Pen<'a> {
    pub words: &'a mut Words,
    pub left: u64,
}

impl Pen<'_> {
    #[inline]
    pub fn put(&mut self, at: usize, word: u64) -> Result<(), Cut> {
        self.left = self.left.checked_sub(1).ok_or(Cut)?;
        self.words[at] = word;
        Ok(())
    }

    #[inline]
    fn clear(&mut self, i: usize) -> Result<(), Cut> {
        self.put(PLACE + i, 0)?;
        self.put(MARKS + i, 0)
    }

    #[inline]
    fn put_formed(&mut self, word: u64) -> Result<(), Cut> {
        Rising(heads(word)).try_for_each(|q| self.put(FORMED + q, word))
    }

    /// a. Marks the others that last formed something below a place with own head.
    fn mark(&mut self, others: u16, offers: &[u64; HEADS]) -> Result<(), Cut> {
        for i in 0..PLACES {
            let place = self.words[PLACE + i];
            let below = |&q: &usize| number(offers[q]) < number(place);
            let asked = Rising(heads(place) & others).filter(below);
            let marks = asked.fold(self.words[MARKS + i], |marks, q| marks | 1 << q);
            if marks != self.words[MARKS + i] {
                self.put(MARKS + i, marks)?;
            }
        }
        Ok(())
    }

    /// b. Adopts the highest-numbered offer if it is above last primary.
    fn adopt(&mut self, others: u16, offers: &[u64; HEADS]) -> Result<(), Cut> {
        let best = highest(0, Rising(others).map(|q| offers[q]));
        if rank(best) <= rank(self.words[PRIMARY]) {
            return Ok(());
        }
        self.put(PRIMARY, best)?;
        if self.words[NUMBER] < number(best) {
            self.put(NUMBER, number(best))?;
        }
        self.put_formed(best)?;
        for i in 0..PLACES {
            let place = self.words[PLACE + i];
            if place != 0 && number(place) <= number(best) {
                self.clear(i)?;
            }
        }
        Ok(())
    }

    /// c. Clears the places whose session was not formed.
    fn clear_unformed(
        &mut self,
        own: usize,
        others: u16,
        held: &[State; HEADS],
    ) -> Result<(), Cut> {
        for i in 0..PLACES {
            let place = self.words[PLACE + i];
            if place == 0 {
                continue;
            }
            let rest = heads(place) & !(1 << own);
            let all_marked = rest as u64 & !self.words[MARKS + i] == 0;
            if all_marked || Rising(rest & others).any(|q| denies(&held[q], place)) {
                self.clear(i)?;
            }
        }
        Ok(())
    }

    /// d. Attempts, or answers why not.
    fn conclude(&mut self, group: Group, session: &Session) -> Result<Answer, Cut> {
        let others = session.members & !(1 << group.own);
        if !quorate(self.words, group, session) {
            return Ok(Answer::NoQuorum);
        }
        let numbers = Rising(others).map(|q| session.held[q].number as u64);
        let next = numbers.fold(self.words[NUMBER], u64::max) + 1;
        if next > TOP {
            return Ok(Answer::NumbersRunOut);
        }
        let Some(free) = places(self.words).iter().position(|&place| place == 0) else {
            return Ok(Answer::NoPlace);
        };
        self.put(PLACE + free, next << 16 | session.members as u64)?;
        self.put(NUMBER, next)?;
        Ok(Answer::Attempted)
    }

    /// All of decide.
    pub fn decide(&mut self, group: Group, session: &Session) -> Result<Answer, Cut> {
        let others = session.members & !(1 << group.own);
        let mut offers = [0; HEADS];
        for q in Rising(others) {
            offers[q] = session.held[q].formed[group.own];
        }
        self.mark(others, &offers)?;
        self.adopt(others, &offers)?;
        self.clear_unformed(group.own, others, &session.held)?;
        self.conclude(group, session)
    }

    /// Form's stores.
    pub fn form(&mut self, members: u16) -> Result<(), Cut> {
        let word = self.words[NUMBER] << 16 | members as u64;
        self.put(PRIMARY, word)?;
        self.put_formed(word)?;
        for i in 0..PLACES {
            if self.words[PLACE + i] != 0 {
                self.clear(i)?;
            }
        }
        Ok(())
    }
}

/// The highest-numbered session, the first on a tie.
#[inline]
fn highest(first: u64, words: impl Iterator<Item = u64>) -> u64 {
    words.fold(
        first,
        |top, word| if rank(word) > rank(top) { word } else { top },
    )
}

/// The head does not list the place, and its last primary is not the place and
/// is not numbered above it.
#[inline]
fn denies(state: &State, place: u64) -> bool {
    let primary = state.primary;
    primary != place && number(primary) <= number(place) && !state.listed().contains(&place)
}

/// M passes for the highest primary and for every listed session above it.
fn quorate(words: &Words, group: Group, session: &Session) -> bool {
    let weights = Weights::of(group.core, group.least, session.members);
    let primary_of = |q: usize| {
        if q == group.own {
            words[PRIMARY]
        } else {
            session.held[q].primary
        }
    };
    let top = highest(0, Rising(session.members).map(primary_of));
    if !weights.pass(heads(top)) {
        return false;
    }
    let weighed = |&word: &u64| number(word) <= number(top) || weights.pass(heads(word));
    let others = session.members & !(1 << group.own);
    places(words).iter().all(weighed)
        && Rising(others).all(|q| session.held[q].listed().iter().all(weighed))
}
