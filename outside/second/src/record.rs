//! "The record": its words, when it is whole, and how it starts.

use crate::answers::{Answer, Refusal};
use crate::group::{
    bits_heads, has, number_of, session_in, single, size, within, Session, Set, HEADS,
    LARGEST_NUMBER, LARGEST_VIEW, PLACES,
};
use crate::lines::primary_and_formed_agree;

/// The words of a record.
pub const WORDS: usize = 52;
/// Word 0: W0, Q and own head.
pub const GROUP: usize = 0;
/// Word 1: highest view entered.
pub const VIEW: usize = 1;
/// Word 2: session number.
pub const NUMBER: usize = 2;
/// Word 3: last primary.
pub const PRIMARY: usize = 3;
/// Words 4-19: last formed, for heads 0-15.
pub const FORMED: usize = 4;
/// Words 20-35: places.
pub const PLACE: usize = 20;
/// Words 36-51: the marks of each place.
pub const MARKS: usize = 36;

/// What word 0 says.
#[derive(Clone, Copy, PartialEq, Eq, Debug)]
pub struct Group {
    pub w0: Set,
    pub q: u8,
    pub own: usize,
}

impl Group {
    pub fn word(self) -> u64 {
        (self.w0 as u64) | ((self.q as u64) << 16) | ((self.own as u64) << 24)
    }
}

/// The group of a word 0, if start could have made the word.
pub fn group_in(word: u64) -> Option<Group> {
    let group = Group {
        w0: (word & 0xffff) as u16,
        q: ((word >> 16) & 0xff) as u8,
        own: ((word >> 24) & 0xff) as usize,
    };
    if word >> 32 != 0 || group.own >= HEADS || group.w0 == 0 {
        return None;
    }
    if group.q == 0 || group.q as u32 > size(group.w0) {
        return None;
    }
    Some(group)
}

/// A whole record taken apart.
#[derive(Clone, PartialEq, Eq, Debug)]
pub struct Whole {
    pub group: Group,
    pub view: u32,
    pub number: u32,
    pub last_primary: Option<Session>,
    pub last_formed: Vec<Option<Session>>,
    pub places: Vec<Option<Session>>,
    pub marks: Vec<Set>,
}

/// Is this a whole record?
pub fn whole(record: &[u64]) -> bool {
    open(record).is_some()
}

/// Takes a record apart, if it has 52 words and is whole.
pub fn open(record: &[u64]) -> Option<Whole> {
    if record.len() != WORDS {
        return None;
    }
    // Word 0 as start could make it; words 1 and 2 within the limits.
    let group = group_in(record[GROUP])?;
    if record[VIEW] > LARGEST_VIEW || record[NUMBER] > LARGEST_NUMBER {
        return None;
    }
    let own = group.own;
    let number = record[NUMBER] as i64;

    let last_primary = session_in(record[PRIMARY]).ok()?;
    let last_formed: Vec<Option<Session>> = sessions(&record[FORMED..FORMED + HEADS])?;
    let places: Vec<Option<Session>> = sessions(&record[PLACE..PLACE + PLACES])?;

    if !primary_and_formed_agree(own, last_primary, &last_formed) {
        return None;
    }

    // Each used place with own head, at least Q heads of W0, a number of its
    // own, at least 1, above the last primary's and at most word 2.
    for i in 0..PLACES {
        let Some(place) = places[i] else { continue };
        if !has(place.heads, own) {
            return None;
        }
        if size(place.heads & group.w0) < group.q as u32 {
            return None;
        }
        for j in 0..PLACES {
            if j != i && number_of(places[j]) == place.number as i64 {
                return None;
            }
        }
        let n = place.number as i64;
        if n < 1 || n <= number_of(last_primary) || n > number {
            return None;
        }
    }

    // Word 2 at least every number.
    let lowest = [last_primary]
        .into_iter()
        .chain(last_formed.iter().copied())
        .chain(places.iter().copied());
    for session in lowest {
        if number_of(session) > number {
            return None;
        }
    }

    // Marks within the place's heads less own; a free place's marks 0.
    let mut marks = Vec::new();
    for i in 0..PLACES {
        let word = record[MARKS + i];
        if word > 0xffff {
            return None;
        }
        let allowed = match places[i] {
            None => 0,
            Some(place) => place.heads & !single(own),
        };
        if !within(bits_heads(word), allowed) {
            return None;
        }
        marks.push(bits_heads(word));
    }

    Some(Whole {
        group,
        view: record[VIEW] as u32,
        number: record[NUMBER] as u32,
        last_primary,
        last_formed,
        places,
        marks,
    })
}

fn sessions(words: &[u64]) -> Option<Vec<Option<Session>>> {
    words.iter().map(|&w| session_in(w).ok()).collect()
}

/// The fresh record of a head: core heads have last primary (W0, 0).
pub fn fresh(group: Group) -> Vec<u64> {
    let mut record = fresh_with_none(group);
    if has(group.w0, group.own) {
        let first = Session {
            heads: group.w0,
            number: 0,
        };
        record[PRIMARY] = first.word();
        for q in 0..HEADS {
            if has(group.w0, q) {
                record[FORMED + q] = first.word();
            }
        }
    }
    record
}

/// The record of a head whose store was destroyed: none, for core heads too.
pub fn fresh_with_none(group: Group) -> Vec<u64> {
    let mut record = vec![0; WORDS];
    record[GROUP] = group.word();
    record
}

/// Start. Q given as 0 takes the default 1. What the record holds before
/// does not matter.
pub fn start(record: &mut [u64], head: u8, w0: Set, q: u8) -> Answer {
    start_from(record, head, w0, q, fresh)
}

/// Start of a head whose store was destroyed.
pub fn start_with_none(record: &mut [u64], head: u8, w0: Set, q: u8) -> Answer {
    start_from(record, head, w0, q, fresh_with_none)
}

fn start_from(
    record: &mut [u64],
    head: u8,
    w0: Set,
    q: u8,
    contents: fn(Group) -> Vec<u64>,
) -> Answer {
    let q = if q == 0 { 1 } else { q };
    if head as usize >= HEADS || w0 == 0 || q as u32 > size(w0) {
        return Answer::Refused(Refusal::BadStart);
    }
    if record.len() != WORDS {
        return Answer::Refused(Refusal::BadRecordOrSession);
    }
    let group = Group {
        w0,
        q,
        own: head as usize,
    };
    record.copy_from_slice(&contents(group));
    Answer::Started
}
