//! The record: when it is whole, start and recover.

use crate::words::{heads, number, primary_and_formed_agree, rank, Rising, HEADS, PLACES, TOP};
use second::answers::{Answer, Refusal};

pub const WORDS: usize = 52;
pub const GROUP: usize = 0;
pub const VIEW: usize = 1;
pub const NUMBER: usize = 2;
pub const PRIMARY: usize = 3;
pub const FORMED: usize = 4;
pub const PLACE: usize = 20;
pub const MARKS: usize = 36;

pub type Words = [u64; WORDS];

/// What word 0 holds.
#[derive(Clone, Copy)]
pub struct Group {
    pub core: u16,
    pub least: u8,
    pub own: usize,
}

impl Group {
    /// The group of a word that start could make.
    #[inline]
    fn of(word: u64) -> Option<Group> {
        let group = Group {
            core: word as u16,
            least: (word >> 16) as u8,
            own: (word >> 24) as usize,
        };
        let good = group.own < HEADS && is_group(group.core, group.least);
        good.then_some(group)
    }
}

#[inline]
fn is_group(core: u16, least: u8) -> bool {
    least != 0 && least as u32 <= core.count_ones()
}

#[inline]
pub fn formed(words: &Words) -> &[u64; HEADS] {
    words[FORMED..PLACE].try_into().expect("sixteen words")
}

#[inline]
pub fn places(words: &Words) -> &[u64; PLACES] {
    words[PLACE..MARKS].try_into().expect("sixteen words")
}

#[inline]
fn marks(words: &Words) -> &[u64; PLACES] {
    words[MARKS..].try_into().expect("sixteen words")
}

/// The group of a whole record.
pub fn whole(words: &Words) -> Option<Group> {
    let group = Group::of(words[GROUP])?;
    let within = words[VIEW] <= TOP && words[NUMBER] <= TOP;
    let good = within
        && number(words[PRIMARY]) <= words[NUMBER]
        && primary_and_formed_agree(group.own, words[PRIMARY], formed(words))
        && places_are_whole(words, group);
    good.then_some(group)
}

fn places_are_whole(words: &Words, group: Group) -> bool {
    let places = places(words);
    let own = 1u64 << group.own;
    // A number above last primary's is at least 1, also where that is none.
    let least = number(words[PRIMARY]) + 1;
    for (i, (&place, &marks)) in places.iter().zip(marks(words)).enumerate() {
        if place == 0 {
            if marks != 0 {
                return false;
            }
            continue;
        }
        let n = number(place);
        let others = heads(place) as u64 & !own;
        let good = place & own != 0
            && n >= least
            && n <= words[NUMBER]
            && marks & !others == 0
            && (heads(place) & group.core).count_ones() >= group.least as u32
            && places[..i].iter().all(|&before| number(before) != n);
        if !good {
            return false;
        }
    }
    true
}

/// Start. Q given as 0 takes the default 1.
pub fn start(record: &mut [u64], head: u8, core: u16, least: u8) -> Answer {
    let least = least.max(1);
    if head as usize >= HEADS || !is_group(core, least) {
        return Answer::Refused(Refusal::BadStart);
    }
    let Ok(words) = <&mut Words>::try_from(record) else {
        return Answer::Refused(Refusal::BadRecordOrSession);
    };
    *words = [0; WORDS];
    words[GROUP] = core as u64 | (least as u64) << 16 | (head as u64) << 24;
    if core >> head & 1 == 1 {
        words[PRIMARY] = core as u64;
        for (q, word) in words[FORMED..PLACE].iter_mut().enumerate() {
            *word = if core >> q & 1 == 1 { core as u64 } else { 0 };
        }
    }
    Answer::Started
}

/// The record after recovery's steps.
fn mended(words: &Words) -> Words {
    let mut after = *words;
    let primary = words[PRIMARY];
    let numbers = places(words).iter().map(|&place| number(place));
    after[NUMBER] = numbers.fold(words[NUMBER].max(number(primary)), u64::max);
    for q in Rising(heads(primary)) {
        after[FORMED + q] = primary;
    }
    for i in 0..PLACES {
        if rank(words[PLACE + i]) <= rank(primary) {
            after[PLACE + i] = 0;
            after[MARKS + i] = 0;
        }
    }
    after
}

/// Recover. Each word is stored by one step at most, and the steps go through
/// the words in rising order, so the stores are the words that differ.
pub fn recover(record: &mut [u64], budget: u64) -> Answer {
    let Ok(words) = <&mut Words>::try_from(record) else {
        return Answer::Refused(Refusal::BadRecordOrSession);
    };
    let after = mended(words);
    if whole(&after).is_none() {
        return Answer::Refused(Refusal::BadRecordOrSession);
    }
    let mut left = budget;
    for (word, &new) in words.iter_mut().zip(&after) {
        if *word != new {
            if left == 0 {
                return Answer::Cut;
            }
            left -= 1;
            *word = new;
        }
    }
    Answer::Recovered
}
