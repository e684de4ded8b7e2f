//! "Stores and cuts" of document 01: the changes that a call's stores make,
//! and the record after those that are done.

use crate::calls::Kind;
use second::record::{MARKS, PLACE, PRIMARY};
use second::stores::Stores;

#[derive(Clone, Copy, PartialEq, Eq, PartialOrd, Ord, Debug)]
pub enum Meaning {
    Entry,
    Mark,
    Adoption,
    /// A clearing under c.
    Clearing,
    Attempt,
    Form,
}

#[derive(Clone, PartialEq, Eq, Debug)]
pub struct Change {
    pub meaning: Meaning,
    pub stores: Stores,
}

/// Parts the stores of an uncut call in its changes.
pub fn changes(kind: Kind, before: &[u64], stores: &Stores) -> Vec<Change> {
    match kind {
        Kind::Enter => whole_call(Meaning::Entry, stores),
        Kind::Form => whole_call(Meaning::Form, stores),
        Kind::Decide => decide_changes(before, stores),
        // Recovery makes no change of its own: it completes those begun.
        Kind::Recover => Vec::new(),
    }
}

fn whole_call(meaning: Meaning, stores: &Stores) -> Vec<Change> {
    if stores.is_empty() {
        return Vec::new();
    }
    vec![Change {
        meaning,
        stores: stores.clone(),
    }]
}

/// "Mark words that change, by place. Then adoption .. Then the clearings of
/// c, likewise. Then the attempt: place word, word 2."
fn decide_changes(before: &[u64], stores: &Stores) -> Vec<Change> {
    let mut all: Vec<Change> = Vec::new();
    for (at, &(word, value)) in stores.iter().enumerate() {
        let opens = if word == PRIMARY {
            Some(Meaning::Adoption)
        } else if (PLACE..MARKS).contains(&word) {
            place_store(all.last(), before[word], value)
        } else if word >= MARKS && !follows_its_place(stores, at) {
            Some(Meaning::Mark)
        } else {
            None
        };
        match (opens, all.last_mut()) {
            (None, Some(last)) => last.stores.push((word, value)),
            (None, None) => panic!("the stores of decide begin with word {word}"),
            (Some(meaning), _) => all.push(Change {
                meaning,
                stores: vec![(word, value)],
            }),
        }
    }
    all
}

/// What a place word opens: nothing if it is cleared by the adoption under
/// way, that is if its number is at or below the adopted one's.
fn place_store(last: Option<&Change>, held: u64, value: u64) -> Option<Meaning> {
    if value != 0 {
        return Some(Meaning::Attempt);
    }
    match last {
        Some(change) if change.meaning == Meaning::Adoption => {
            let adopted = change.stores[0].1;
            (held >> 16 > adopted >> 16).then_some(Meaning::Clearing)
        }
        _ => Some(Meaning::Clearing),
    }
}

/// Is this marks word the second word of a clearing?
fn follows_its_place(stores: &Stores, at: usize) -> bool {
    let place = stores[at].0 - MARKS + PLACE;
    at > 0 && stores[at - 1] == (place, 0)
}

/// The changes done when this many stores were made: a change is done once
/// its first word is stored.
pub fn done(changes: &[Change], made: usize) -> &[Change] {
    let mut first = 0;
    let begun = changes.iter().take_while(|change| {
        let begun = first < made;
        first += change.stores.len();
        begun
    });
    let count = begun.count();
    &changes[..count]
}

/// The record after these changes.
pub fn after(before: &[u64], changes: &[Change]) -> Vec<u64> {
    let mut record = before.to_vec();
    for &(word, value) in changes.iter().flat_map(|change| &change.stores) {
        record[word] = value;
    }
    record
}

#[cfg(test)]
mod tests {
    use super::*;
    use second::record::NUMBER;

    fn session(heads: u64, number: u64) -> u64 {
        heads | number << 16
    }

    /// Two marks, an adoption that clears a place, a clearing, an attempt.
    fn long_decide() -> (Vec<u64>, Stores) {
        let mut before = vec![0; 52];
        before[PLACE] = session(3, 2);
        before[PLACE + 1] = session(7, 5);
        let adopted = session(3, 3);
        let stores = vec![
            (MARKS, 2),
            (MARKS + 1, 2),
            (PRIMARY, adopted),
            (4, adopted),
            (5, adopted),
            (PLACE, 0),
            (MARKS, 0),
            (PLACE + 1, 0),
            (MARKS + 1, 0),
            (PLACE, session(3, 6)),
            (NUMBER, 6),
        ];
        (before, stores)
    }

    #[test]
    fn decide_is_parted_in_its_changes() {
        let (before, stores) = long_decide();
        let parted = changes(Kind::Decide, &before, &stores);
        let lengths: Vec<_> = parted.iter().map(|c| (c.meaning, c.stores.len())).collect();
        let expected = [
            (Meaning::Mark, 1),
            (Meaning::Mark, 1),
            (Meaning::Adoption, 5),
            (Meaning::Clearing, 2),
            (Meaning::Attempt, 2),
        ];
        assert_eq!(lengths, expected);
        let all: Stores = parted.iter().flat_map(|c| c.stores.clone()).collect();
        assert_eq!(all, stores);
    }

    #[test]
    fn a_change_is_done_at_its_first_word() {
        let (before, stores) = long_decide();
        let parted = changes(Kind::Decide, &before, &stores);
        let counts: Vec<_> = (0..=stores.len())
            .map(|made| done(&parted, made).len())
            .collect();
        assert_eq!(counts, [0, 1, 2, 3, 3, 3, 3, 3, 4, 4, 5, 5]);
    }

    #[test]
    fn entry_and_form_are_one_change() {
        let stores = vec![(PRIMARY, 1), (4, 1)];
        assert_eq!(changes(Kind::Form, &[0; 52], &stores).len(), 1);
        assert_eq!(changes(Kind::Enter, &[0; 52], &vec![(1, 1)]).len(), 1);
        assert_eq!(changes(Kind::Enter, &[0; 52], &vec![]).len(), 0);
    }
}
