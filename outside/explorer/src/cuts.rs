//! "Stores and cuts": what a call stores one after the other, seen by giving
//! it 0, 1, 2, ... stores, and the record after the changes done at a cut.

use crate::call::{make, Call, Record};
use crate::world::Head;
use compare::side::Side;
use second::answers::Answer;
use second::record::{FORMED, MARKS, NUMBER, PLACE, PRIMARY, VIEW};

/// No call needs more: decide could mark and clear 16 places and adopt.
const MOST_STORES: u64 = 120;

/// One store of a call: what it is, and whether a change begins with it.
#[derive(Clone, Copy, PartialEq, Eq, Debug)]
pub struct Store {
    pub name: &'static str,
    pub first: bool,
}

/// The store of decide that no history meets: who is in a formed session has
/// attempted it, so its word 2 is not below the number.
pub const NEVER: (&str, &str) = ("decide", "adoption: word 2");

/// The positions where each call can be cut, by the store that is not made.
pub const POSITIONS: [(&str, &[&str]); 4] = [
    ("enter", &["word 1"]),
    (
        "decide",
        &[
            "mark",
            "adoption: word 3",
            "adoption: word 2",
            "adoption: last formed",
            "adoption: place",
            "adoption: marks",
            "c: place",
            "c: marks",
            "attempt: place",
            "attempt: word 2",
        ],
    ),
    ("form", &["word 3", "last formed", "place", "marks"]),
    ("recover", &["word 2", "last formed", "place", "marks"]),
];

/// The records after 0, 1, 2, ... stores; the last is that of the uncut call.
pub fn after_each_store(
    side: &mut dyn Side,
    head: &Head,
    call: &Call,
) -> Result<Vec<Record>, String> {
    let mut all = Vec::new();
    for budget in 0..MOST_STORES {
        let mut record = head.record;
        let mut session = head.session.clone();
        let (answer, _) = make(side, &mut record, &mut session, call, budget);
        all.push(record);
        if answer != Answer::Cut {
            return Ok(all);
        }
    }
    Err(format!("{} is cut with {MOST_STORES} stores", call.name()))
}

/// The word two records differ in; none if they are equal.
fn stored_word(now: &Record, next: &Record) -> Result<Option<usize>, String> {
    let mut words = (0..now.len()).filter(|&w| now[w] != next[w]);
    let first = words.next();
    if let Some(second) = words.next() {
        return Err(format!(
            "one more store changed words {} and {second}",
            first.unwrap_or(0)
        ));
    }
    Ok(first)
}

fn number(word: u64) -> i64 {
    if word == 0 {
        -1
    } else {
        (word >> 16) as i64
    }
}

/// The stores of a call from its records.
pub fn stores(call: &Call, records: &[Record]) -> Result<Vec<Store>, String> {
    let mut all = Vec::new();
    // The change under way, for stores that tell by what came before them.
    let mut under = "";
    for pair in records.windows(2) {
        let word = stored_word(&pair[0], &pair[1])?;
        let store = match call {
            Call::Decide => decide_store(&pair[0], &pair[1], word, &mut under),
            _ => plain_store(word),
        };
        let mut store = store.ok_or(format!("{} stored word {word:?}", call.name()))?;
        if !matches!(call, Call::Decide) {
            store.first = all.is_empty();
        }
        all.push(store);
    }
    Ok(all)
}

/// A store of enter, form or recover. Only a cleared place's marks are stored
/// without a change of the word.
fn plain_store(word: Option<usize>) -> Option<Store> {
    let name = match word {
        Some(VIEW) => "word 1",
        Some(NUMBER) => "word 2",
        Some(PRIMARY) => "word 3",
        Some(w) if (FORMED..PLACE).contains(&w) => "last formed",
        Some(w) if (PLACE..MARKS).contains(&w) => "place",
        Some(w) if w >= MARKS => "marks",
        None => "marks",
        _ => return None,
    };
    Some(Store { name, first: false })
}

/// A store of decide. "Each mark word and each clearing under c is one change,
/// done once its first word is stored. Adoption is one change, done at word 3;
/// the attempt is done at the place word."
fn decide_store(
    now: &Record,
    next: &Record,
    word: Option<usize>,
    under: &mut &'static str,
) -> Option<Store> {
    let (name, first) = match word {
        Some(PRIMARY) => ("adoption: word 3", true),
        Some(NUMBER) if *under == "attempt" => ("attempt: word 2", false),
        Some(NUMBER) => ("adoption: word 2", false),
        Some(w) if (FORMED..PLACE).contains(&w) => ("adoption: last formed", false),
        Some(w) if (PLACE..MARKS).contains(&w) => {
            if next[w] != 0 {
                ("attempt: place", true)
            } else if number(now[w]) <= number(now[PRIMARY]) {
                ("adoption: place", false)
            } else {
                ("c: place", true)
            }
        }
        Some(w) if w >= MARKS && now[w - MARKS + PLACE] != 0 => ("mark", true),
        Some(w) if w < MARKS => return None,
        _ if *under == "c" => ("c: marks", false),
        _ => ("adoption: marks", false),
    };
    *under = name.split(':').next().unwrap_or("");
    Some(Store { name, first })
}

/// The record after the changes that are done when a call is cut after
/// `made` stores: the change under way is done with its first word, and its
/// other words follow without another between them.
pub fn after_done_changes(records: &[Record], stores: &[Store], made: usize) -> Record {
    let end = (made..stores.len()).find(|&j| stores[j].first);
    records[end.unwrap_or(stores.len())]
}
