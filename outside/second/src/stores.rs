//! "Stores and cuts": stores of single words, and recovery.

use crate::answers::{Answer, Refusal};
use crate::group::{bits_heads, bits_number, has, HEADS, PLACES};
use crate::record::{whole, FORMED, MARKS, NUMBER, PLACE, PRIMARY, WORDS};

/// The stores of a call, in order: the word and its new value.
pub type Stores = Vec<(usize, u64)>;

/// Makes the stores the budget allows. True if that was all of them.
pub fn make(record: &mut [u64], stores: &Stores, budget: u64) -> bool {
    for (done, &(word, value)) in stores.iter().enumerate() {
        if done as u64 >= budget {
            return false;
        }
        record[word] = value;
    }
    true
}

/// Recovery of a cut record, given the number of stores it may make.
pub fn recover(record: &mut [u64], budget: u64) -> Answer {
    // Refusals come first: not 52 words, or not whole even after the steps.
    if record.len() != WORDS {
        return Answer::Refused(Refusal::BadRecordOrSession);
    }
    let stores = recovery_stores(record);
    let mut after = record.to_vec();
    make(&mut after, &stores, u64::MAX);
    if !whole(&after) {
        return Answer::Refused(Refusal::BadRecordOrSession);
    }
    if make(record, &stores, budget) {
        Answer::Recovered
    } else {
        Answer::Cut
    }
}

/// The stores of recovery: only words that change, in the order of its steps.
/// The record has 52 words and is otherwise of any kind, so numbers and heads
/// are taken from the bits where a session has them (reading 6).
pub fn recovery_stores(record: &[u64]) -> Stores {
    let mut now = record.to_vec();
    let mut stores = Stores::new();
    let mut store = |now: &mut Vec<u64>, word: usize, value: u64| {
        if now[word] != value {
            now[word] = value;
            stores.push((word, value));
        }
    };

    // Raise word 2 to the greatest number in word 3 and the places.
    let mut greatest = bits_number(now[PRIMARY]);
    for i in 0..PLACES {
        greatest = greatest.max(bits_number(now[PLACE + i]));
    }
    if greatest >= 0 && now[NUMBER] < greatest as u64 {
        store(&mut now, NUMBER, greatest as u64);
    }

    // Set last formed for the heads of last primary.
    let primary = now[PRIMARY];
    for q in 0..HEADS {
        if has(bits_heads(primary), q) {
            store(&mut now, FORMED + q, primary);
        }
    }

    // Zero the session words of places at or below its number.
    for i in 0..PLACES {
        if bits_number(now[PLACE + i]) <= bits_number(primary) {
            store(&mut now, PLACE + i, 0);
        }
    }

    // Zero the marks of free places.
    for i in 0..PLACES {
        if now[PLACE + i] == 0 {
            store(&mut now, MARKS + i, 0);
        }
    }
    stores
}
