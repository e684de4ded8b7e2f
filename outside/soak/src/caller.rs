//! A head's calls, each store written out one by one.

use crate::calls::{outcome, Call, Kind, Outcome};
use crate::log::Entry;
use compare::side::Side;
use second::head_session::HeadSession;

/// What a head's calls touch: its log, its record's file, and the orders to
/// stop at a store.
pub trait Place {
    fn note(&mut self, entry: &Entry);
    /// One word of the record, durable when this returns.
    fn store(&mut self, word: usize, value: u64);
    /// The record's words as they are in the file.
    fn stored(&mut self) -> Vec<u64>;
    /// The call has made this many of the stores it needs, which are not 0;
    /// called before each store and after the last.
    fn reached(&mut self, kind: Kind, made: usize, needed: usize);
}

pub struct Caller<S: Side, P: Place> {
    side: S,
    pub place: P,
    record: Vec<u64>,
    session: HeadSession,
}

impl<S: Side, P: Place> Caller<S, P> {
    /// A head that finds its record and recovers it.
    pub fn recovered(side: S, mut place: P) -> Caller<S, P> {
        let record = place.stored();
        place.note(&Entry::Found(record.clone()));
        let mut caller = Caller {
            side,
            place,
            record,
            session: HeadSession::none(),
        };
        caller.call(Call::Recover);
        let after = caller.place.stored();
        caller.place.note(&Entry::Record(after));
        caller
    }

    /// Makes a call. Its answer is noted and handed back after its last
    /// store, so nothing can be sent before.
    pub fn call(&mut self, call: Call) -> Outcome {
        self.place.note(&Entry::Call(call.clone()));
        let outcome = outcome(&mut self.side, &call, &self.record, &self.session)
            .unwrap_or_else(|problem| panic!("{problem}"));
        if let Some(kind) = call.kind() {
            self.store_all(kind, &outcome);
        }
        self.place.note(&Entry::End {
            answer: outcome.answer,
            line: outcome.line.clone(),
        });
        self.record = outcome.record.clone();
        self.session = outcome.session.clone();
        outcome
    }

    fn store_all(&mut self, kind: Kind, outcome: &Outcome) {
        let needed = outcome.stores.len();
        if needed == 0 {
            return;
        }
        for (made, &(word, value)) in outcome.stores.iter().enumerate() {
            self.place.reached(kind, made, needed);
            let k = made + 1;
            self.place.note(&Entry::Store { k, word, value });
            self.place.store(word, value);
            self.place.note(&Entry::Stored(k));
        }
        self.place.reached(kind, needed, needed);
    }
}
