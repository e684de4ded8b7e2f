//! What was met in a soak, and what must have been met.

use crate::calls::Kind;
use crate::changes::Meaning;
use second::answers::Answer;
use second::group::Session;
use std::collections::BTreeMap;

/// Where a kill fell.
#[derive(Clone, Copy, PartialEq, Eq, PartialOrd, Ord, Debug)]
pub enum Fell {
    /// In a call that stores, with this many of its stores made.
    In { kind: Kind, made: usize },
    /// In another call, or between calls.
    Between,
}

/// Counts over the logs of all heads.
#[derive(Clone, Default, Debug)]
pub struct Counts {
    pub calls: u64,
    pub stores: u64,
    /// Kills by where they fell; true for those at a store named beforehand.
    pub kills: BTreeMap<(Fell, bool), u64>,
    pub answers: BTreeMap<Answer, u64>,
    /// Changes done, also by calls that were cut.
    pub changes: BTreeMap<Meaning, u64>,
    /// Recoveries that had words to store.
    pub mended: u64,
    /// The sessions formed, by every head that formed them.
    pub formed: Vec<Session>,
}

fn add_all<K: Ord + Copy>(to: &mut BTreeMap<K, u64>, from: &BTreeMap<K, u64>) {
    for (&key, &count) in from {
        *to.entry(key).or_default() += count;
    }
}

impl Counts {
    /// Adds the counts of another head.
    pub fn add(&mut self, other: &Counts) {
        self.calls += other.calls;
        self.stores += other.stores;
        self.mended += other.mended;
        add_all(&mut self.kills, &other.kills);
        add_all(&mut self.answers, &other.answers);
        add_all(&mut self.changes, &other.changes);
        self.formed.extend(&other.formed);
    }

    pub fn kill(&mut self, fell: Fell, aimed: bool) {
        *self.kills.entry((fell, aimed)).or_default() += 1;
    }

    pub fn killed(&self, wanted: impl Fn(Fell, bool) -> bool) -> u64 {
        let kills = self.kills.iter();
        let wanted = kills.filter(|((fell, aimed), _)| wanted(*fell, *aimed));
        wanted.map(|(_, count)| count).sum()
    }

    pub fn change(&self, meaning: Meaning) -> u64 {
        self.changes.get(&meaning).copied().unwrap_or(0)
    }

    pub fn answered(&self, answer: Answer) -> u64 {
        self.answers.get(&answer).copied().unwrap_or(0)
    }

    pub fn note_answer(&mut self, answer: Answer) {
        let shown = match answer {
            // Lines of all lengths count together.
            Answer::Written(_) => Answer::Written(0),
            other => other,
        };
        *self.answers.entry(shown).or_default() += 1;
    }

    /// What a soak that was not idle has met; the first that is missing.
    pub fn missing(&self) -> Option<String> {
        for kind in Kind::ALL {
            let fell_in = |fell: Fell, from: usize| match fell {
                Fell::In {
                    kind: in_kind,
                    made,
                } => in_kind == kind && made >= from,
                Fell::Between => false,
            };
            if self.killed(|fell, _| fell_in(fell, 0)) == 0 {
                return Some(format!("no kill in {}", kind.name()));
            }
            if self.killed(|fell, _| fell_in(fell, 1)) == 0 {
                return Some(format!("no kill in {} after a store", kind.name()));
            }
        }
        let met = [
            ("kill at a named store", self.killed(|_, aimed| aimed)),
            ("kill at a random moment", self.killed(|_, aimed| !aimed)),
            ("recovery with words to store", self.mended),
            ("mark", self.change(Meaning::Mark)),
            ("adoption", self.change(Meaning::Adoption)),
            ("clearing", self.change(Meaning::Clearing)),
            ("attempt", self.answered(Answer::Attempted)),
            ("decision without quorum", self.answered(Answer::NoQuorum)),
            ("formed session", self.formed.len() as u64),
        ];
        let none = met.iter().find(|(_, count)| *count == 0);
        none.map(|(what, _)| format!("no {what}"))
    }
}
