//! What was met, and what should have been.

use crate::call::answer_name;
use crate::cuts::{NEVER, POSITIONS};
use second::answers::Answer;
use std::collections::BTreeMap;
use std::fmt::Display;

#[derive(Default)]
pub struct Counts {
    /// Worlds of each manner.
    pub worlds: BTreeMap<&'static str, u64>,
    /// Events that made a call, by manner.
    pub steps: BTreeMap<&'static str, u64>,
    /// Calls of the histories and their answers.
    pub answers: BTreeMap<(&'static str, &'static str), u64>,
    /// Cuts by the store that was not made.
    pub cuts: BTreeMap<(&'static str, &'static str), u64>,
    /// Cuts by the number of stores made.
    pub cut_after: BTreeMap<(&'static str, usize), u64>,
    /// Calls made beside the histories to see stores and recoveries.
    pub beside: u64,
    /// Calls compared with `second`.
    pub compared: u64,
    pub sweeps: u64,
    /// Recoveries of a cut record checked at every position of their own.
    pub recoveries: u64,
    pub formed: u64,
    pub distinct_formed: u64,
    pub longest_chain: usize,
    /// The most places in use, by Q.
    pub places: BTreeMap<u8, usize>,
    pub walk_states: u64,
    pub walk_ends: u64,
}

/// Calls with the answers that histories should meet.
const ANSWERS: [(&str, &[&str]); 9] = [
    ("start", &["started"]),
    (
        "enter",
        &["entered", "cut", "refusal 2", "refusal 4", "refusal 5"],
    ),
    (
        "hear state",
        &[
            "heard",
            "refusal 2",
            "refusal 3",
            "refusal 6",
            "refusal 7",
            "refusal 8",
        ],
    ),
    (
        "hear attempt",
        &[
            "heard",
            "refusal 2",
            "refusal 3",
            "refusal 6",
            "refusal 7",
            "refusal 8",
            "refusal 12",
        ],
    ),
    (
        "decide",
        &[
            "attempted",
            "no quorum",
            "numbers run out",
            "cut",
            "refusal 2",
            "refusal 6",
            "refusal 9",
            "refusal 10",
        ],
    ),
    (
        "form",
        &[
            "formed",
            "cut",
            "refusal 2",
            "refusal 6",
            "refusal 9",
            "refusal 10",
            "refusal 11",
            "refusal 12",
        ],
    ),
    ("recover", &["recovered", "cut"]),
    (
        "write state",
        &[
            "written",
            "refusal 2",
            "refusal 6",
            "refusal 10",
            "refusal 13",
        ],
    ),
    (
        "write attempt",
        &[
            "written",
            "refusal 2",
            "refusal 6",
            "refusal 11",
            "refusal 12",
            "refusal 13",
        ],
    ),
];

/// Cuts after 0 and up to so many stores should be met. Longer calls are rare.
const CUT_AFTER: [(&str, usize); 4] = [("enter", 0), ("decide", 8), ("form", 9), ("recover", 3)];

fn more<K: Ord>(map: &mut BTreeMap<K, u64>, key: K) {
    *map.entry(key).or_default() += 1;
}

impl Counts {
    pub fn world(&mut self, manner: &'static str) {
        more(&mut self.worlds, manner);
    }

    pub fn step(&mut self, manner: &'static str) {
        more(&mut self.steps, manner);
    }

    pub fn answer(&mut self, call: &'static str, answer: Answer) {
        more(&mut self.answers, (call, answer_name(answer)));
    }

    pub fn cut(&mut self, call: &'static str, store: &'static str, made: usize) {
        more(&mut self.cuts, (call, store));
        more(&mut self.cut_after, (call, made));
    }

    pub fn steps(&self) -> u64 {
        self.steps.values().sum()
    }

    /// What should have been met and was not.
    pub fn not_met(&self) -> Vec<String> {
        let mut all = Vec::new();
        for (call, answers) in ANSWERS {
            for answer in answers {
                if !self.answers.contains_key(&(call, *answer)) {
                    all.push(format!("{call}: {answer}"));
                }
            }
        }
        for (call, names) in POSITIONS {
            for name in names {
                if (call, *name) != NEVER && !self.cuts.contains_key(&(call, *name)) {
                    all.push(format!("{call} cut before {name}"));
                }
            }
        }
        for (call, most) in CUT_AFTER {
            for made in 0..=most {
                if !self.cut_after.contains_key(&(call, made)) {
                    all.push(format!("{call} cut after {made} stores"));
                }
            }
        }
        all
    }

    fn refusals(&self) -> BTreeMap<u8, u64> {
        let mut all = BTreeMap::new();
        for ((_, answer), count) in &self.answers {
            if let Some(number) = answer.strip_prefix("refusal ") {
                *all.entry(number.parse().unwrap_or(0)).or_default() += count;
            }
        }
        all
    }

    pub fn print(&self) {
        println!("worlds: {}", joined(&self.worlds, " "));
        println!("steps: {}", joined(&self.steps, " "));
        println!("calls and answers:");
        for (call, _) in ANSWERS {
            println!("  {call}: {}", joined(&of_call(&self.answers, call), " "));
        }
        println!("refusals by number: {}", joined(&self.refusals(), ": "));
        self.print_cuts();
        println!(
            "formed: {} form calls stored word 3, {} sessions each once in its history, longest chain {}",
            self.formed, self.distinct_formed, self.longest_chain
        );
        println!("most places in use, by Q: {}", joined(&self.places, ": "));
        println!(
            "walked: {} states, {} of them ends",
            self.walk_states, self.walk_ends
        );
        println!(
            "beside the histories: {} calls; {} sweeps, {} cut records recovered with every cut",
            self.beside, self.sweeps, self.recoveries
        );
        println!("compared with second: {} calls", self.compared);
    }

    fn print_cuts(&self) {
        println!("cuts by the store not made, and by the number of stores made:");
        for (call, names) in POSITIONS {
            let cuts = of_call(&self.cuts, call);
            let count = |name: &&str| cuts.get(name).copied().unwrap_or(0);
            let all: Vec<String> = names.iter().map(|n| format!("{n} {}", count(n))).collect();
            println!("  {call}: {}", all.join(", "));
            println!(
                "    after {}",
                joined(&of_call(&self.cut_after, call), ": ")
            );
        }
    }
}

/// The counts of one call.
fn of_call<K: Ord + Copy>(map: &BTreeMap<(&'static str, K), u64>, call: &str) -> BTreeMap<K, u64> {
    let ours = map.iter().filter(|((name, _), _)| *name == call);
    ours.map(|(&(_, key), &n)| (key, n)).collect()
}

fn joined<K: Display, N: Display>(map: &BTreeMap<K, N>, between: &str) -> String {
    let all: Vec<String> = map
        .iter()
        .map(|(key, n)| format!("{key}{between}{n}"))
        .collect();
    all.join(", ")
}
