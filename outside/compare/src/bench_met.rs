//! What the histories of a bench comparison met, seen on `second`'s bench.

use crate::bench_events::{head_of, kind};
use second::bench::{read_event, Bench, Event, VIEWS};
use second::calls::decide_stores;
use second::group::{has, HEADS, PLACES};
use second::record::{FORMED, MARKS, PLACE, PRIMARY};
use second::stores::Stores;
use std::collections::BTreeMap;

/// Counts by name.
#[derive(Default)]
pub struct Met {
    pub counts: BTreeMap<String, u64>,
    pub events: u64,
}

/// What is looked at before an event is taken.
struct Before {
    armed: Option<u16>,
    /// The stores that a decide call would make.
    stores: Option<Stores>,
    record: Vec<u64>,
    formed: usize,
}

impl Met {
    pub fn note(&mut self, what: impl Into<String>) {
        *self.counts.entry(what.into()).or_default() += 1;
    }

    /// Gives the line to the bench, notes what is met, and hands back what
    /// the bench says.
    pub fn take(&mut self, bench: &mut Bench, line: &[u8]) -> String {
        let event = read_event(line);
        let before = event.and_then(|event| before(bench, event));
        if let Some(event) = event {
            self.place(bench, event);
        }
        let said = bench.line(line);
        self.events += 1;
        let name = event.map_or("no event", kind);
        self.note(format!("{name}: {}", said.trim_end()));
        if let (Some(event), Some(before)) = (event, before) {
            self.cuts(bench, event, &before, &said);
            self.changes(bench, event, &before, &said);
        }
        if let (None, true) = (event, bench.heads.iter().any(|h| h.armed.is_some())) {
            self.note("pending cut: event refused with 3");
        }
        said
    }

    /// Where the event stands: the reasons for 14, and odd views.
    fn place(&mut self, bench: &Bench, event: Event) {
        if bench.heads.is_empty() {
            self.note(format!("before the group line: {}", kind(event)));
            return;
        }
        match event {
            Event::View { number, heads } => {
                if bench.members(number).is_some() {
                    self.note("refused with 14: view announced twice");
                } else if bench.views.len() >= VIEWS {
                    self.note("refused with 14: view past 1,000");
                } else if number == 0 || heads == 0 {
                    self.note("view 0 or without heads: announced");
                }
            }
            Event::Enter { view, .. } => match bench.members(view) {
                None => self.note("refused with 14: view unknown"),
                Some(members) if view == 0 || members == 0 => {
                    self.note("view 0 or without heads: entered")
                }
                Some(_) => {}
            },
            Event::DeliverState { from, which, .. } | Event::DeliverAttempt { from, which, .. } => {
                let kept = bench.heads[from].sent.len();
                match which {
                    4.. => self.note("refused with 14: which over 3"),
                    _ if which as usize >= kept => self.note("refused with 14: line not kept"),
                    _ => self.note(format!("line delivered: {which}")),
                }
            }
            _ => {}
        }
    }

    /// What becomes of a pending cut.
    fn cuts(&mut self, bench: &Bench, event: Event, before: &Before, said: &str) {
        let Some(k) = before.armed else { return };
        let after = head_of(event).and_then(|h| bench.heads[h].armed);
        let refused = said.starts_with("R ");
        match (event, after) {
            (Event::Cut { .. }, _) => self.note("pending cut: replaced"),
            (_, Some(_)) if said == "R 14\n" => self.note("pending cut: event refused with 14"),
            (_, Some(_)) => self.note("pending cut: delivery"),
            (_, None) if refused => {
                self.note(format!("cut used by a refused call: {}", kind(event)))
            }
            (_, None) if said != "cut\n" => {
                self.note(format!("cut that was large enough: {}", kind(event)))
            }
            (Event::Decide { .. }, None) => {
                let stores = before.stores.as_ref().expect("a cut decide has stores");
                let after = match k {
                    0 => "nothing",
                    k => store_name(&before.record, stores, k as usize - 1),
                };
                self.note(format!("decide cut after: {after}"));
            }
            (Event::Form { .. }, None) => {
                let after =
                    form_cut_after(&before.record, &bench.heads[head_of(event).unwrap()].record);
                self.note(format!("form cut after: {after}"));
            }
            (_, None) if k > 2 => self.note(format!("{} cut after: 3 or more", kind(event))),
            (_, None) => self.note(format!("{} cut after: {k}", kind(event))),
        }
    }

    /// What a decide or a form call did.
    fn changes(&mut self, bench: &Bench, event: Event, before: &Before, said: &str) {
        match event {
            Event::Decide { .. } if !said.starts_with("R ") => {
                let stores = before.stores.as_ref().expect("it was not refused");
                for at in 0..stores.len() {
                    self.note(format!(
                        "decide's store: {}",
                        store_name(&before.record, stores, at)
                    ));
                }
                let used = before.record[PLACE..PLACE + PLACES]
                    .iter()
                    .filter(|&&w| w != 0);
                self.note(format!("decide with places used: {}", used.count()));
            }
            Event::Form { head } => {
                let stored = bench.heads[head].record[PRIMARY] != before.record[PRIMARY];
                let new = bench.formed.len() > before.formed;
                match (stored, new, said) {
                    (true, true, "cut\n") => self.note("formed first: by a cut form"),
                    (true, true, _) => self.note("formed first: by a whole form"),
                    (true, false, _) => self.note("formed again: by another head"),
                    _ => {}
                }
            }
            _ => {}
        }
    }

    /// What is seen of a history at its end.
    pub fn end(&mut self, bench: &Bench) {
        let count = bench.formed.len();
        let name = match count {
            0 => "none",
            1..=4 => "1 to 4",
            5..=19 => "5 to 19",
            _ => "20 or more",
        };
        self.note(format!("formed sessions of a history: {name}"));
        let mut all = bench.formed.clone();
        all.sort_by_key(|s| s.number);
        if all != bench.formed {
            self.note("formed sessions: out of the order of numbers");
        }
        let mut before = bench.w0;
        for session in all {
            let shared = session.heads & before;
            if shared != session.heads && shared != before {
                self.note(
                    "formed sessions: each has heads that the one before lacks, and lacks some",
                );
            }
            if shared != session.heads & bench.w0 {
                self.note("formed sessions: shared heads differ from those shared with the core");
            }
            before = session.heads;
        }
        if bench.views.len() == VIEWS {
            self.note("history: 1,000 views announced");
        }
    }
}

fn before(bench: &Bench, event: Event) -> Option<Before> {
    let head = bench.heads.get(head_of(event)?)?;
    let stores = match event {
        Event::Decide { .. } => decide_stores(&head.record, &head.session),
        _ => None,
    };
    Some(Before {
        armed: head.armed,
        stores,
        record: head.record.clone(),
        formed: bench.formed.len(),
    })
}

/// What a store of a decide call belongs to.
fn store_name(record: &[u64], stores: &Stores, at: usize) -> &'static str {
    let adopted = stores.iter().find(|(word, _)| *word == PRIMARY);
    let by_adoption = |place: usize| adopted.is_some_and(|(_, w)| record[place] >> 16 <= w >> 16);
    let (word, value) = stores[at];
    match word {
        PRIMARY => "adoption's word 3",
        FORMED..PLACE => "adoption's last formed",
        PLACE..MARKS if value != 0 => "the attempt's place",
        PLACE..MARKS if by_adoption(word) => "adoption's place",
        PLACE..MARKS => "a clearing's place",
        MARKS.. if value != 0 => "a mark",
        MARKS.. if by_adoption(word - MARKS + PLACE) => "adoption's marks",
        MARKS.. => "a clearing's marks",
        _ => "word 2",
    }
}

/// The last store of a form call that was cut.
fn form_cut_after(before: &[u64], after: &[u64]) -> &'static str {
    let session = after[PRIMARY];
    if session == before[PRIMARY] {
        return "nothing";
    }
    let cleared = |from: usize| (from..from + PLACES).any(|i| before[i] != 0 && after[i] == 0);
    let formed = |h: usize| has(session as u16, h) && after[FORMED + h] == session;
    if cleared(PLACE) {
        "a place"
    } else if (0..HEADS).any(formed) {
        "last formed"
    } else {
        "word 3"
    }
}

/// What has to be met, besides each kind of damage: a name, or the part before
/// the colon with each of the parts after it.
const WANTED: &str = "\
group: started; R 3; R 14
view: announced; R 14
enter: entered; cut; R 2; R 4; R 5; R 14
deliver state: heard; R 2; R 3; R 6; R 7; R 8; R 14
decide: attempted; no quorum; cut; R 2; R 6; R 9; R 10; R 14
deliver attempt: heard; R 2; R 3; R 6; R 7; R 8; R 12; R 14
form: formed; cut; R 2; R 6; R 9; R 10; R 11; R 12; R 14
arm: armed; R 14
recover: recovered; cut; R 14
no event: R 3
before the group line: view; enter; deliver state; decide
before the group line: deliver attempt; form; arm; recover
refused with 14: view announced twice; view past 1,000; view unknown
refused with 14: which over 3; line not kept
view 0 or without heads: announced; entered
line delivered: 0; 1; 2; 3
pending cut: replaced; event refused with 3; event refused with 14; delivery
cut used by a refused call: enter; decide; form
cut that was large enough: enter; decide; form; recover
decide cut after: nothing; a mark; the attempt's place
decide cut after: adoption's word 3; adoption's last formed
decide cut after: adoption's place; adoption's marks
decide cut after: a clearing's place; a clearing's marks
form cut after: nothing; word 3; last formed; a place
enter cut after: 0
recover cut after: 0; 1; 2; 3 or more
formed first: by a whole form; by a cut form
formed again: by another head
formed sessions of a history: none; 1 to 4; 5 to 19; 20 or more
formed sessions: out of the order of numbers
formed sessions: each has heads that the one before lacks, and lacks some
formed sessions: shared heads differ from those shared with the core
history: 1,000 views announced; no group line; huge";

/// The names that have to be met, and those of `others`, that were not.
pub fn missing(met: &Met, others: &[String]) -> Vec<String> {
    let wanted = WANTED.lines().flat_map(|line| {
        let (name, parts) = line.split_once(": ").expect("a name and its parts");
        parts.split("; ").map(move |part| format!("{name}: {part}"))
    });
    wanted
        .chain(others.iter().cloned())
        .filter(|name| !met.counts.contains_key(name))
        .collect()
}
