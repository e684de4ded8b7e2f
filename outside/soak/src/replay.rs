//! Goes through the logs of one head, life by life, beside the second program.

use crate::calls::{outcome, Call, Kind, Outcome};
use crate::changes::{after, changes, done, Change, Meaning};
use crate::counts::{Counts, Fell};
use crate::log::Entry;
use compare::side::{Second, Side};
use second::answers::{Answer, Refusal};
use second::group::{session_in, Session};
use second::head_session::HeadSession;
use second::record::WORDS;
use std::collections::HashSet;

/// A call that has begun, with what the second program does in it.
struct Open {
    call: Call,
    outcome: Outcome,
    changes: Vec<Change>,
    /// Stores known to be durable.
    made: usize,
    /// The next store was begun.
    begun: bool,
    aimed: bool,
}

/// What may be in the file when a life was ended, and what recovery must
/// make of it: the record after the done changes.
struct Left {
    file: Vec<u64>,
    recovered: Vec<u64>,
    fell: Fell,
    aimed: bool,
    /// The changes that a cut call had done.
    done: Vec<Change>,
}

/// One head's logs as far as they were gone through.
pub struct Replay {
    head: u8,
    core: u16,
    least: u8,
    /// The record and session that the second program has.
    record: Vec<u64>,
    session: HeadSession,
    open: Option<Open>,
    /// What the end of the life before may have left; empty before the first.
    left: Vec<Left>,
    /// What recovery in this life must end with.
    expected: Vec<u64>,
    recovered: bool,
    quit: bool,
    pub counts: Counts,
    /// The lines this head wrote, and the whole lines it was given.
    pub written: HashSet<Vec<u8>>,
    pub heard: HashSet<Vec<u8>>,
    /// The views it was told of, with their heads.
    pub views: HashSet<(u32, u16)>,
}

/// The first word that differs.
fn differing(found: &[u64], expected: &[u64]) -> String {
    let mut pairs = found.iter().zip(expected).enumerate();
    match pairs.find(|(_, (found, expected))| found != expected) {
        Some((word, (found, expected))) => {
            format!("word {word} is {found:x} and should be {expected:x}")
        }
        None => format!("{} words", found.len()),
    }
}

/// The begin of an entry, which may be long.
fn shown(entry: &Entry) -> String {
    entry.text().chars().take(60).collect()
}

fn ensure(holds: bool, problem: impl FnOnce() -> String) -> Result<(), String> {
    if holds {
        Ok(())
    } else {
        Err(problem())
    }
}

impl Replay {
    pub fn new(head: u8, core: u16, least: u8) -> Replay {
        Replay {
            head,
            core,
            least,
            record: Vec::new(),
            session: HeadSession::none(),
            open: None,
            left: Vec::new(),
            expected: Vec::new(),
            recovered: false,
            quit: false,
            counts: Counts::default(),
            written: HashSet::new(),
            heard: HashSet::new(),
            views: HashSet::new(),
        }
    }

    /// Goes through one life.
    pub fn life(&mut self, entries: &[Entry]) -> Result<(), String> {
        self.session = HeadSession::none();
        self.recovered = false;
        self.quit = false;
        for (at, entry) in entries.iter().enumerate() {
            self.entry(at, entry)
                .map_err(|problem| format!("entry {} ({}): {problem}", at + 1, shown(entry)))?;
        }
        if entries.iter().any(|entry| matches!(entry, Entry::Found(_))) {
            self.left = self.left_behind();
        } else {
            // A kill before the record was found leaves what was left before.
            self.counts.kill(Fell::Between, false);
        }
        self.open = None;
        Ok(())
    }

    fn entry(&mut self, at: usize, entry: &Entry) -> Result<(), String> {
        ensure(!self.quit, || String::from("the head had quit"))?;
        match entry {
            Entry::Started { core, least } => self.started(*core, *least),
            Entry::Found(words) => self.found(at, words),
            Entry::Call(call) => self.begin(call),
            Entry::Store { k, word, value } => self.store(*k, *word, *value),
            Entry::Stored(k) => self.stored(*k),
            Entry::Hold(made) => self.hold(*made),
            Entry::End { answer, line } => self.end(*answer, line),
            Entry::Record(words) => self.after_recovery(words),
            Entry::Quit => {
                self.quit = true;
                ensure(self.open.is_none(), || String::from("a call was open"))
            }
        }
    }

    fn started(&mut self, core: u16, least: u8) -> Result<(), String> {
        ensure((core, least) == (self.core, self.least), || {
            String::from("another group was started")
        })?;
        ensure(self.left.is_empty(), || String::from("started twice"))?;
        let mut record = vec![0; WORDS];
        let answer = Second.start(&mut record, self.head, core, least);
        ensure(answer == Answer::Started, || format!("start: {answer:?}"))?;
        self.left = vec![Left {
            file: record.clone(),
            recovered: record,
            fell: Fell::Between,
            aimed: false,
            done: Vec::new(),
        }];
        Ok(())
    }

    /// The file must hold what the stores of the life before left in it.
    fn found(&mut self, at: usize, words: &[u64]) -> Result<(), String> {
        let place = self.left.iter().position(|left| left.file == words);
        let Some(place) = place else {
            let problem = self.left.first().map(|left| differing(words, &left.file));
            return Err(problem.unwrap_or_else(|| String::from("never started")));
        };
        let left = self.left.swap_remove(place);
        // After a start nothing was killed.
        if at == 0 {
            self.counts.kill(left.fell, left.aimed);
            self.count_changes(&left.done);
        }
        self.record = left.file;
        self.expected = left.recovered;
        Ok(())
    }

    fn count_changes(&mut self, changes: &[Change]) {
        for change in changes {
            *self.counts.changes.entry(change.meaning).or_default() += 1;
            if change.meaning == Meaning::Form {
                self.counts.formed.extend(formed_by(change));
            }
        }
    }

    fn begin(&mut self, call: &Call) -> Result<(), String> {
        ensure(self.open.is_none(), || String::from("a call was open"))?;
        let recovery = *call == Call::Recover;
        ensure(self.recovered != recovery, || {
            String::from("a life begins with its one recovery")
        })?;
        self.take_given(call);
        let outcome = outcome(&mut Second, call, &self.record, &self.session)?;
        let changes = match call.kind() {
            Some(kind) => changes(kind, &self.record, &outcome.stores),
            None => Vec::new(),
        };
        self.open = Some(Open {
            call: call.clone(),
            outcome,
            changes,
            made: 0,
            begun: false,
            aimed: false,
        });
        Ok(())
    }

    /// Keeps what the call was given from outside, to hold it beside the
    /// other heads.
    fn take_given(&mut self, call: &Call) {
        match call {
            Call::Enter { view, members } => {
                self.views.insert((*view, *members));
            }
            Call::HearState(line) | Call::HearAttempt(line) if line.ends_with(b"\n") => {
                self.heard.insert(line.clone());
            }
            _ => {}
        }
    }

    fn opened(&mut self) -> Result<&mut Open, String> {
        self.open.as_mut().ok_or(String::from("no call is open"))
    }

    fn store(&mut self, k: usize, word: usize, value: u64) -> Result<(), String> {
        let open = self.opened()?;
        ensure(k == open.made + 1 && !open.begun, || {
            String::from("stores are made one after the other")
        })?;
        let expected = open.outcome.stores.get(open.made).copied();
        ensure(expected == Some((word, value)), || {
            format!("the second program stores {expected:x?}")
        })?;
        open.begun = true;
        Ok(())
    }

    fn stored(&mut self, k: usize) -> Result<(), String> {
        let open = self.opened()?;
        ensure(open.begun && k == open.made + 1, || {
            String::from("the store was not begun")
        })?;
        open.made += 1;
        open.begun = false;
        self.counts.stores += 1;
        Ok(())
    }

    fn hold(&mut self, made: usize) -> Result<(), String> {
        let open = self.opened()?;
        ensure(!open.begun && made == open.made, || {
            String::from("held elsewhere")
        })?;
        open.aimed = true;
        Ok(())
    }

    fn end(&mut self, answer: Answer, line: &[u8]) -> Result<(), String> {
        let open = self.open.take().ok_or(String::from("no call is open"))?;
        ensure(
            answer != Answer::Refused(Refusal::BadRecordOrSession),
            || String::from("a head answers 2 on its own recovered record"),
        )?;
        ensure(answer == open.outcome.answer, || {
            format!("the second program answers {:?}", open.outcome.answer)
        })?;
        ensure(line == open.outcome.line, || {
            String::from("the second program writes another line")
        })?;
        ensure(
            open.made == open.outcome.stores.len() && !open.begun,
            || String::from("the call answered before its last store"),
        )?;
        if let Answer::Written(_) = answer {
            self.written.insert(line.to_vec());
        }
        self.counts.calls += 1;
        self.counts.note_answer(answer);
        self.count_changes(&open.changes);
        self.record = open.outcome.record;
        self.session = open.outcome.session;
        if open.call == Call::Recover {
            self.recovered = true;
            self.counts.mended += u64::from(open.made > 0);
            return self.exact(&self.record);
        }
        Ok(())
    }

    /// Recovery's record against the record after the done changes.
    fn exact(&self, words: &[u64]) -> Result<(), String> {
        ensure(words == self.expected, || {
            format!(
                "the recovered record is not the one after the done changes: {}",
                differing(words, &self.expected)
            )
        })
    }

    /// The file as the proved recovery left it.
    fn after_recovery(&mut self, words: &[u64]) -> Result<(), String> {
        ensure(self.recovered && self.open.is_none(), || {
            String::from("the recovery had not ended")
        })?;
        self.exact(words)
    }

    /// What the end of this life may have left: a store that was begun may
    /// have been made or not.
    fn left_behind(&self) -> Vec<Left> {
        let Some(open) = &self.open else {
            let recovered = if self.recovered {
                self.record.clone()
            } else {
                self.expected.clone()
            };
            return vec![Left {
                file: self.record.clone(),
                recovered,
                fell: Fell::Between,
                aimed: false,
                done: Vec::new(),
            }];
        };
        let most = open.made + usize::from(open.begun);
        (open.made..=most)
            .map(|made| self.left_in(open, made))
            .collect()
    }

    fn left_in(&self, open: &Open, made: usize) -> Left {
        let mut file = self.record.clone();
        for &(word, value) in &open.outcome.stores[..made] {
            file[word] = value;
        }
        let done = done(&open.changes, made).to_vec();
        let recovered = match open.call.kind() {
            // Recovery cut and run again ends the same.
            Some(Kind::Recover) => self.expected.clone(),
            _ => after(&self.record, &done),
        };
        let fell = match open.call.kind() {
            Some(kind) => Fell::In { kind, made },
            None => Fell::Between,
        };
        Left {
            file,
            recovered,
            fell,
            aimed: open.aimed,
            done,
        }
    }

    /// The last life ended by being told to, and the file holds its record.
    pub fn last(&self, file: &[u64]) -> Result<(), String> {
        ensure(self.quit, || String::from("the last life did not quit"))?;
        ensure(file == self.record, || {
            format!("the last file: {}", differing(file, &self.record))
        })
    }
}

/// The session of a form call that has stored word 3.
fn formed_by(change: &Change) -> Option<Session> {
    session_in(change.stores.first()?.1).ok()?
}
