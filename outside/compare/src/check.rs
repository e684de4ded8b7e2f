//! Makes each call on both sides from the same inputs and compares all that
//! comes back: the answer, the record, the session, the output.

use crate::frames_compare::shown;
use crate::side::{Second, Side};
use second::answers::Answer;
use second::head_session::HeadSession;
use second::lines::Frame;
use second::record::{MARKS, NUMBER, PLACE, PRIMARY};
use std::collections::BTreeMap;

/// A call of a head, with its arguments.
#[derive(Clone, Debug)]
pub enum Call {
    Enter { view: u32, members: u16, budget: u64 },
    HearState { line: Vec<u8> },
    HearAttempt { line: Vec<u8> },
    Decide { budget: u64 },
    Form { budget: u64 },
    WriteState { room: usize },
    WriteAttempt { room: usize },
}

impl Call {
    pub fn name(&self) -> &'static str {
        match self {
            Call::Enter { .. } => "enter",
            Call::HearState { .. } => "hear state",
            Call::HearAttempt { .. } => "hear attempt",
            Call::Decide { .. } => "decide",
            Call::Form { .. } => "form",
            Call::WriteState { .. } => "write state",
            Call::WriteAttempt { .. } => "write attempt",
        }
    }

    fn shown(&self) -> String {
        match self {
            Call::Enter {
                view,
                members,
                budget,
            } => format!("enter view {view} heads {members:04x} budget {budget}"),
            Call::HearState { line } => format!("hear state {}", shown(line)),
            Call::HearAttempt { line } => format!("hear attempt {}", shown(line)),
            Call::Decide { budget } => format!("decide budget {budget}"),
            Call::Form { budget } => format!("form budget {budget}"),
            Call::WriteState { room } => format!("write state room {room}"),
            Call::WriteAttempt { room } => format!("write attempt room {room}"),
        }
    }
}

/// The name of an answer in the counts.
pub fn answer_name(answer: Answer) -> String {
    match answer {
        Answer::Refused(r) => format!("refusal {}", r.number()),
        Answer::Written(_) => String::from("written"),
        other => format!("{other:?}").to_lowercase(),
    }
}

/// What a head has after a call.
#[derive(Clone, PartialEq, Eq, Debug)]
pub struct After {
    pub answer: Answer,
    pub record: Vec<u64>,
    pub session: HeadSession,
    pub output: Vec<u8>,
}

/// Makes a call on one side.
pub fn make(side: &mut dyn Side, record: &[u64], session: &HeadSession, call: &Call) -> After {
    let mut record = record.to_vec();
    let mut session = session.clone();
    let mut output = Vec::new();
    let answer = match call {
        Call::Enter {
            view,
            members,
            budget,
        } => side.enter(&mut record, &mut session, *view, *members, *budget),
        Call::HearState { line } => side.hear_state(&mut record, &mut session, line),
        Call::HearAttempt { line } => side.hear_attempt(&mut record, &mut session, line),
        Call::Decide { budget } => side.decide(&mut record, &mut session, *budget),
        Call::Form { budget } => side.form(&mut record, &mut session, *budget),
        Call::WriteState { room } => {
            output = vec![b'.'; *room];
            side.write_state(&mut record, &mut session, &mut output)
        }
        Call::WriteAttempt { room } => {
            output = vec![b'.'; *room];
            side.write_attempt(&mut record, &mut session, &mut output)
        }
    };
    After {
        answer,
        record,
        session,
        output,
    }
}

/// The two sides, and counts of what was met.
pub struct Check<'a> {
    pub other: &'a mut dyn Side,
    /// Of each call and answer.
    pub met: BTreeMap<(&'static str, String), u64>,
    /// Of each kind of case.
    pub kinds: BTreeMap<&'static str, u64>,
}

impl<'a> Check<'a> {
    pub fn new(other: &'a mut dyn Side) -> Check<'a> {
        Check {
            other,
            met: BTreeMap::new(),
            kinds: BTreeMap::new(),
        }
    }

    pub fn kind(&mut self, name: &'static str) {
        *self.kinds.entry(name).or_default() += 1;
    }

    fn met(&mut self, call: &'static str, answer: String) {
        *self.met.entry((call, answer)).or_default() += 1;
    }

    /// The calls that take a session made so far on each side.
    pub fn calls(&self) -> u64 {
        let of_heads = [
            "enter",
            "hear state",
            "hear attempt",
            "decide",
            "form",
            "write state",
            "write attempt",
        ];
        self.met
            .iter()
            .filter(|((call, _), _)| of_heads.contains(call))
            .map(|(_, count)| count)
            .sum()
    }

    /// A call of a head on both sides.
    pub fn call(
        &mut self,
        record: &[u64],
        session: &HeadSession,
        call: &Call,
    ) -> Result<After, String> {
        let ours = make(&mut Second, record, session, call);
        let theirs = make(self.other, record, session, call);
        self.met(call.name(), answer_name(ours.answer));
        if ours == theirs {
            self.effects(record, &ours, call);
            return Ok(ours);
        }
        let mut text = format!(
            "difference: {}\nrecord:\n{}session:\n{}",
            call.shown(),
            shown_record(record),
            shown_session(session),
        );
        if ours.answer != theirs.answer {
            text += &format!(
                "answer: second {:?}, {} {:?}\n",
                ours.answer,
                self.other.name(),
                theirs.answer
            );
        } else {
            text += &format!("answer of both: {:?}\n", ours.answer);
        }
        text += &differing_words(&ours.record, &theirs.record, self.other.name());
        if ours.session != theirs.session {
            text += &format!(
                "session of second:\n{}session of {}:\n{}",
                shown_session(&ours.session),
                self.other.name(),
                shown_session(&theirs.session)
            );
        }
        if ours.output != theirs.output {
            text += &format!(
                "output of second: {}\noutput of {}: {}\n",
                shown(&ours.output),
                self.other.name(),
                shown(&theirs.output)
            );
        }
        Err(text)
    }

    /// Counts what a decide call that ended as usual did to the record.
    fn effects(&mut self, before: &[u64], after: &After, call: &Call) {
        let ended = matches!(
            after.answer,
            Answer::Attempted | Answer::NoQuorum | Answer::NumbersRunOut | Answer::NoPlace
        );
        if !ended || !matches!(call, Call::Decide { .. }) {
            return;
        }
        let now = &after.record;
        let primary = number_bits(now[PRIMARY]);
        if before[PRIMARY] != now[PRIMARY] {
            self.kind("decide adopted");
            if before[NUMBER] < primary {
                self.kind("decide adopted and raised word 2");
            }
        }
        let adopted = before[PRIMARY] != now[PRIMARY];
        for i in 0..16 {
            let place = before[PLACE + i];
            if place == 0 {
                continue;
            }
            if now[PLACE + i] != place {
                if adopted && number_bits(place) <= primary {
                    self.kind("place cleared by adoption");
                } else {
                    self.kind("place cleared under c");
                }
            } else if now[MARKS + i] != before[MARKS + i] {
                self.kind("place marked and kept");
            } else {
                self.kind("place kept as it was");
            }
        }
    }

    pub fn whole(&mut self, record: &[u64]) -> Result<bool, String> {
        let ours = Second.whole(record);
        let theirs = self.other.whole(record);
        self.met("whole", format!("{ours}"));
        if ours == theirs {
            return Ok(ours);
        }
        Err(format!(
            "difference: whole: second {ours}, {} {theirs}\nrecord:\n{}",
            self.other.name(),
            shown_record(record)
        ))
    }

    pub fn recover(
        &mut self,
        record: &[u64],
        budget: u64,
    ) -> Result<(Answer, Vec<u64>), String> {
        let mut ours = record.to_vec();
        let mut theirs = record.to_vec();
        let our_answer = Second.recover(&mut ours, budget);
        let their_answer = self.other.recover(&mut theirs, budget);
        self.met("recover", answer_name(our_answer));
        if our_answer == their_answer && ours == theirs {
            return Ok((our_answer, ours));
        }
        Err(format!(
            "difference: recover budget {budget}: second {our_answer:?}, {} {their_answer:?}\n\
             record:\n{}{}",
            self.other.name(),
            shown_record(record),
            differing_words(&ours, &theirs, self.other.name())
        ))
    }

    pub fn start(
        &mut self,
        record: &[u64],
        head: u8,
        w0: u16,
        q: u8,
    ) -> Result<(Answer, Vec<u64>), String> {
        let mut ours = record.to_vec();
        let mut theirs = record.to_vec();
        let our_answer = Second.start(&mut ours, head, w0, q);
        let their_answer = self.other.start(&mut theirs, head, w0, q);
        self.met("start", answer_name(our_answer));
        if our_answer == their_answer && ours == theirs {
            return Ok((our_answer, ours));
        }
        Err(format!(
            "difference: start head {head} W0 {w0:04x} Q {q}, {} words: second {our_answer:?}, \
             {} {their_answer:?}\n{}",
            record.len(),
            self.other.name(),
            differing_words(&ours, &theirs, self.other.name())
        ))
    }

    pub fn quorum_test(&mut self, w0: u16, q: u8, s: u16, t: u16) -> Result<(), String> {
        let ours = Second.quorum_test(w0, q, s, t);
        let theirs = self.other.quorum_test(w0, q, s, t);
        let name = match ours {
            Ok(value) => format!("{value}"),
            Err(number) => format!("refusal {number}"),
        };
        self.met("quorum test", name);
        if ours == theirs {
            return Ok(());
        }
        Err(format!(
            "difference: quorum test W0 {w0:04x} Q {q} S {s:04x} T {t:04x}: second {ours:?}, \
             {} {theirs:?}",
            self.other.name()
        ))
    }

    pub fn read(&mut self, bytes: &[u8]) -> Result<(), String> {
        let ours = Second.read(bytes);
        let theirs = self.other.read(bytes);
        let name = match &ours.0 {
            Some(Frame::State { .. }) => "state",
            Some(Frame::Attempt { .. }) => "attempt",
            None => "refusal 3",
        };
        self.met("read", String::from(name));
        if ours == theirs {
            return Ok(());
        }
        Err(format!(
            "difference: read {}:\nsecond {ours:?}\n{} {theirs:?}",
            shown(bytes),
            self.other.name()
        ))
    }
}

fn number_bits(word: u64) -> u64 {
    word >> 16 & 0xffff_ffff
}

/// The words that are not 0, by their numbers.
pub fn shown_record(record: &[u64]) -> String {
    let mut text = format!("  {} words", record.len());
    for (i, word) in record.iter().enumerate() {
        if *word != 0 {
            text += &format!(", {i}: {word:x}");
        }
    }
    text + "\n"
}

pub fn shown_session(session: &HeadSession) -> String {
    let mut text = format!(
        "  {:?}, view {}, M {:04x}, states {:04x}, attempts {:04x}\n",
        session.stage,
        session.view,
        session.members,
        session.states_heard,
        session.attempts_heard
    );
    let blank = second::head_session::Held::blank();
    for (q, held) in session.held.iter().enumerate() {
        if *held != blank {
            text += &format!(
                "  from {q}: number {}, primary {:x}, formed {:x?}, count {}, places {:x?}\n",
                held.number, held.last_primary, held.last_formed, held.count, held.places
            );
        }
    }
    text
}

fn differing_words(ours: &[u64], theirs: &[u64], name: &str) -> String {
    let mut text = String::new();
    for (i, (a, b)) in ours.iter().zip(theirs).enumerate() {
        if a != b {
            text += &format!("word {i}: second {a:x}, {name} {b:x}\n");
        }
    }
    text
}
