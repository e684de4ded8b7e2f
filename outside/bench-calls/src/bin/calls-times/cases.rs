//! What the calls are given: the records, sessions and lines of a head of a
//! running group, made by the plain calls.

use bench_calls::calls;
use bench_calls::record::{recover, start, Words};
use bench_calls::session::Session;
use second::answers::Answer;

const NO_LIMIT: u64 = u64::MAX;

/// The head whose calls are measured.
const OWN: usize = 1;
const LEAST: u8 = 1;

#[derive(Clone, Copy, PartialEq, Eq, Debug)]
pub enum Call {
    Quorum,
    Start,
    Whole,
    Recover,
    ReadLine,
    Enter,
    WriteState,
    HearState,
    Decide,
    WriteAttempt,
    HearAttempt,
    Form,
}

/// All calls, in the order of a view's life, and their names.
pub const CALLS: [(Call, &str); 12] = [
    (Call::Quorum, "quorum test"),
    (Call::Start, "start"),
    (Call::Whole, "whole"),
    (Call::Recover, "recover"),
    (Call::ReadLine, "read a line"),
    (Call::Enter, "enter"),
    (Call::WriteState, "write state"),
    (Call::HearState, "hear state"),
    (Call::Decide, "decide"),
    (Call::WriteAttempt, "write attempt"),
    (Call::HearAttempt, "hear attempt"),
    (Call::Form, "form"),
];

/// The inputs of one call; each call takes what it needs of them.
#[derive(Clone)]
pub struct Case {
    pub record: Words,
    pub session: Session,
    pub view: u32,
    pub members: u16,
    pub core: u16,
    pub line: Vec<u8>,
}

impl Case {
    pub const HEAD: u8 = OWN as u8;
    pub const LEAST: u8 = LEAST;
}

#[derive(Clone)]
struct Head {
    record: Words,
    session: Session,
}

/// What happened to the group before the view that is measured.
#[derive(Clone, Copy, PartialEq, Eq)]
enum Past {
    /// Views of the same heads were formed by all.
    Calm,
    /// Views of fewer and fewer heads were attempted and not formed.
    Places,
    /// A view was formed by all but own head, which has to adopt it.
    Behind,
}

/// Heads 0 to n - 1.
fn first(n: usize) -> u16 {
    (0xffffu32 >> (16 - n)) as u16
}

/// A group of heads, of which the first `n` are in the view that is measured.
struct World {
    heads: Vec<Head>,
    view: u32,
    core: u16,
    members: u16,
}

impl World {
    /// 3 of 5 heads, 8 of 12, 16 of 16.
    fn new(n: usize) -> World {
        let size = (n + n / 2 + 1).min(16);
        let core = first(size);
        let heads = (0..size).map(|head| {
            let mut record = [0; 52];
            let answer = start(&mut record, head as u8, core, LEAST);
            assert_eq!(answer, Answer::Started);
            Head {
                record,
                session: Session::NO_SESSION,
            }
        });
        World {
            heads: heads.collect(),
            view: 0,
            core,
            members: first(n),
        }
    }

    fn enter(&mut self, n: usize) {
        self.view += 1;
        for head in &mut self.heads[..n] {
            let answer = calls::enter(
                &mut head.record,
                &mut head.session,
                self.view,
                first(n),
                NO_LIMIT,
            );
            assert_eq!(answer, Answer::Entered);
        }
    }

    fn state_line(&self, head: usize) -> Vec<u8> {
        let mut out = vec![0; 419];
        let Head { record, session } = &self.heads[head];
        let Answer::Written(length) = calls::write_state(record, session, &mut out) else {
            panic!("no state line was written");
        };
        out.truncate(length);
        out
    }

    fn attempt_line(&self, head: usize) -> Vec<u8> {
        let mut out = vec![0; 13];
        let Head { record, session } = &self.heads[head];
        let answer = calls::write_attempt(record, session, &mut out);
        assert_eq!(answer, Answer::Written(13));
        out
    }

    fn hear_state(&mut self, head: usize, line: &[u8]) {
        let Head { record, session } = &mut self.heads[head];
        assert_eq!(calls::hear_state(record, session, line), Answer::Heard);
    }

    fn hear_attempt(&mut self, head: usize, line: &[u8]) {
        let Head { record, session } = &mut self.heads[head];
        assert_eq!(calls::hear_attempt(record, session, line), Answer::Heard);
    }

    fn decide(&mut self, head: usize) {
        let Head { record, session } = &mut self.heads[head];
        let answer = calls::decide(record, session, NO_LIMIT);
        assert_eq!(answer, Answer::Attempted);
    }

    /// All of the first n heads hear all states and attempt.
    fn attempt(&mut self, n: usize) {
        let lines: Vec<Vec<u8>> = (0..n).map(|head| self.state_line(head)).collect();
        for to in 0..n {
            for (_, line) in lines.iter().enumerate().filter(|&(from, _)| from != to) {
                self.hear_state(to, line);
            }
            self.decide(to);
        }
    }

    /// All of the first n heads but some hear all attempts and form.
    fn form(&mut self, n: usize, without: Option<usize>) {
        let lines: Vec<Vec<u8>> = (0..n).map(|head| self.attempt_line(head)).collect();
        for to in (0..n).filter(|&to| Some(to) != without) {
            for (_, line) in lines.iter().enumerate().filter(|&(from, _)| from != to) {
                self.hear_attempt(to, line);
            }
            let Head { record, session } = &mut self.heads[to];
            assert_eq!(calls::form(record, session, NO_LIMIT), Answer::Formed);
        }
    }

    fn live(&mut self, n: usize, past: Past) {
        for _ in 0..2 {
            self.enter(n);
            self.attempt(n);
            self.form(n, None);
        }
        match past {
            Past::Calm => {}
            Past::Places => {
                let size = self.heads.len();
                for n in (n.min(size - 2).max(size - 4)..=size).rev() {
                    self.enter(n);
                    self.attempt(n);
                }
            }
            Past::Behind => {
                self.enter(n);
                self.attempt(n);
                self.form(n, Some(OWN));
            }
        }
    }

    /// Own head as it is, before a call with this line.
    fn case(&self, line: &[u8]) -> Case {
        let Head { record, session } = self.heads[OWN].clone();
        Case {
            record,
            session,
            view: self.view + 1,
            members: self.members,
            core: self.core,
            line: line.to_vec(),
        }
    }
}

/// The inputs of a call of a head in a view of n heads after one past.
fn cases_after(call: Call, n: usize, past: Past) -> Vec<Case> {
    let mut world = World::new(n);
    world.live(n, past);
    if matches!(call, Call::Quorum | Call::Start | Call::Whole | Call::Enter) {
        return vec![world.case(&[])];
    }
    world.enter(n);
    let states: Vec<Vec<u8>> = (0..n).map(|head| world.state_line(head)).collect();
    match call {
        Call::WriteState => return vec![world.case(&[])],
        Call::ReadLine => return states.iter().map(|line| world.case(line)).collect(),
        _ => {}
    }
    hear_and_decide(call, world, &states)
}

/// From the first state line on: the cases on the way, and the last ones.
fn hear_and_decide(call: Call, mut world: World, states: &[Vec<u8>]) -> Vec<Case> {
    let n = states.len();
    let mut cases = Vec::new();
    for from in (0..n).filter(|&from| from != OWN) {
        cases.push(world.case(&states[from]));
        world.hear_state(OWN, &states[from]);
    }
    if call == Call::HearState {
        return cases;
    }
    if call == Call::Decide {
        return vec![world.case(&[])];
    }
    world.decide(OWN);
    if call == Call::WriteAttempt {
        return vec![world.case(&[])];
    }
    hear_and_form(call, world, n)
}

/// From the first attempt line on.
fn hear_and_form(call: Call, mut world: World, n: usize) -> Vec<Case> {
    let mut cases = Vec::new();
    for from in (0..n).filter(|&from| from != OWN) {
        let line = format!("02{:08x}{from:02x}\n", world.view).into_bytes();
        cases.push(world.case(&line));
        world.hear_attempt(OWN, &line);
    }
    match call {
        Call::HearAttempt => cases,
        Call::Recover => vec![world.case(&[]), cut(world.case(&[]))],
        _ => vec![world.case(&[])],
    }
}

/// The record that a form leaves that is cut in its last formed words.
fn cut(mut case: Case) -> Case {
    let answer = calls::form(&mut case.record, &mut case.session, 3);
    assert_eq!(answer, Answer::Cut);
    let mut record = case.record;
    assert_eq!(recover(&mut record, NO_LIMIT), Answer::Recovered);
    assert_ne!(record, case.record);
    case
}

/// The inputs of a call in a view of n heads.
pub fn cases(call: Call, n: usize) -> Vec<Case> {
    [Past::Calm, Past::Places, Past::Behind]
        .into_iter()
        .flat_map(|past| cases_after(call, n, past))
        .collect()
}
