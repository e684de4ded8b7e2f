//! Makes the events of a history, and checks each step against document 01.

use crate::call::{answer_name, make, Call, ALL, UNWRITTEN};
use crate::counts::Counts;
use crate::cuts::{after_done_changes, after_each_store, stores, Store};
use crate::event::{Event, Kind};
use crate::world::{stores_of, Head, World};
use compare::side::{Second, Side};
use second::answers::{Answer, Refusal};
use second::head_session::HeadSession;
use second::lines::{ATTEMPT_CHARACTERS, STATE_CHARACTERS};
use second::record::{NUMBER, PRIMARY};
use std::rc::Rc;

/// The kinds of failure. A shrunk history fails in the same way.
#[derive(Clone, Copy, PartialEq, Eq, Debug)]
pub enum Fault {
    /// The outcome is not that of `second`.
    Difference,
    /// A refused call changed something, or one that doesn't store stored.
    NotKept,
    /// Refusal 2 of a record that is whole, or none of one that is not.
    Refusal2,
    /// Stores are not single, or a cut record is not recovered as it should.
    Recovery,
    /// Formed sessions are no chain.
    Chain,
    /// More than 17 less Q places are in use, or "no place".
    Places,
    /// A line is not written, or not as before.
    Line,
    /// A head does not start.
    Start,
}

#[derive(Clone, Debug)]
pub struct Failure {
    pub fault: Fault,
    pub text: String,
}

fn failure<T>(fault: Fault, text: String) -> Result<T, Failure> {
    Err(Failure { fault, text })
}

pub struct Runner<'a> {
    pub side: &'a mut dyn Side,
    /// One call in so many is compared with `second`; 0 for none.
    pub lockstep: u64,
    pub counts: Counts,
    calls: u64,
}

/// What a call left beside the head.
struct Ended {
    answer: Answer,
    output: Vec<u8>,
}

impl<'a> Runner<'a> {
    pub fn new(side: &'a mut dyn Side, lockstep: u64) -> Runner<'a> {
        Runner {
            side,
            lockstep,
            counts: Counts::default(),
            calls: 0,
        }
    }

    fn compares_now(&mut self) -> bool {
        self.calls += 1;
        self.lockstep != 0 && self.calls % self.lockstep == 0
    }

    /// Starts every head of the world.
    pub fn start(&mut self, world: &mut World) -> Result<(), Failure> {
        let s = world.settings;
        for (h, head) in world.heads.iter_mut().enumerate() {
            let answer = self.side.start(&mut head.record, h as u8, s.w0, s.q);
            self.counts.answer("start", answer);
            if answer != Answer::Started {
                return failure(Fault::Start, format!("head {h}: {}", answer_name(answer)));
            }
            let mut ours = Head::new();
            Second.start(&mut ours.record, h as u8, s.w0, s.q);
            if self.compares_now() && ours.record != head.record {
                return failure(Fault::Difference, format!("start of head {h}"));
            }
            head.record[NUMBER] = head.record[NUMBER].max(s.number as u64);
        }
        Ok(())
    }

    /// Makes an event; `None` if it has nothing to act on.
    pub fn step(&mut self, world: &mut World, event: &Event) -> Result<Option<Answer>, Failure> {
        if event
            .head()
            .is_some_and(|h| h as usize >= world.heads.len())
        {
            return Ok(None);
        }
        let budget = stores_of(event.budget());
        match *event {
            Event::View { view, heads } => {
                world.views.entry(view).or_insert(heads);
                Ok(None)
            }
            Event::Enter { head, view, .. } => self.enter(world, head, view, budget),
            Event::Deliver {
                line,
                ear,
                view,
                from,
                to,
            } => match world.line(view, line, from) {
                None => Ok(None),
                Some(line) => Ok(Some(self.hear(world, to, ear, &line)?)),
            },
            Event::Decide { head, .. } => Ok(Some(self.decide(world, head, budget)?)),
            Event::Form { head, .. } => Ok(Some(self.form(world, head, budget)?)),
            Event::Recover { head, .. } => {
                Ok(Some(self.call(world, head, &Call::Recover, budget)?.answer))
            }
            Event::Stop { head } => {
                world.heads[head as usize].session = HeadSession::none();
                Ok(None)
            }
            Event::Write { kind, head, room } => {
                Ok(Some(self.write(world, head, kind, room as usize)?))
            }
        }
    }

    fn enter(
        &mut self,
        world: &mut World,
        head: u8,
        view: u32,
        budget: u64,
    ) -> Result<Option<Answer>, Failure> {
        let Some(&members) = world.views.get(&view) else {
            return Ok(None);
        };
        let answer = self
            .call(world, head, &Call::Enter { view, members }, budget)?
            .answer;
        if answer == Answer::Entered {
            self.send(world, head, Kind::State)?;
        }
        Ok(Some(answer))
    }

    fn hear(
        &mut self,
        world: &mut World,
        head: u8,
        ear: Kind,
        line: &[u8],
    ) -> Result<Answer, Failure> {
        let call = match ear {
            Kind::State => Call::HearState { line },
            Kind::Attempt => Call::HearAttempt { line },
        };
        Ok(self.call(world, head, &call, ALL)?.answer)
    }

    fn decide(&mut self, world: &mut World, head: u8, budget: u64) -> Result<Answer, Failure> {
        let answer = self.call(world, head, &Call::Decide, budget)?.answer;
        if answer == Answer::Attempted {
            self.send(world, head, Kind::Attempt)?;
        }
        Ok(answer)
    }

    /// "A session is formed when a form call has stored word 3."
    fn form(&mut self, world: &mut World, head: u8, budget: u64) -> Result<Answer, Failure> {
        let before = world.heads[head as usize].record[PRIMARY];
        let answer = self.call(world, head, &Call::Form, budget)?.answer;
        let now = world.heads[head as usize].record[PRIMARY];
        if now != before {
            self.counts.formed += 1;
            match world.add_formed(now) {
                Err(text) => return failure(Fault::Chain, text),
                Ok(new) => self.counts.distinct_formed += u64::from(new),
            }
            self.counts.longest_chain = self.counts.longest_chain.max(world.formed.len());
        }
        Ok(answer)
    }

    fn send(&mut self, world: &mut World, head: u8, kind: Kind) -> Result<(), Failure> {
        let room = match kind {
            Kind::State => STATE_CHARACTERS,
            Kind::Attempt => ATTEMPT_CHARACTERS,
        };
        let answer = self.write(world, head, kind, room)?;
        if !matches!(answer, Answer::Written(_)) {
            let text = format!("head {head} can't write: {}", answer_name(answer));
            return failure(Fault::Line, text);
        }
        Ok(())
    }

    /// Writes a line and sends it; one written again is the same.
    fn write(
        &mut self,
        world: &mut World,
        head: u8,
        kind: Kind,
        room: usize,
    ) -> Result<Answer, Failure> {
        let call = match kind {
            Kind::State => Call::WriteState { room },
            Kind::Attempt => Call::WriteAttempt { room },
        };
        let Ended { answer, output } = self.call(world, head, &call, ALL)?;
        let Answer::Written(length) = answer else {
            return Ok(answer);
        };
        let view = world.heads[head as usize].session.view;
        let line: Rc<[u8]> = Rc::from(&output[..length]);
        if output[length..].iter().any(|&b| b != UNWRITTEN) {
            return failure(
                Fault::Line,
                String::from("output past the line was changed"),
            );
        }
        let before = world.sent.insert((view, kind, head), line.clone());
        if before.is_some_and(|before| before != line) {
            let text = format!("head {head} wrote two lines of one kind in view {view}");
            return failure(Fault::Line, text);
        }
        Ok(answer)
    }

    /// A call of a head with all that is checked of it.
    fn call(
        &mut self,
        world: &mut World,
        head: u8,
        call: &Call,
        budget: u64,
    ) -> Result<Ended, Failure> {
        let q = world.settings.q;
        let head = &mut world.heads[head as usize];
        let before = head.clone();
        let made = make(self.side, &mut head.record, &mut head.session, call, budget);
        let ended = Ended {
            answer: made.0,
            output: made.1,
        };
        self.counts.answer(call.name(), ended.answer);
        if self.compares_now() {
            self.compare(&before, call, budget, head, &ended)?;
        }
        check_kept(&before, call, head, &ended)?;
        match ended.answer {
            Answer::Refused(refusal) => check_refusal(&before, refusal)?,
            Answer::Cut => self.check_cut(&before, call, budget, head)?,
            _ => {
                if before.is_torn() && !matches!(call, Call::Recover) {
                    let text = format!("{} took a torn record", call.name());
                    return failure(Fault::Refusal2, text);
                }
                check_recovered(&before, call, head)?;
                head.cut = None;
            }
        }
        self.check_places(q, head, ended.answer)?;
        Ok(ended)
    }

    /// The same call by `second`.
    fn compare(
        &mut self,
        before: &Head,
        call: &Call,
        budget: u64,
        after: &Head,
        ended: &Ended,
    ) -> Result<(), Failure> {
        self.counts.compared += 1;
        let mut ours = before.clone();
        let (answer, output) = make(
            &mut Second,
            &mut ours.record,
            &mut ours.session,
            call,
            budget,
        );
        let what = if answer != ended.answer {
            format!(
                "second answers {answer:?}, {} {:?}",
                self.side.name(),
                ended.answer
            )
        } else if ours.record != after.record {
            let words = (0..ours.record.len()).filter(|&w| ours.record[w] != after.record[w]);
            let all: Vec<String> = words
                .map(|w| format!("word {w} {:x} and {:x}", ours.record[w], after.record[w]))
                .collect();
            format!("second and {} leave {}", self.side.name(), all.join(", "))
        } else if ours.session != after.session {
            String::from("the sessions handed back differ")
        } else if output != ended.output {
            String::from("the output differs")
        } else {
            return Ok(());
        };
        failure(Fault::Difference, format!("{}: {what}", call.name()))
    }

    /// A cut: no session, single stores, and recovery gives the record after
    /// the done changes, cut anywhere and run again too.
    fn check_cut(
        &mut self,
        before: &Head,
        call: &Call,
        budget: u64,
        head: &mut Head,
    ) -> Result<(), Failure> {
        let wrong = |text: String| Failure {
            fault: Fault::Recovery,
            text,
        };
        if head.session != HeadSession::none() {
            return Err(wrong(format!("{} was cut and left a session", call.name())));
        }
        let records = after_each_store(self.side, before, call).map_err(wrong)?;
        self.counts.beside += records.len() as u64;
        let all: Vec<Store> = stores(call, &records).map_err(wrong)?;
        let made = budget as usize;
        if made >= all.len() || records[made] != head.record {
            let text = format!(
                "{} cut after {made} stores is not the same again",
                call.name()
            );
            return Err(wrong(text));
        }
        self.counts.cut(call.name(), all[made].name, made);
        let done = match call {
            // Recovery makes no change of its own.
            Call::Recover => before.cut.unwrap_or(before.record),
            _ => after_done_changes(&records, &all, made),
        };
        head.cut = Some(done);
        self.check_recovery(head)
            .map_err(|text| wrong(format!("{} cut after {made} stores: {text}", call.name())))
    }

    /// Recovery of a cut record, uncut and cut at every position.
    fn check_recovery(&mut self, head: &Head) -> Result<(), String> {
        let done = head.cut.unwrap_or(head.record);
        if !self.side.whole(&done) {
            return Err(String::from(
                "the record after the done changes is not whole",
            ));
        }
        self.counts.recoveries += 1;
        for budget in (0..).map(|k| if k > 60 { ALL } else { k }) {
            let mut record = head.record;
            let answer = self.side.recover(&mut record, budget);
            self.counts.beside += 1;
            match answer {
                Answer::Cut if budget != ALL => {
                    let again = self.side.recover(&mut record, ALL);
                    self.counts.beside += 1;
                    if again != Answer::Recovered || record != done {
                        return Err(format!(
                            "recovery cut after {budget} stores and run again ends otherwise"
                        ));
                    }
                }
                Answer::Recovered if record == done => return Ok(()),
                Answer::Recovered => {
                    let word = (0..done.len()).find(|&w| record[w] != done[w]).unwrap_or(0);
                    return Err(format!(
                        "recovery leaves word {word} as {:x}, and {:x} after the done changes",
                        record[word], done[word]
                    ));
                }
                other => return Err(format!("recovery answers {}", answer_name(other))),
            }
        }
        Ok(())
    }

    fn check_places(&mut self, q: u8, head: &Head, answer: Answer) -> Result<(), Failure> {
        if answer == Answer::NoPlace {
            return failure(Fault::Places, String::from("decide answers no place"));
        }
        let used = head.places_in_use();
        let most = self.counts.places.entry(q).or_default();
        *most = used.max(*most);
        if used > 17 - q as usize {
            return failure(Fault::Places, format!("{used} places are in use, Q is {q}"));
        }
        Ok(())
    }
}

/// A refused call keeps all, and only four calls store.
fn check_kept(before: &Head, call: &Call, after: &Head, ended: &Ended) -> Result<(), Failure> {
    let refused = matches!(ended.answer, Answer::Refused(_));
    let stores = matches!(
        call,
        Call::Enter { .. } | Call::Decide | Call::Form | Call::Recover
    );
    if (refused || !stores) && before.record != after.record {
        return failure(
            Fault::NotKept,
            format!("{} changed the record", call.name()),
        );
    }
    if refused && before.session != after.session {
        return failure(
            Fault::NotKept,
            format!("a refused {} changed the session", call.name()),
        );
    }
    if refused && ended.output.iter().any(|&b| b != UNWRITTEN) {
        return failure(Fault::NotKept, format!("a refused {} wrote", call.name()));
    }
    Ok(())
}

/// In a history a record is whole, and the session fits, but for a cut record
/// that lacks stores.
fn check_refusal(before: &Head, refusal: Refusal) -> Result<(), Failure> {
    let two = refusal == Refusal::BadRecordOrSession;
    if two != before.is_torn() {
        let text = match two {
            true => String::from("refusal 2 of a record that lacks no store"),
            false => format!("refusal {} of a torn record", refusal.number()),
        };
        return failure(Fault::Refusal2, text);
    }
    Ok(())
}

/// "The recovered record is the one after the done changes."
fn check_recovered(before: &Head, call: &Call, after: &Head) -> Result<(), Failure> {
    if !matches!(call, Call::Recover) || after.record == before.cut.unwrap_or(before.record) {
        return Ok(());
    }
    let text = String::from("recovered to another record than the one after the done changes");
    failure(Fault::Recovery, text)
}
