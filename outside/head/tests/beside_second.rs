//! Histories of heads and of the second program side by side: the answers, the
//! lines, the words stored and their order, and what recovery makes of a loss
//! of power at each position of each call.

mod common;

use common::Flash;
use compare::rng::Rng;
use head::{Decision, Fault, Head, WORDS};
use second::answers::Answer;
use second::calls;
use second::head_session::{HeadSession, Stage};
use std::collections::BTreeMap;

type Words = [u64; WORDS];
type Puts = Vec<(usize, u64)>;

#[derive(Clone, Copy, Debug, PartialEq, Eq, PartialOrd, Ord)]
enum Kind {
    Enter,
    Decide,
    Form,
    Recover,
}

/// How often calls of a kind with so many words to store were made, and cut.
#[derive(Default)]
struct Tally {
    made: BTreeMap<(Kind, usize), usize>,
    answers: BTreeMap<Answer, usize>,
}

impl Tally {
    /// Where the next call of this kind and length is cut: at each position in
    /// turn, the word in hand once lost and once stored, then now and then.
    fn next_cut(&mut self, rng: &mut Rng, kind: Kind, length: usize) -> Option<(usize, bool)> {
        let made = self.made.entry((kind, length)).or_default();
        let turn = *made;
        *made += 1;
        if turn < 2 * length {
            return Some((turn / 2, turn % 2 == 1));
        }
        (length > 0 && rng.one_in(12)).then(|| (rng.index(length), rng.one_in(2)))
    }

    /// Whether a call of this kind and length was cut everywhere.
    fn cut_everywhere(&self, kind: Kind, length: usize) -> bool {
        self.made
            .get(&(kind, length))
            .is_some_and(|made| *made >= 2 * length)
    }
}

fn after(mut words: Words, puts: &[(usize, u64)]) -> Words {
    for (index, word) in puts {
        words[*index] = *word;
    }
    words
}

fn number(answer: Answer) -> Result<Option<Decision>, u8> {
    match answer {
        Answer::Refused(refusal) => Err(refusal.number()),
        Answer::Attempted => Ok(Some(Decision::Attempted)),
        Answer::NoQuorum => Ok(Some(Decision::NoQuorum)),
        Answer::NumbersRunOut => Ok(Some(Decision::NumbersRunOut)),
        Answer::NoPlace => Ok(Some(Decision::NoPlace)),
        _ => Ok(None),
    }
}

fn refused(fault: Fault) -> u8 {
    match fault {
        Fault::Refused(refusal) => refusal.number(),
        other => panic!("{other}"),
    }
}

/// One head and the second program's head.
struct Twin {
    head: Head<Flash>,
    words: Words,
    session: HeadSession,
}

impl Twin {
    fn start(own: u8, core: u16, least: u8) -> Twin {
        let mut words = [0; WORDS];
        assert_eq!(
            second::record::start(&mut words, own, core, least),
            Answer::Started
        );
        let head = Head::start(Flash::of([7; WORDS]), own, core, least).unwrap();
        head.store().log.take();
        Twin {
            head,
            words,
            session: HeadSession::none(),
        }
    }

    /// A call that stores, on both, cut where the tally says. A cut head is
    /// recovered.
    fn storing(
        &mut self,
        tally: &mut Tally,
        rng: &mut Rng,
        kind: Kind,
        call: impl Fn(&mut Head<Flash>) -> Result<Option<Decision>, Fault>,
        other: impl Fn(&mut [u64], HeadSession, u64) -> (Answer, HeadSession),
    ) {
        let (puts, answer, session) = stores(&self.words, &self.session, other);
        let cut = tally.next_cut(rng, kind, puts.len());
        self.head.store().loss.set(cut);
        let said = call(&mut self.head);
        if let Some((left, is_kept)) = cut {
            assert_eq!(said, Err(Fault::Stopped));
            assert_eq!(self.head.words(), &after(self.words, &puts[..left]));
            self.lost(&puts[..left + usize::from(is_kept)], &call);
            return self.recover(tally, rng);
        }
        *tally.answers.entry(answer).or_default() += 1;
        assert_eq!(said.map_err(refused), number(answer), "{kind:?}");
        self.stored(&puts);
        self.session = session;
        assert_eq!(self.head.words(), &self.words);
        assert_eq!(self.head.is_primary(), self.session.stage == Stage::Formed);
    }

    /// The words put are these, and the second program's record takes them.
    fn stored(&mut self, puts: &[(usize, u64)]) {
        assert_eq!(self.head.store().log.take(), puts);
        self.words = after(self.words, puts);
        assert_eq!(self.head.store().words, self.words);
    }

    /// A stopped head is out of use, whatever is asked of it.
    fn lost(
        &mut self,
        puts: &[(usize, u64)],
        call: &impl Fn(&mut Head<Flash>) -> Result<Option<Decision>, Fault>,
    ) {
        self.stored(puts);
        self.session = HeadSession::none();
        self.head.store().loss.set(None);
        assert!(!self.head.is_primary());
        assert_eq!(call(&mut self.head), Err(Fault::Stopped));
        assert_eq!(self.head.state_line(), Err(Fault::Stopped));
        assert_eq!(self.head.attempt_line(), Err(Fault::Stopped));
        assert_eq!(self.head.hear_state(b""), Err(Fault::Stopped));
        assert_eq!(self.head.hear_attempt(b""), Err(Fault::Stopped));
        self.stored(&[]);
    }

    /// Recovers from the store, losing power again where the tally says.
    fn recover(&mut self, tally: &mut Tally, rng: &mut Rng) {
        loop {
            let (puts, answer, _) = stores(&self.words, &self.session, |words, session, budget| {
                (second::stores::recover(words, budget), session)
            });
            assert_eq!(answer, Answer::Recovered);
            let mut flash = Flash::of(self.words);
            let cut = tally.next_cut(rng, Kind::Recover, puts.len());
            flash.loss.set(cut);
            let Some((left, is_kept)) = cut else {
                self.head = Head::recover(flash).unwrap();
                return self.stored(&puts);
            };
            assert_eq!(Head::recover(&mut flash).err(), Some(Fault::Stopped));
            assert_eq!(flash.log.take(), &puts[..left + usize::from(is_kept)]);
            self.words = flash.words;
        }
    }

    fn hear_state(&mut self, line: &[u8]) {
        let said = self.head.hear_state(line).map(|()| None).map_err(refused);
        let (answer, session) = calls::hear_state(&self.words, self.session.clone(), line);
        assert_eq!(said, number(answer));
        self.session = session;
    }

    fn hear_attempt(&mut self, line: &[u8]) {
        let said = self.head.hear_attempt(line).map(|()| None).map_err(refused);
        let (answer, session) = calls::hear_attempt(&self.words, self.session.clone(), line);
        assert_eq!(said, number(answer));
        self.session = session;
    }

    fn state_line(&mut self) -> Option<Vec<u8>> {
        let mut out = [0; 419];
        let said = self.head.state_line().map_err(refused);
        let (answer, _) = calls::write_state(&self.words, self.session.clone(), &mut out);
        written(said, answer, &out)
    }

    fn attempt_line(&mut self) -> Option<Vec<u8>> {
        let mut out = [0; 419];
        let said = self.head.attempt_line().map_err(refused);
        let (answer, _) = calls::write_attempt(&self.words, self.session.clone(), &mut out);
        written(said, answer, &out)
    }
}

fn written(said: Result<head::Line, u8>, answer: Answer, out: &[u8]) -> Option<Vec<u8>> {
    match answer {
        Answer::Written(length) => assert_eq!(said.unwrap().bytes(), &out[..length]),
        refusal => assert_eq!(said.err(), number(refusal).err()),
    }
    said.ok().map(|line| line.bytes().to_vec())
}

/// The stores of a call of the second program that change a word, in order,
/// its answer and session.
fn stores(
    words: &Words,
    session: &HeadSession,
    call: impl Fn(&mut [u64], HeadSession, u64) -> (Answer, HeadSession),
) -> (Puts, Answer, HeadSession) {
    let (mut puts, mut last) = (Puts::new(), *words);
    for budget in 0.. {
        let mut now = *words;
        let (answer, session) = call(&mut now, session.clone(), budget);
        let changed: Vec<usize> = (0..WORDS).filter(|i| now[*i] != last[*i]).collect();
        assert!(changed.len() < 2);
        puts.extend(changed.iter().map(|i| (*i, now[*i])));
        last = now;
        if answer != Answer::Cut {
            return (puts, answer, session);
        }
    }
    unreachable!("a call ends")
}

/// One view: its members enter, tell, decide, attempt and form, with losses.
fn round(twins: &mut [Twin], tally: &mut Tally, rng: &mut Rng, view: u32) {
    let members = rng.range(1, (1 << twins.len()) - 1) as u16;
    for twin in twins.iter_mut() {
        // A view that is not above the last, and a head outside M, are refused.
        let view = if rng.one_in(20) { view - 1 } else { view };
        twin.storing(
            tally,
            rng,
            Kind::Enter,
            |head| head.enter(view, members).map(|()| None),
            |words, session, budget| calls::enter(words, session, view, members, budget),
        );
    }
    let states: Vec<Vec<u8>> = twins.iter_mut().filter_map(Twin::state_line).collect();
    for twin in twins.iter_mut() {
        let heard = states.iter().filter(|_| !rng.one_in(30));
        heard.for_each(|line| twin.hear_state(line));
        let decide = |head: &mut Head<Flash>| head.decide().map(Some);
        twin.storing(tally, rng, Kind::Decide, decide, calls::decide);
    }
    let attempts: Vec<Vec<u8>> = twins.iter_mut().filter_map(Twin::attempt_line).collect();
    for twin in twins.iter_mut() {
        let heard = attempts.iter().filter(|_| !rng.one_in(12));
        heard.for_each(|line| twin.hear_attempt(line));
        let form = |head: &mut Head<Flash>| head.form().map(|()| None);
        twin.storing(tally, rng, Kind::Form, form, calls::form);
    }
}

#[test]
fn heads_are_as_the_second_program() {
    let mut tally = Tally::default();
    let mut rng = Rng::new(2026);
    for _ in 0..400 {
        let count = rng.range(1, 5) as u8;
        let core = rng.range(1, (1 << count) - 1) as u16;
        let mut twins: Vec<Twin> = (0..count).map(|own| Twin::start(own, core, 1)).collect();
        for view in 1..=20 {
            round(&mut twins, &mut tally, &mut rng, view);
        }
    }
    let everywhere = |kind, lengths: &[usize]| {
        for length in lengths {
            assert!(
                tally.cut_everywhere(kind, *length),
                "{kind:?} of {length} words"
            );
        }
    };
    everywhere(Kind::Enter, &[1]);
    everywhere(Kind::Decide, &[1, 2, 3, 4, 5, 6, 7, 8]);
    everywhere(Kind::Form, &[3, 4, 5, 6, 7]);
    everywhere(Kind::Recover, &[1, 2, 3, 4, 5]);
    for answer in [
        Answer::Attempted,
        Answer::NoQuorum,
        Answer::Formed,
        Answer::Entered,
    ] {
        assert!(
            tally.answers.get(&answer).is_some_and(|met| *met > 300),
            "{answer:?}"
        );
    }
}
