//! A head with one slip, to show that the explorer finds it. Decide and
//! recover are written here from document 01, so that a slip can stand in the
//! midst of them; the other calls are those of `second`.

use crate::call::Record;
use compare::side::{Second, Side};
use second::answers::Answer;
use second::group::{has, heads_in, highest_head, single, size};
use second::head_session::{HeadSession, Held, Stage};
use second::lines::Frame;
use second::record::{start_with_none, FORMED, MARKS, NUMBER, PLACE, PRIMARY, VIEW, WORDS};

#[derive(Clone, Copy, PartialEq, Eq, Debug)]
pub enum Slip {
    /// As document 01 has it.
    None,
    /// An attempt clears all other places.
    KeepsLatest,
    /// Decide begins with dropping all places but the latest.
    DropsAfterLater,
    /// A tie goes to the lowest head.
    TieLowest,
    /// Half is enough, with no tie to break.
    HalfPasses,
    /// Marks also a head whose last formed is S itself.
    MarksAtOrBelow,
    /// Under c, a head that doesn't list S is enough.
    ClearsUnlisted,
    /// Nothing is cleared under c.
    KeepsUnderC,
    /// Adoption leaves the places.
    AdoptsWithPlaces,
    /// Form leaves the places.
    FormsWithPlaces,
    /// A view can be entered twice.
    EntersTwice,
    /// A refused decide ends the session.
    ForgetsWhenRefused,
    /// Core heads start with none.
    StartsWithNone,
    /// Recovery doesn't raise word 2.
    RecoversWithoutStep1,
    /// Recovery doesn't set last formed.
    RecoversWithoutStep2,
    /// Recovery doesn't zero places.
    RecoversWithoutStep3,
    /// Recovery doesn't zero marks.
    RecoversWithoutStep4,
}

pub const SLIPS: [(&str, Slip); 17] = [
    ("none", Slip::None),
    ("keeps-latest", Slip::KeepsLatest),
    ("drops-after-later", Slip::DropsAfterLater),
    ("tie-lowest", Slip::TieLowest),
    ("half-passes", Slip::HalfPasses),
    ("marks-at-or-below", Slip::MarksAtOrBelow),
    ("clears-unlisted", Slip::ClearsUnlisted),
    ("keeps-under-c", Slip::KeepsUnderC),
    ("adopts-with-places", Slip::AdoptsWithPlaces),
    ("forms-with-places", Slip::FormsWithPlaces),
    ("enters-twice", Slip::EntersTwice),
    ("forgets-when-refused", Slip::ForgetsWhenRefused),
    ("starts-with-none", Slip::StartsWithNone),
    ("recovers-without-step-1", Slip::RecoversWithoutStep1),
    ("recovers-without-step-2", Slip::RecoversWithoutStep2),
    ("recovers-without-step-3", Slip::RecoversWithoutStep3),
    ("recovers-without-step-4", Slip::RecoversWithoutStep4),
];

pub struct Slipped(pub Slip);

fn number(word: u64) -> i64 {
    if word == 0 {
        -1
    } else {
        (word >> 16) as i64
    }
}

fn heads(word: u64) -> u16 {
    word as u16
}

/// A record as the stores go on, and the stores.
struct Plan {
    now: Record,
    stores: Vec<(usize, u64)>,
}

impl Plan {
    fn new(record: &[u64]) -> Plan {
        let mut now = [0; WORDS];
        now.copy_from_slice(record);
        Plan {
            now,
            stores: Vec::new(),
        }
    }

    fn store(&mut self, word: usize, value: u64) {
        self.now[word] = value;
        self.stores.push((word, value));
    }

    fn change(&mut self, word: usize, value: u64) {
        if self.now[word] != value {
            self.store(word, value);
        }
    }

    fn clear(&mut self, place: usize) {
        self.store(PLACE + place, 0);
        self.store(MARKS + place, 0);
    }

    fn used(&self) -> Vec<usize> {
        (0..16).filter(|&i| self.now[PLACE + i] != 0).collect()
    }

    /// Makes the stores; true if the budget was enough.
    fn make(&self, record: &mut [u64], budget: u64) -> bool {
        for &(word, value) in self.stores.iter().take(budget.min(1000) as usize) {
            record[word] = value;
        }
        self.stores.len() as u64 <= budget
    }
}

/// What decide looks at.
struct Deciding<'s> {
    slip: Slip,
    own: usize,
    members: u16,
    others: Vec<(usize, &'s Held)>,
}

impl Deciding<'_> {
    /// Only a slip.
    fn drop_earlier(&self, plan: &mut Plan) {
        let mut used = plan.used();
        used.sort_by_key(|&i| number(plan.now[PLACE + i]));
        used.pop();
        if self.slip == Slip::DropsAfterLater {
            used.into_iter().for_each(|i| plan.clear(i));
        }
    }

    fn mark(&self, plan: &mut Plan) {
        for i in plan.used() {
            let s = plan.now[PLACE + i];
            let mut marks = plan.now[MARKS + i];
            for &(q, held) in &self.others {
                let theirs = number(held.last_formed[self.own]);
                let at = self.slip == Slip::MarksAtOrBelow && theirs == number(s);
                if has(heads(s), q) && (theirs < number(s) || at) {
                    marks |= single(q) as u64;
                }
            }
            plan.change(MARKS + i, marks);
        }
    }

    fn adopt(&self, plan: &mut Plan) {
        let mut best = 0;
        for (_, held) in &self.others {
            if number(held.last_formed[self.own]) > number(best) {
                best = held.last_formed[self.own];
            }
        }
        if number(best) <= number(plan.now[PRIMARY]) {
            return;
        }
        plan.store(PRIMARY, best);
        if (plan.now[NUMBER] as i64) < number(best) {
            plan.store(NUMBER, number(best) as u64);
        }
        for q in heads_in(heads(best)) {
            plan.store(FORMED + q, best);
        }
        for i in plan.used() {
            if number(plan.now[PLACE + i]) <= number(best) && self.slip != Slip::AdoptsWithPlaces {
                plan.clear(i);
            }
        }
    }

    fn clear_under_c(&self, plan: &mut Plan) {
        for i in plan.used() {
            let s = plan.now[PLACE + i];
            let to_mark = heads(s) & !single(self.own);
            let all_marked = to_mark & !(plan.now[MARKS + i] as u16) == 0;
            let disowned = self.others.iter().any(|&(q, held)| {
                let theirs = held.last_primary;
                let lists = held.places[..held.count as usize].contains(&s);
                let older = number(theirs) < number(s)
                    || (number(theirs) == number(s) && theirs != s)
                    || self.slip == Slip::ClearsUnlisted;
                has(heads(s), q) && !lists && older
            });
            if (all_marked || disowned) && self.slip != Slip::KeepsUnderC {
                plan.clear(i);
            }
        }
    }

    /// Does M pass for the highest primary and all listed above it?
    fn passes(&self, plan: &Plan) -> bool {
        let mut said: Vec<(usize, u64)> = self
            .others
            .iter()
            .map(|&(q, held)| (q, held.last_primary))
            .collect();
        said.push((self.own, plan.now[PRIMARY]));
        said.sort();
        let mut primary = 0;
        for &(_, theirs) in &said {
            if number(theirs) > number(primary) {
                primary = theirs;
            }
        }
        let own = plan.used().into_iter().map(|i| plan.now[PLACE + i]);
        let theirs = self
            .others
            .iter()
            .flat_map(|(_, h)| &h.places[..h.count as usize]);
        let listed = own
            .chain(theirs.copied())
            .filter(|&s| number(s) > number(primary));
        [primary]
            .into_iter()
            .chain(listed)
            .all(|s| self.quorum(plan.now[0], heads(s)))
    }

    fn quorum(&self, group: u64, s: u16) -> bool {
        let (w0, q) = (group as u16, (group >> 16 & 0xff) as u32);
        let core = size(self.members & w0);
        if s == 0 || core < q {
            return false;
        }
        let doubled = 2 * size(s & self.members);
        let breaker = match self.slip {
            Slip::TieLowest => heads_in(s).first().copied(),
            _ => highest_head(s),
        };
        let tie = breaker.is_some_and(|h| has(self.members, h)) || self.slip == Slip::HalfPasses;
        doubled > size(s) || (doubled == size(s) && tie) || core > size(w0) - q
    }

    fn attempt(&self, plan: &mut Plan) -> Answer {
        if !self.passes(plan) {
            return Answer::NoQuorum;
        }
        let theirs = self.others.iter().map(|(_, held)| held.number as u64).max();
        let highest = plan.now[NUMBER].max(theirs.unwrap_or(0));
        if highest >= u32::MAX as u64 {
            return Answer::NumbersRunOut;
        }
        let Some(free) = (0..16).find(|&i| plan.now[PLACE + i] == 0) else {
            return Answer::NoPlace;
        };
        let before = plan.used();
        plan.store(PLACE + free, self.members as u64 | (highest + 1) << 16);
        plan.store(NUMBER, highest + 1);
        if self.slip == Slip::KeepsLatest {
            for i in before {
                plan.clear(i);
            }
        }
        Answer::Attempted
    }
}

/// The steps of recovery, one of them left out by a slip.
fn recovery(slip: Slip, record: &[u64]) -> Plan {
    let mut plan = Plan::new(record);
    let primary = record[PRIMARY];
    let places = PLACE..PLACE + 16;
    if slip != Slip::RecoversWithoutStep1 {
        let greatest = record[places].iter().map(|&w| number(w)).max();
        let greatest = greatest.unwrap_or(-1).max(number(primary)).max(0) as u64;
        plan.change(NUMBER, greatest.max(record[NUMBER]));
    }
    if slip != Slip::RecoversWithoutStep2 {
        for q in heads_in(heads(primary)) {
            plan.change(FORMED + q, primary);
        }
    }
    if slip != Slip::RecoversWithoutStep3 {
        for i in plan.used() {
            if number(plan.now[PLACE + i]) <= number(primary) {
                plan.store(PLACE + i, 0);
            }
        }
    }
    if slip != Slip::RecoversWithoutStep4 {
        for i in (0..16)
            .filter(|&i| plan.now[PLACE + i] == 0)
            .collect::<Vec<_>>()
        {
            plan.change(MARKS + i, 0);
        }
    }
    plan
}

impl Slipped {
    fn decided(&self, record: &mut [u64], session: &mut HeadSession, budget: u64) -> Answer {
        let own = (record[0] >> 24) as usize;
        let others = heads_in(session.members & !single(own));
        let deciding = Deciding {
            slip: self.0,
            own,
            members: session.members,
            others: others.into_iter().map(|q| (q, &session.held[q])).collect(),
        };
        let mut plan = Plan::new(record);
        deciding.drop_earlier(&mut plan);
        deciding.mark(&mut plan);
        deciding.adopt(&mut plan);
        deciding.clear_under_c(&mut plan);
        let answer = deciding.attempt(&mut plan);
        if !plan.make(record, budget) {
            *session = HeadSession::none();
            return Answer::Cut;
        }
        session.stage = match answer {
            Answer::Attempted => Stage::Attempted,
            _ => Stage::Closed,
        };
        answer
    }
}

impl Side for Slipped {
    fn name(&self) -> &'static str {
        "slipped"
    }

    fn quorum_test(&mut self, w0: u16, q: u8, s: u16, t: u16) -> Result<bool, u8> {
        Second.quorum_test(w0, q, s, t)
    }

    fn read(&mut self, bytes: &[u8]) -> (Option<Frame>, usize) {
        Second.read(bytes)
    }

    fn whole(&mut self, record: &[u64]) -> bool {
        Second.whole(record)
    }

    fn start(&mut self, record: &mut [u64], head: u8, w0: u16, q: u8) -> Answer {
        match self.0 {
            Slip::StartsWithNone => start_with_none(record, head, w0, q),
            _ => Second.start(record, head, w0, q),
        }
    }

    fn recover(&mut self, record: &mut [u64], budget: u64) -> Answer {
        if recovery(self.0, record).make(record, budget) {
            Answer::Recovered
        } else {
            Answer::Cut
        }
    }

    fn enter(
        &mut self,
        record: &mut [u64],
        session: &mut HeadSession,
        view: u32,
        members: u16,
        budget: u64,
    ) -> Answer {
        if self.0 == Slip::EntersTwice && view != 0 && view as u64 == record[VIEW] {
            record[VIEW] -= 1;
            *session = HeadSession::none();
        }
        Second.enter(record, session, view, members, budget)
    }

    fn hear_state(&mut self, record: &mut [u64], session: &mut HeadSession, line: &[u8]) -> Answer {
        Second.hear_state(record, session, line)
    }

    fn hear_attempt(
        &mut self,
        record: &mut [u64],
        session: &mut HeadSession,
        line: &[u8],
    ) -> Answer {
        Second.hear_attempt(record, session, line)
    }

    fn decide(&mut self, record: &mut [u64], session: &mut HeadSession, budget: u64) -> Answer {
        // Refusals come first, and they are those of second.
        let mut copy = record.to_vec();
        match Second.decide(&mut copy, &mut session.clone(), 0) {
            refused @ Answer::Refused(_) => {
                if self.0 == Slip::ForgetsWhenRefused {
                    *session = HeadSession::none();
                }
                refused
            }
            _ => self.decided(record, session, budget),
        }
    }

    fn form(&mut self, record: &mut [u64], session: &mut HeadSession, budget: u64) -> Answer {
        let before = record.to_vec();
        let answer = Second.form(record, session, budget);
        if self.0 == Slip::FormsWithPlaces && answer == Answer::Formed {
            record[PLACE..].copy_from_slice(&before[PLACE..]);
        }
        answer
    }

    fn write_state(
        &mut self,
        record: &mut [u64],
        session: &mut HeadSession,
        output: &mut [u8],
    ) -> Answer {
        Second.write_state(record, session, output)
    }

    fn write_attempt(
        &mut self,
        record: &mut [u64],
        session: &mut HeadSession,
        output: &mut [u8],
    ) -> Answer {
        Second.write_attempt(record, session, output)
    }
}
