//! Histories for a bench, from a seed. The world is followed on `second`'s
//! bench, so that most events are useful: heads enter views, lines reach them,
//! they decide and form, and views change under them.

use crate::bench_damage::{kinds, tails, Damage, VERY_LONG};
use crate::bench_events::{head_of, write_event};
use crate::bench_met::Met;
use crate::rng::Rng;
use second::bench::{Bench, Event, VIEWS};
use second::calls::decide_stores;
use second::group::{has, heads_in, size, Set, HEADS, PLACES};
use second::head_session::Stage;
use second::record::{whole, PLACE, VIEW};
use second::stores::recovery_stores;

/// A history and what `second` prints for it.
pub struct History {
    /// The lines, each with its newline but perhaps the last.
    pub lines: Vec<Vec<u8>>,
    pub expected: Vec<u8>,
}

/// How a history goes on. A chance of n is one in n.
struct Manner {
    events: usize,
    /// Heads 0 to this less 1 move.
    heads: usize,
    /// New views at any time.
    views: u64,
    /// New views just after a head has decided or formed.
    unrest: u64,
    /// A call of the four is armed.
    cuts: u64,
    /// Any event, whatever the world is like.
    wild: u64,
    damage: u64,
}

impl Manner {
    fn of(rng: &mut Rng, events: usize) -> Manner {
        Manner {
            events,
            heads: match rng.below(8) {
                0 => rng.range(1, 16),
                1 => 2,
                _ => rng.range(2, 6),
            } as usize,
            views: rng.pick(&[25, 60, 150, 400]),
            unrest: rng.pick(&[3, 10, 30, 1000]),
            cuts: rng.pick(&[4, 12, 40, 400]),
            wild: rng.pick(&[6, 30, 200]),
            damage: rng.pick(&[10, 60, 400]),
        }
    }
}

struct Maker<'a> {
    rng: Rng,
    manner: Manner,
    damages: &'a [Damage],
    bench: Bench,
    history: History,
    met: &'a mut Met,
    /// The view that each head is to be in; 0 if none.
    goals: [u32; HEADS],
    /// The heads whose record may not be whole.
    was_cut: [bool; HEADS],
    last_view: u32,
    error: Option<String>,
}

/// The names of all damages, as they are noted.
pub fn damage_names() -> Vec<String> {
    let all = kinds();
    let damaged = all.iter().map(|d| format!("damage: {}", d.name));
    let ends = tails(b"1400");
    let ends = ends
        .iter()
        .map(|(name, _)| format!("without newline: {name}"));
    damaged.chain(ends).collect()
}

/// The history of a number, from the seed of all.
pub fn history(seed: u64, number: u64, met: &mut Met) -> Result<History, String> {
    let mut rng = Rng::new(seed.wrapping_mul(1_000_003).wrapping_add(number));
    let damages = kinds();
    let events = match number % 100 {
        // Few are very long, so that the time is spent on many.
        99 if number % 1000 == 599 => 20_000,
        0..=9 => rng.range(300, 1500),
        10..=11 => rng.range(1500, 2500),
        _ => rng.range(20, 260),
    };
    let manner = Manner::of(&mut rng, events as usize);
    let mut maker = Maker {
        rng,
        manner,
        damages: &damages,
        bench: Bench::default(),
        history: History {
            lines: Vec::new(),
            expected: Vec::new(),
        },
        met,
        goals: [0; HEADS],
        was_cut: [false; HEADS],
        last_view: 0,
        error: None,
    };
    maker.make(number);
    match maker.error {
        Some(error) => Err(error),
        None => Ok(maker.history),
    }
}

/// The first two sessions, if any, that break the chain: formed sessions have
/// numbers of their own, and each shares a head with the one before.
fn broken_chain(bench: &Bench) -> Option<String> {
    let mut all = bench.formed.clone();
    all.sort_by_key(|s| s.number);
    let (mut heads, mut number) = (bench.w0, 0);
    for session in all {
        if session.number == number || session.heads & heads == 0 {
            return Some(format!(
                "a history of second broke the chain: {heads:04x} {number} then {:04x} {}",
                session.heads, session.number
            ));
        }
        (heads, number) = (session.heads, session.number);
    }
    None
}

impl Maker<'_> {
    fn make(&mut self, number: u64) {
        if number % 50 == 20 {
            self.without_group();
        } else {
            self.begin();
            match number % 100 {
                30 => self.many_views(),
                40 | 41 => self.lone_attempt(),
                _ => {}
            }
            while self.history.lines.len() < self.manner.events {
                self.step();
            }
            if self.manner.events >= 20_000 {
                self.met.note("history: huge");
            }
        }
        if number % 3 == 0 {
            self.tail();
        }
        let sessions = self.bench.sessions();
        self.history.expected.extend(sessions.into_bytes());
        self.met.end(&self.bench);
        if let Some(broken) = broken_chain(&self.bench) {
            self.error = Some(broken);
        }
    }

    fn line(&mut self, line: Vec<u8>) -> String {
        let said = self.met.take(&mut self.bench, &line);
        self.history.expected.extend(said.as_bytes());
        self.history.lines.push(line);
        said
    }

    fn put(&mut self, event: Event) -> String {
        let said = self.line(write_event(&event));
        if let ("cut\n", Some(head)) = (said.as_str(), head_of(event)) {
            self.was_cut[head] = true;
        }
        said
    }

    /// A line that is known to be no event: anything but 3 is an error of
    /// `second` or of this generator.
    fn no_event(&mut self, name: String, line: Vec<u8>) {
        let shown = line.escape_ascii().to_string();
        self.met.note(&name);
        let said = self.line(line);
        if said != "R 3\n" {
            self.error = Some(format!("{name}: second says {said:?} of {shown}"));
        }
    }

    fn damaged(&mut self) {
        let kind = &self.damages[self.rng.index(self.damages.len())];
        if kind.name == VERY_LONG && !self.rng.one_in(8) {
            return;
        }
        let mut good = write_event(&self.any_event());
        good.pop();
        let line = (kind.make)(&mut self.rng, &good);
        self.no_event(format!("damage: {}", kind.name), line);
    }

    /// Last bytes without newline.
    fn tail(&mut self) {
        let mut good = write_event(&self.any_event());
        good.pop();
        let mut all = tails(&good);
        let (name, bytes) = all.swap_remove(self.rng.index(all.len()));
        self.no_event(format!("without newline: {name}"), bytes);
    }

    // -------------------------------------------------------- the beginning

    /// Perhaps some lines before the group line, then the group line.
    fn begin(&mut self) {
        if self.rng.one_in(4) {
            for _ in 0..self.rng.range(1, 12) {
                self.before_group();
            }
        }
        let (w0, q) = self.group();
        self.put(Event::Group { w0, q });
        self.last_view = match self.rng.below(30) {
            0 => u32::MAX - self.rng.below(200) as u32,
            1..=4 => self.rng.next() as u32 / 2,
            _ => 0,
        };
    }

    fn before_group(&mut self) {
        let event = self.any_event();
        if self.rng.one_in(3) || matches!(event, Event::Group { .. }) {
            self.damaged();
        } else {
            self.put(event);
        }
    }

    fn without_group(&mut self) {
        for _ in 0..self.rng.range(0, 60) {
            self.before_group();
        }
        self.met.note("history: no group line");
    }

    /// A core group that start takes, mostly of heads that move.
    fn group(&mut self) -> (Set, u8) {
        let moving = self.moving();
        let w0 = match self.rng.below(8) {
            0..=4 => moving,
            5 | 6 => self.rng.set() & moving,
            _ => self.rng.set(),
        };
        let w0 = if w0 == 0 { moving } else { w0 };
        let q = match self.rng.below(4) {
            0 => 0,
            1 => self.rng.range(1, size(w0) as u64),
            _ => 1,
        };
        (w0, q as u8)
    }

    fn moving(&self) -> Set {
        ((1u32 << self.manner.heads) - 1) as Set
    }

    /// Announces views until there are 1,000, with some events between, and
    /// then some more.
    fn many_views(&mut self) {
        while self.bench.views.len() < VIEWS {
            self.announce(self.moving());
            if self.rng.one_in(20) {
                self.step();
            }
        }
        for _ in 0..20 {
            self.announce(self.moving());
            self.step();
        }
        // The last views that were taken are entered.
        let number = self.bench.views[VIEWS - 1].0;
        self.put(Event::Enter {
            head: 0,
            view: number,
        });
        self.manner.events += self.history.lines.len();
    }

    /// One head alone attempts a session, clears it in the next view, and
    /// attempts again, while the others of that view still weigh it as they
    /// heard of it and are closed: its attempt line then meets closed sessions.
    fn lone_attempt(&mut self) {
        let core = heads_in(self.bench.w0);
        let others = heads_in(!self.bench.w0);
        // A majority of the core with heads outside it, of which half and not
        // the highest are in the next view.
        let keep = core.len() / 2 + 1;
        if core.len() < 3 || others.len() < 2 * keep {
            return;
        }
        let first: Set = core[..keep].iter().chain(&others).map(|h| 1 << h).sum();
        let half = size(first) as usize / 2;
        let shared = [&core[..1], &others[..half - 1]].concat();
        let next: Set = shared.iter().chain(&core[keep..]).map(|h| 1 << h).sum();
        let view = self.announce(first);
        self.enter_all(first, view);
        self.bring_all(core[0], first, view);
        self.put(Event::Decide { head: core[0] });
        let view = self.announce(next);
        self.enter_all(next, view);
        for head in heads_in(next) {
            self.bring_all(head, next, view);
            self.put(Event::Decide { head });
        }
        for to in heads_in(next) {
            let from = core[0];
            self.put(Event::DeliverAttempt { to, from, which: 0 });
        }
    }

    fn enter_all(&mut self, heads: Set, view: u32) {
        for head in heads_in(heads) {
            self.put(Event::Enter { head, view });
        }
    }

    /// Brings the states of a view to a head.
    fn bring_all(&mut self, to: usize, heads: Set, view: u32) {
        for from in heads_in(heads & !(1 << to)) {
            self.bring(to, view, 1 << from, b"01");
        }
    }

    // ---------------------------------------------------------- the events

    fn step(&mut self) {
        if self.rng.one_in(self.manner.damage) {
            self.damaged();
        } else if self.rng.one_in(self.manner.wild) {
            let event = self.any_event();
            self.put(event);
        } else if self.rng.one_in(self.manner.views) {
            self.part();
        } else {
            self.useful();
        }
    }

    /// The next view, mostly of a higher number than all before.
    fn announce(&mut self, heads: Set) -> u32 {
        let step = match self.rng.below(30) {
            0 => self.rng.range(2, 5000) as u32,
            _ => 1,
        };
        let number = if self.rng.one_in(60) {
            self.odd_view()
        } else {
            // Heads may have entered views that were not meant for them; those
            // at the very end are given up.
            let entered = self.bench.heads.iter().map(|h| h.record[VIEW] as u32);
            let highest = entered.filter(|&v| v < u32::MAX - 100_000).max();
            let highest = self.last_view.max(highest.unwrap_or(0));
            self.last_view = highest.wrapping_add(step);
            self.last_view
        };
        self.put(Event::View { number, heads });
        number
    }

    /// The number of a view that may be low, far off, or announced already.
    fn odd_view(&mut self) -> u32 {
        match self.rng.below(8) {
            0 => self.rng.number(),
            1 => 0,
            _ => self
                .last_view
                .wrapping_add(3)
                .wrapping_sub(self.rng.below(7) as u32),
        }
    }

    /// The heads part: each part is to enter a view of its own.
    fn part(&mut self) {
        let count = self.rng.pick(&[1, 1, 2, 2, 3]);
        let mut parts: Vec<Set> = vec![0; count];
        for head in 0..self.manner.heads {
            let part = self.rng.index(count);
            parts[part] |= 1 << head;
        }
        for part in parts {
            if part == 0 && !self.rng.one_in(8) {
                continue;
            }
            let view = self.announce(part);
            for head in heads_in(part) {
                // Some heads do not see that the view has changed.
                if !self.rng.one_in(12) {
                    self.goals[head] = view;
                }
            }
        }
    }

    /// An event that brings some head on; new views if there is none.
    fn useful(&mut self) {
        let count = self.manner.heads;
        let first = self.rng.index(count);
        let did = (0..count).any(|i| self.bring_on((first + i) % count));
        if !did && self.bench.views.len() < VIEWS {
            self.part();
        } else if !did {
            let event = self.any_event();
            self.put(event);
        }
    }

    /// An event that brings this head on; false if there is none.
    fn bring_on(&mut self, head: usize) -> bool {
        let state = &self.bench.heads[head];
        if self.was_cut[head] && !whole(&state.record) {
            return self.mend(head);
        }
        self.was_cut[head] = false;
        let session = &state.session;
        let view = session.view;
        let states = session.members & !session.states_heard;
        let attempts = session.members & !session.attempts_heard;
        let goal = self.goals[head];
        // A head that has attempted may go on in its view for a while.
        let lags = session.stage == Stage::Attempted && self.rng.one_in(2);
        if goal as u64 > state.record[VIEW] && !lags {
            return self.call(head, Event::Enter { head, view: goal }, 1);
        }
        match session.stage {
            Stage::Undecided if states != 0 => {
                self.rng.one_in(8) && self.bring(head, view, attempts, b"02")
                    || self.bring(head, view, states, b"01")
            }
            Stage::Undecided => {
                let stores = decide_stores(&state.record, session).map_or(0, |s| s.len());
                self.call(head, Event::Decide { head }, stores)
            }
            Stage::Attempted if attempts != 0 => self.bring(head, view, attempts, b"02"),
            Stage::Attempted => {
                let places = &state.record[PLACE..PLACE + PLACES];
                let used = places.iter().filter(|&&word| word != 0).count();
                let stores = 1 + size(session.members) as usize + 2 * used;
                self.call(head, Event::Form { head }, stores)
            }
            _ => false,
        }
    }

    /// Brings a line of the wanted kind and view from one of the heads; false
    /// if none of them has sent one that is kept.
    fn bring(&mut self, to: usize, view: u32, from: Set, kind: &[u8; 2]) -> bool {
        let begin = [&kind[..], format!("{view:08x}").as_bytes()].concat();
        let first = self.rng.index(HEADS);
        for from in (0..HEADS)
            .map(|i| (first + i) % HEADS)
            .filter(|&h| has(from, h))
        {
            let sent = &self.bench.heads[from].sent;
            let Some(which) = sent.iter().position(|line| line.starts_with(&begin)) else {
                continue;
            };
            let which = which as u8;
            match kind {
                b"01" => self.put(Event::DeliverState { to, from, which }),
                _ => self.put(Event::DeliverAttempt { to, from, which }),
            };
            return true;
        }
        false
    }

    /// A cut head recovers, mostly; some calls come before it has.
    fn mend(&mut self, head: usize) -> bool {
        if self.rng.one_in(3) {
            let event = match self.rng.below(5) {
                0 => Event::Decide { head },
                1 => Event::Form { head },
                2 => Event::DeliverState {
                    to: head,
                    from: self.rng.index(HEADS),
                    which: 0,
                },
                3 => Event::DeliverAttempt {
                    to: head,
                    from: self.rng.index(HEADS),
                    which: 0,
                },
                _ => Event::Enter {
                    head,
                    view: self.some_view(),
                },
            };
            self.put(event);
        } else {
            let stores = recovery_stores(&self.bench.heads[head].record).len();
            if self.rng.one_in(3) {
                self.arm(head, stores);
            }
            self.put(Event::Recover { head });
        }
        true
    }

    /// Enter, decide or form, which may be armed before. It makes about so
    /// many stores. Views may change just after it.
    fn call(&mut self, head: usize, event: Event, stores: usize) -> bool {
        // Calls of many stores are fewer and have more to be cut.
        let cuts = match stores {
            0..=3 => self.manner.cuts,
            _ => self.manner.cuts / 3 + 1,
        };
        if self.rng.one_in(cuts) {
            self.arm(head, stores);
        }
        let said = self.put(event);
        if said.starts_with("R ") {
            self.goals[head] = 0;
        }
        if said != "entered\n" && self.rng.one_in(self.manner.unrest) {
            self.part();
        }
        true
    }

    fn arm(&mut self, head: usize, stores: usize) {
        for _ in 0..1 + self.rng.below(8) / 7 {
            let stores = match self.rng.below(12) {
                0 => self.rng.pick(&[0, 255, 256, 65_535]),
                _ => self.rng.below(stores as u64 + 2) as u16,
            };
            self.put(Event::Cut { head, stores });
        }
        // What comes between may use it up, or not.
        match self.rng.below(16) {
            0 => self.damaged(),
            1 => {
                let view = self.rng.number();
                self.put(Event::Enter { head, view });
            }
            2 => {
                self.put(Event::Form { head });
            }
            3 => {
                let which = self.rng.pick(&[0, 0, 4]);
                let from = self.rng.index(HEADS);
                self.put(Event::DeliverState {
                    to: head,
                    from,
                    which,
                });
            }
            _ => {}
        }
    }

    /// The number of a view, mostly one that was announced.
    fn some_view(&mut self) -> u32 {
        let count = self.bench.views.len();
        if count == 0 || self.rng.one_in(6) {
            return self.rng.number();
        }
        let newest = count - 1 - self.rng.index(count.min(4));
        match self.rng.below(3) {
            0 => self.bench.views[self.rng.index(count)].0,
            _ => self.bench.views[newest].0,
        }
    }

    fn some_head(&mut self) -> usize {
        match self.rng.below(6) {
            0 => self.rng.index(HEADS),
            _ => self.rng.index(self.manner.heads),
        }
    }

    /// Any event of the form, in its place or not.
    fn any_event(&mut self) -> Event {
        match self.rng.below(20) {
            0..=2 => self.any_of_the_world(),
            3..=10 => self.any_delivery(),
            _ => self.any_call(),
        }
    }

    fn any_of_the_world(&mut self) -> Event {
        let (w0, q) = self.group();
        let number = match self.rng.below(2) {
            0 => self.some_view(),
            _ => self.odd_view(),
        };
        let heads = self.rng.set() & self.rng.set();
        match self.rng.below(3) {
            0 => Event::Group { w0, q },
            _ => Event::View { number, heads },
        }
    }

    fn any_delivery(&mut self) -> Event {
        let to = self.some_head();
        let from = self.some_head();
        let which = match self.rng.below(8) {
            0 => self.rng.next() as u8,
            _ => self.rng.below(5) as u8,
        };
        match self.rng.below(2) {
            0 => Event::DeliverState { to, from, which },
            _ => Event::DeliverAttempt { to, from, which },
        }
    }

    /// One of the four calls, or a cut of one.
    fn any_call(&mut self) -> Event {
        let head = self.some_head();
        let view = self.some_view();
        let few = self.rng.below(12) as u16;
        let stores = self.rng.pick(&[few, few, 256, 65_535]);
        match self.rng.below(9) {
            0 | 1 => Event::Enter { head, view },
            2 | 3 => Event::Decide { head },
            4 | 5 => Event::Form { head },
            6 | 7 => Event::Cut { head, stores },
            _ => Event::Recover { head },
        }
    }
}
