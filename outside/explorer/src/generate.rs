//! The next event of a random history: mostly one that brings a head on.

use crate::event::{Budget, Event, Kind};
use crate::manner::Manner;
use crate::rounds::Rounds;
use crate::world::World;
use compare::rng::Rng;
use second::group::heads_in;
use second::head_session::Stage;
use second::record::VIEW;

pub struct Generator<'m> {
    pub rng: Rng,
    manner: &'m Manner,
    /// What comes next, the last first.
    queue: Vec<Event>,
    rounds: Rounds,
    /// One event in so many announces views.
    pace: u64,
    /// Settles which lines are lost.
    salt: u64,
}

impl<'m> Generator<'m> {
    pub fn new(manner: &'m Manner, mut rng: Rng, heads: usize) -> Generator<'m> {
        let n = heads as u64;
        let pace = rng.pick(&[2 * n + 2, n * n + 4, 2 * n * n + 4, 4 * n * n + 4]);
        let salt = rng.next();
        Generator {
            rng,
            manner,
            queue: Vec::new(),
            rounds: Rounds::new(manner.cut, manner.pile),
            pace,
            salt,
        }
    }

    /// One that goes its own way from here.
    pub fn fork(&mut self) -> Generator<'m> {
        Generator {
            rng: Rng::new(self.rng.next()),
            manner: self.manner,
            queue: self.queue.clone(),
            rounds: Rounds::new(self.manner.cut, self.manner.pile),
            pace: self.pace,
            salt: self.rng.next(),
        }
    }

    pub fn next(&mut self, world: &World) -> Event {
        if self.manner.rounds && self.queue.is_empty() {
            self.queue = self.rounds.next(&mut self.rng, world);
        }
        if let Some(event) = self.queue.pop() {
            return event;
        }
        if world.views.is_empty() || self.rng.one_in(self.pace) {
            return self.announce(world);
        }
        if self.rng.one_in(self.manner.noise) {
            return self.noise(world);
        }
        let first = self.rng.index(world.heads.len());
        for i in 0..world.heads.len() {
            let head = ((first + i) % world.heads.len()) as u8;
            if let Some(event) = self.useful(world, head) {
                return event;
            }
        }
        self.announce(world)
    }

    /// The heads part, and some of the parts get a view.
    fn announce(&mut self, world: &World) -> Event {
        let n = world.heads.len();
        let all = ((1u32 << n) - 1) as u16;
        let parts = self.rng.pick(&[1, 1, 2, 2, 3]);
        let mut of = vec![0u16; parts];
        for h in 0..n {
            of[self.rng.index(parts)] |= 1 << h;
        }
        match self.rng.below(6) {
            0 => of = vec![all],
            1 => of = vec![all & self.rng.next() as u16],
            _ => {}
        }
        let mut view = world.views.keys().next_back().map_or(1, |v| v + 1);
        for heads in of {
            if heads != 0 && !self.rng.one_in(5) {
                self.queue.push(Event::View { view, heads });
                view += 1;
            }
        }
        self.queue.reverse();
        self.queue.pop().unwrap_or(Event::View { view, heads: all })
    }

    fn lost(&self, kind: Kind, view: u32, from: u8, to: u8) -> bool {
        let mut of_view = Rng::new(self.salt ^ (view as u64) << 20 ^ kind as u64);
        let chance = of_view.pick(match kind {
            Kind::State => self.manner.lost_states,
            Kind::Attempt => self.manner.lost_attempts,
        });
        let pair = (from as u64) << 8 | to as u64;
        Rng::new(of_view.next() ^ pair).below(100) < chance
    }

    /// A line of this view that the head has not heard and that is not lost.
    fn unheard(&mut self, world: &World, head: u8, kind: Kind) -> Option<Event> {
        let session = &world.heads[head as usize].session;
        let heard = match kind {
            Kind::State => session.states_heard,
            Kind::Attempt => session.attempts_heard,
        };
        let view = session.view;
        let there: Vec<u8> = heads_in(session.members & !heard)
            .into_iter()
            .map(|q| q as u8)
            .filter(|&q| world.sent.contains_key(&(view, kind, q)))
            .filter(|&q| !self.lost(kind, view, q, head))
            .collect();
        if there.is_empty() {
            return None;
        }
        let from = self.rng.pick(&there);
        Some(Event::Deliver {
            line: kind,
            ear: kind,
            view,
            from,
            to: head,
        })
    }

    /// A view the head may enter, mostly the newest.
    fn enter(&mut self, world: &World, head: u8) -> Option<Event> {
        let entered = world.heads[head as usize].record[VIEW];
        let mut view = world.newest_view(head)?;
        if view as u64 <= entered {
            return None;
        }
        if self.rng.one_in(4) {
            let later = world.views.range(entered as u32 + 1..);
            let open: Vec<u32> = later
                .filter(|(_, &m)| m >> head & 1 == 1)
                .map(|(&v, _)| v)
                .collect();
            view = self.rng.pick(&open);
        }
        let budget = self.budget(1);
        Some(Event::Enter { head, view, budget })
    }

    /// An event that brings the head on, if there is one.
    fn useful(&mut self, world: &World, head: u8) -> Option<Event> {
        let now = &world.heads[head as usize];
        if now.is_torn() && self.rng.one_in(6) {
            return Some(self.noise_of(world, head));
        }
        if now.is_torn() || (now.cut.is_some() && self.rng.one_in(2)) {
            let budget = self.budget(3 + now.places_in_use() as u64);
            return Some(Event::Recover { head, budget });
        }
        if self.rng.one_in(4) {
            if let Some(event) = self.enter(world, head) {
                return Some(event);
            }
        }
        let session = &now.session;
        let used = now.places_in_use() as u64;
        let members = session.members.count_ones() as u64;
        let brought = match session.stage {
            Stage::Undecided if self.rng.one_in(6) => self.unheard(world, head, Kind::Attempt),
            Stage::Undecided if session.states_heard == session.members => {
                // Last formed words are stored only if it adopts.
                let adoption = if self.rng.one_in(3) { members + 2 } else { 0 };
                let budget = self.budget(2 + 3 * used + adoption);
                Some(Event::Decide { head, budget })
            }
            Stage::Undecided => self.unheard(world, head, Kind::State),
            Stage::Attempted if session.attempts_heard == session.members => {
                let budget = self.budget(1 + members + 2 * used);
                Some(Event::Form { head, budget })
            }
            Stage::Attempted => self.unheard(world, head, Kind::Attempt),
            Stage::Closed => self.unheard(world, head, Kind::Attempt),
            Stage::None | Stage::Formed => None,
        };
        brought.or_else(|| self.enter(world, head))
    }

    /// No limit, or at times any number below what the call may need.
    fn budget(&mut self, may_need: u64) -> Budget {
        if self.rng.one_in(self.manner.cut) {
            Some(self.rng.below(may_need) as u16)
        } else {
            None
        }
    }

    fn noise(&mut self, world: &World) -> Event {
        let head = self.rng.index(world.heads.len()) as u8;
        self.noise_of(world, head)
    }

    /// A late or repeated line, a call out of turn, a stop.
    fn noise_of(&mut self, world: &World, head: u8) -> Event {
        let from = self.rng.index(world.heads.len()) as u8;
        let last = world.views.keys().next_back().copied().unwrap_or(1);
        let back = self.rng.pick(&[0, 0, 1, 2, 5]);
        let view = last.saturating_sub(back).max(1);
        let kind = self.rng.pick(&[Kind::State, Kind::Attempt]);
        let other = self.rng.pick(&[Kind::State, Kind::Attempt]);
        let budget = self.budget(4);
        match self.rng.below(12) {
            0..=4 => Event::Deliver {
                line: kind,
                ear: kind,
                view,
                from,
                to: head,
            },
            5 => Event::Deliver {
                line: kind,
                ear: other,
                view,
                from,
                to: head,
            },
            6 => Event::Enter { head, view, budget },
            7 => Event::Decide { head, budget },
            8 => Event::Form { head, budget },
            9 => Event::Recover { head, budget },
            10 => Event::Stop { head },
            _ => Event::Write {
                kind,
                head,
                room: self.rng.pick(&[0, 12, 13, 14, 418, 419, 430]),
            },
        }
    }
}
