//! Histories by rounds: a view, who enters it, who decides, who forms. They
//! are short, most of their events bring a head on, and views are mostly ones
//! that can form, so that rare chains of views are met sooner than by events
//! picked singly.

use crate::event::{Budget, Event, Kind};
use crate::world::World;
use compare::rng::Rng;
use second::group::heads_in;
use second::quorum::sub_quorum;
use second::record::PRIMARY;

/// How a world goes by rounds.
pub struct Rounds {
    /// One storing call in so many is given few stores; 0 for none.
    cut: u64,
    /// Views are the core and one other, and few form, so that attempts pass
    /// whatever was attempted before, and pile up.
    pile: bool,
    /// Events of an earlier round that come after the next one.
    held: Vec<Event>,
}

impl Rounds {
    pub fn new(cut: u64, pile: bool) -> Rounds {
        Rounds {
            cut,
            pile,
            held: Vec::new(),
        }
    }

    /// The events of the next round, the last first.
    pub fn next(&mut self, rng: &mut Rng, world: &World) -> Vec<Event> {
        let members = match self.pile {
            true => world.settings.w0 | 1 << rng.index(world.heads.len()),
            false => likely_view(rng, world),
        };
        let view = world.views.keys().next_back().map_or(1, |v| v + 1);
        let mut events = self.round(rng, view, members);
        let late = std::mem::take(&mut self.held);
        if rng.one_in(4) {
            // The view itself is announced now.
            let from = 1 + rng.index(events.len());
            self.held = events.split_off(from);
        }
        events.extend(late);
        events.reverse();
        events
    }

    fn budget(&self, rng: &mut Rng, one_in: u64, may_need: u64) -> Budget {
        if self.cut != 0 && rng.one_in(one_in.max(1)) {
            Some(rng.below(may_need) as u16)
        } else {
            None
        }
    }

    /// Recovery after a call that may have been cut.
    fn recovery(&self, rng: &mut Rng, head: u8, budget: Budget, events: &mut Vec<Event>) {
        if budget.is_none() {
            return;
        }
        if rng.one_in(3) {
            let budget = Some(rng.pick(&[0, 1, 2, 3, 5, 8, 11, 14]));
            events.push(Event::Recover { head, budget });
        }
        events.push(Event::Recover { head, budget: None });
    }

    fn round(&self, rng: &mut Rng, view: u32, members: u16) -> Vec<Event> {
        let mut events = vec![Event::View {
            view,
            heads: members,
        }];
        let entering = match rng.one_in(10) {
            true => members & rng.next() as u16,
            false => members,
        };
        for head in shuffled(rng, entering) {
            events.push(Event::Enter {
                head,
                view,
                budget: None,
            });
        }
        let deciding = match rng.below(6) {
            0..=2 => members,
            3 => members & rng.next() as u16,
            _ => one(rng, members),
        };
        self.decisions(rng, view, members, deciding, &mut events);
        if deciding == members && (!self.pile || rng.one_in(20)) {
            self.forms(rng, view, members, &mut events);
        }
        events
    }

    fn decisions(
        &self,
        rng: &mut Rng,
        view: u32,
        members: u16,
        deciding: u16,
        events: &mut Vec<Event>,
    ) {
        let size = members.count_ones() as u64;
        for head in shuffled(rng, deciding) {
            hear_all(view, Kind::State, members, head, events);
            let may_need = rng.pick(&[3, 6, 8 + size]);
            // One cut decision keeps the others from forming.
            let budget = self.budget(rng, self.cut * size / 4, may_need);
            events.push(Event::Decide { head, budget });
            self.recovery(rng, head, budget, events);
        }
    }

    fn forms(&self, rng: &mut Rng, view: u32, members: u16, events: &mut Vec<Event>) {
        let size = members.count_ones() as u64;
        let forming = match rng.below(6) {
            0 => members,
            1 => members & rng.next() as u16,
            2..=4 => one(rng, members),
            _ => 0,
        };
        for head in shuffled(rng, forming) {
            hear_all(view, Kind::Attempt, members, head, events);
            let budget = self.budget(rng, self.cut, 4 + size);
            events.push(Event::Form { head, budget });
            self.recovery(rng, head, budget, events);
        }
    }
}

fn hear_all(view: u32, kind: Kind, members: u16, to: u8, events: &mut Vec<Event>) {
    for from in heads_in(members & !(1 << to)) {
        events.push(Event::Deliver {
            line: kind,
            ear: kind,
            view,
            from: from as u8,
            to,
        });
    }
}

fn one(rng: &mut Rng, set: u16) -> u16 {
    let heads = heads_in(set);
    1 << heads[rng.index(heads.len())]
}

fn shuffled(rng: &mut Rng, set: u16) -> Vec<u8> {
    let mut heads: Vec<u8> = heads_in(set).into_iter().map(|h| h as u8).collect();
    for i in (1..heads.len()).rev() {
        heads.swap(i, rng.index(i + 1));
    }
    heads
}

/// Heads that pass the quorum test for the highest last primary among them,
/// if a few tries give some.
fn likely_view(rng: &mut Rng, world: &World) -> u16 {
    let all = ((1u32 << world.heads.len()) - 1) as u16;
    let mut members = all;
    for _ in 0..8 {
        let picked = match rng.below(3) {
            0 if world.heads.len() > 6 => all & (rng.next() | rng.next() | rng.next()) as u16,
            _ => all & rng.next() as u16,
        };
        if picked == 0 {
            continue;
        }
        members = picked;
        let primaries = heads_in(members)
            .into_iter()
            .map(|h| world.heads[h].record[PRIMARY]);
        let highest = primaries.max_by_key(|word| word >> 16).unwrap_or(0);
        let settings = &world.settings;
        if sub_quorum(settings.w0, settings.q, highest as u16, members) {
            break;
        }
    }
    members
}
