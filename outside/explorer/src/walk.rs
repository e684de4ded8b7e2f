//! Every history of a small world: all orders of entering, deciding and
//! forming, each call that stores cut at every position.
//!
//! Hearing a line changes no record and sends nothing, so a head hears what it
//! needs just before it decides or forms; a head that goes no further is one
//! that others overtake. A cut is recovered at once, as recovery is the head's
//! own.

use crate::event::{Event, History, Kind, Settings};
use crate::manner::Manner;
use crate::step::{Failure, Runner};
use crate::world::World;
use compare::rng::Rng;
use second::answers::Answer;
use second::group::heads_in;
use second::head_session::Stage;
use second::record::VIEW;
use std::collections::hash_map::DefaultHasher;
use std::collections::HashSet;
use std::hash::{Hash, Hasher};

/// The states of one world that a walk among others looks at.
const STATES: usize = 3000;

type Failed = (History, Failure);

struct Walk<'r, 'a> {
    runner: &'r mut Runner<'a>,
    seen: HashSet<u64>,
    most: usize,
    path: Vec<Event>,
}

/// A world of a few views picked by chance, walked.
pub fn random(runner: &mut Runner, rng: &mut Rng, manner: &Manner) -> Result<(), Failed> {
    let settings = manner.settings(rng);
    let all = (1u64 << settings.heads) - 1;
    let views: Vec<u16> = (0..rng.range(2, 4))
        .map(|_| rng.range(1, all) as u16)
        .collect();
    world(runner, settings, &views, STATES).map(|_| ())
}

/// Walks one world; true if it was walked whole.
pub fn world(
    runner: &mut Runner,
    settings: Settings,
    views: &[u16],
    most: usize,
) -> Result<bool, Failed> {
    let mut world = World::new(settings);
    let announced: Vec<Event> = views
        .iter()
        .zip(1..)
        .map(|(&heads, view)| Event::View { view, heads })
        .collect();
    let mut walk = Walk {
        runner,
        seen: HashSet::new(),
        most,
        path: Vec::new(),
    };
    if let Err(failure) = walk.runner.start(&mut world) {
        return Err(walk.failed(settings, failure));
    }
    for event in announced {
        walk.step(&mut world, event)?;
    }
    walk.from(&world)?;
    Ok(walk.seen.len() < most)
}

/// All worlds of so many heads and views, every W0 and Q among them.
pub fn all(runner: &mut Runner, heads: usize, views: usize) -> Result<(u64, u64), Failed> {
    let sets = (1u32 << heads) - 1;
    let (mut walked, mut whole) = (0, 0);
    for w0 in 1..=sets as u16 {
        for q in 1..=w0.count_ones() as u8 {
            let settings = Settings {
                w0,
                q,
                heads,
                number: 0,
            };
            for code in 0..sets.pow(views as u32) {
                let view = |i: u32| (code / sets.pow(i) % sets + 1) as u16;
                let list: Vec<u16> = (0..views as u32).map(view).collect();
                runner.counts.world("walk");
                walked += 1;
                whole += u64::from(world(runner, settings, &list, usize::MAX)?);
            }
        }
    }
    Ok((walked, whole))
}

impl Walk<'_, '_> {
    fn failed(&self, settings: Settings, failure: Failure) -> Failed {
        (
            History {
                settings,
                events: self.path.clone(),
            },
            failure,
        )
    }

    fn step(&mut self, world: &mut World, event: Event) -> Result<Option<Answer>, Failed> {
        self.path.push(event);
        match self.runner.step(world, &event) {
            Ok(answer) => {
                if answer.is_some() {
                    self.runner.counts.step("walk");
                }
                Ok(answer)
            }
            Err(failure) => Err(self.failed(world.settings, failure)),
        }
    }

    /// All that can come after this state, each state once.
    fn from(&mut self, world: &World) -> Result<(), Failed> {
        if self.seen.len() >= self.most || !self.seen.insert(code(world)) {
            return Ok(());
        }
        self.runner.counts.walk_states += 1;
        let mut end = true;
        for head in 0..world.heads.len() as u8 {
            let entered = world.heads[head as usize].record[VIEW] as u32;
            for (&view, _) in world
                .views
                .range(entered + 1..)
                .filter(|(_, &m)| m >> head & 1 == 1)
            {
                self.every_cut(
                    world,
                    &[],
                    Event::Enter {
                        head,
                        view,
                        budget: None,
                    },
                )?;
                end = false;
            }
            if let Some((heard, last)) = ready(world, head) {
                self.every_cut(world, &heard, last)?;
                end = false;
            }
        }
        self.runner.counts.walk_ends += u64::from(end);
        Ok(())
    }

    /// Goes on from the call uncut and cut at every position.
    fn every_cut(&mut self, world: &World, heard: &[Event], last: Event) -> Result<(), Failed> {
        let before = self.path.len();
        for stores in 0.. {
            let mut next = world.clone();
            for event in heard {
                self.step(&mut next, *event)?;
            }
            let answer = self.step(&mut next, last.with_budget(Some(stores)))?;
            let cut = answer == Some(Answer::Cut);
            if cut {
                let head = last.head().unwrap_or(0);
                self.step(&mut next, Event::Recover { head, budget: None })?;
            }
            self.from(&next)?;
            self.path.truncate(before);
            if !cut {
                break;
            }
        }
        Ok(())
    }
}

/// The lines a head hears and the call it then makes, if all are sent.
fn ready(world: &World, head: u8) -> Option<(Vec<Event>, Event)> {
    let session = &world.heads[head as usize].session;
    let (kind, last) = match session.stage {
        Stage::Undecided => (Kind::State, Event::Decide { head, budget: None }),
        Stage::Attempted => (Kind::Attempt, Event::Form { head, budget: None }),
        Stage::None | Stage::Closed | Stage::Formed => return None,
    };
    let view = session.view;
    let others = heads_in(session.members & !(1 << head))
        .into_iter()
        .map(|q| q as u8);
    let mut heard = Vec::new();
    for from in others {
        world.line(view, kind, from)?;
        heard.push(Event::Deliver {
            line: kind,
            ear: kind,
            view,
            from,
            to: head,
        });
    }
    Some((heard, last))
}

/// A number for what can still matter of a world.
fn code(world: &World) -> u64 {
    let mut hasher = DefaultHasher::new();
    for head in &world.heads {
        head.record.hash(&mut hasher);
        (head.session.stage as u8, head.session.view).hash(&mut hasher);
    }
    world.sent.hash(&mut hasher);
    world.formed.hash(&mut hasher);
    hasher.finish()
}
