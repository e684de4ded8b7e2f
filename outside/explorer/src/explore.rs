//! Worlds of all manners until enough steps are made, or one fails.

use crate::event::{Event, History};
use crate::generate::Generator;
use crate::manner::{world_seed, Manner, MANNERS};
use crate::step::{Failure, Runner};
use crate::walk;
use crate::world::World;
use compare::rng::Rng;
use second::answers::Answer;
use std::time::{Duration, Instant};

pub struct Options {
    pub seed: u64,
    /// At least so many steps.
    pub steps: u64,
    /// Ends after this time whatever the steps are.
    pub time: Option<Duration>,
    /// Worlds of this manner only.
    pub only: Option<String>,
}

/// A history that fails, with the world it is from.
pub struct Found {
    pub manner: &'static str,
    pub world: u64,
    pub history: History,
    pub failure: Failure,
}

/// A history as it is made.
struct Made {
    world: World,
    events: Vec<Event>,
}

impl Made {
    fn found(self, failure: Failure) -> (History, Failure) {
        let history = History {
            settings: self.world.settings,
            events: self.events,
        };
        (history, failure)
    }

    fn step(
        &mut self,
        runner: &mut Runner,
        manner: &Manner,
        event: Event,
    ) -> Result<Option<Answer>, Failure> {
        self.events.push(event);
        let answer = runner.step(&mut self.world, &event)?;
        if answer.is_some() {
            runner.counts.step(manner.name);
        }
        Ok(answer)
    }
}

pub fn explore(runner: &mut Runner, options: &Options) -> Result<(), Box<Found>> {
    let begin = Instant::now();
    for world in 0.. {
        let late = options.time.is_some_and(|time| begin.elapsed() >= time);
        if late || runner.counts.steps() >= options.steps {
            break;
        }
        let Some(manner) = next_manner(runner, options.only.as_deref()) else {
            break;
        };
        runner.counts.world(manner.name);
        let mut rng = Rng::new(world_seed(options.seed, world));
        let result = match manner.name {
            "walk" => walk::random(runner, &mut rng, manner),
            _ => one_world(runner, rng, manner),
        };
        if let Err((history, failure)) = result {
            return Err(Box::new(Found {
                manner: manner.name,
                world,
                history,
                failure,
            }));
        }
    }
    Ok(())
}

/// The manner that lacks most of its share.
fn next_manner(runner: &Runner, only: Option<&str>) -> Option<&'static Manner> {
    let made = |m: &Manner| runner.counts.steps.get(m.name).copied().unwrap_or(0) / m.share;
    let open = MANNERS
        .iter()
        .filter(|m| only.is_none_or(|name| name == m.name));
    open.min_by_key(|m| made(m))
}

fn one_world(runner: &mut Runner, mut rng: Rng, manner: &Manner) -> Result<(), (History, Failure)> {
    let settings = manner.settings(&mut rng);
    let count = rng.range(manner.events.0, manner.events.1);
    let mut generator = Generator::new(manner, rng, settings.heads);
    let mut made = Made {
        world: World::new(settings),
        events: Vec::new(),
    };
    if let Err(failure) = runner.start(&mut made.world) {
        return Err(made.found(failure));
    }
    for _ in 0..count {
        let event = generator.next(&made.world);
        if event.stores() && manner.sweep != 0 && generator.rng.one_in(manner.sweep) {
            sweep(runner, manner, &mut generator, &made, event)?;
        }
        if let Err(failure) = made.step(runner, manner, event) {
            return Err(made.found(failure));
        }
    }
    Ok(())
}

/// The call cut at every position, and a history that goes on from each.
fn sweep(
    runner: &mut Runner,
    manner: &Manner,
    generator: &mut Generator,
    from: &Made,
    event: Event,
) -> Result<(), (History, Failure)> {
    runner.counts.sweeps += 1;
    for stores in 0.. {
        let mut made = Made {
            world: from.world.clone(),
            events: from.events.clone(),
        };
        let cut = made.step(runner, manner, event.with_budget(Some(stores)));
        match cut {
            Ok(Some(Answer::Cut)) => {}
            Ok(_) => return Ok(()),
            Err(failure) => return Err(made.found(failure)),
        }
        let mut generator = generator.fork();
        let recover = Event::Recover {
            head: event.head().unwrap_or(0),
            budget: None,
        };
        let mut next = recover;
        for _ in 0..generator.rng.range(5, 60) {
            if let Err(failure) = made.step(runner, manner, next) {
                return Err(made.found(failure));
            }
            next = generator.next(&made.world);
        }
    }
    Ok(())
}

/// Makes a history again: how many events were made when it fails, and how.
pub fn replay(runner: &mut Runner, history: &History) -> Option<(usize, Failure)> {
    let mut world = World::new(history.settings);
    if let Err(failure) = runner.start(&mut world) {
        return Some((0, failure));
    }
    for (i, event) in history.events.iter().enumerate() {
        if let Err(failure) = runner.step(&mut world, event) {
            return Some((i + 1, failure));
        }
    }
    None
}
