//! Drives whole worlds of heads in one process. See outside/README.md.

use compare::proved_side::Proved;
use compare::side::{Second, Side};
use explorer::event::History;
use explorer::explore::{explore, replay, Found, Options};
use explorer::shrink::shrink;
use explorer::slipped::{Slipped, SLIPS};
use explorer::step::{Failure, Fault, Runner};
use explorer::{text, walk};
use std::process::ExitCode;
use std::time::{Duration, Instant};

const USAGE: &str =
    "usage: explorer SIDE [--seed N] [--steps N] [--seconds N] [--lockstep N] [--only MANNER]
       explorer SIDE --replay HISTORY [--lockstep N]
       explorer SIDE --walk HEADS,VIEWS [--lockstep N]
SIDE is proved, second, or slip:NAME; MANNER is random, small, long, late, sweep or walk
one call in N of --lockstep is compared with second, 0 for none";

/// The time given to shrinking.
const SHRINKING: Duration = Duration::from_secs(120);

struct Arguments {
    side: String,
    options: Options,
    lockstep: u64,
    replay: Option<String>,
    walk: Option<String>,
}

fn arguments() -> Result<Arguments, String> {
    let mut given = std::env::args().skip(1);
    let side = given.next().ok_or(USAGE)?;
    let options = Options {
        seed: 1,
        steps: u64::MAX,
        time: None,
        only: None,
    };
    let mut all = Arguments {
        side,
        options,
        lockstep: 1,
        replay: None,
        walk: None,
    };
    while let Some(word) = given.next() {
        let value = given.next().ok_or(format!("{word} needs a value"))?;
        let number = || {
            value
                .parse::<u64>()
                .map_err(|_| format!("{word}: not a number: {value}"))
        };
        match word.as_str() {
            "--seed" => all.options.seed = number()?,
            "--steps" => all.options.steps = number()?,
            "--seconds" => all.options.time = Some(Duration::from_secs(number()?)),
            "--lockstep" => all.lockstep = number()?,
            "--only" => all.options.only = Some(value),
            "--replay" => all.replay = Some(value),
            "--walk" => all.walk = Some(value),
            _ => return Err(String::from(USAGE)),
        }
    }
    if all.options.steps == u64::MAX && all.options.time.is_none() {
        all.options.steps = 1_000_000;
    }
    Ok(all)
}

fn side(name: &str) -> Result<Box<dyn Side>, String> {
    if let Some(slip) = name.strip_prefix("slip:") {
        let found = SLIPS.iter().find(|(known, _)| *known == slip);
        let names: Vec<&str> = SLIPS.iter().map(|(known, _)| *known).collect();
        let (_, slip) = found.ok_or(format!("slips are {}", names.join(", ")))?;
        return Ok(Box::new(Slipped(*slip)));
    }
    match name {
        "proved" => Ok(Box::new(Proved)),
        "second" => Ok(Box::new(Second)),
        _ => Err(format!("no side is called {name}")),
    }
}

/// Shows a failing history made small, and how to make it again.
fn show(arguments: &Arguments, history: History, failure: &Failure) -> Result<(), String> {
    let before = history.events.len();
    let lockstep = u64::from(failure.fault == Fault::Difference);
    let mut side = side(&arguments.side)?;
    let mut runner = Runner::new(side.as_mut(), lockstep);
    let small = shrink(&mut runner, history, failure.fault, SHRINKING);
    println!("shrunk from {before} to {} events:", small.events.len());
    let lines = text::lines(&small);
    for line in &lines {
        println!("  {line}");
    }
    if let Some((_, failure)) = replay(&mut runner, &small) {
        println!("  -> {:?}: {}", failure.fault, failure.text);
    }
    println!(
        "replay: target/cargo/release/explorer {} --lockstep {lockstep} --replay '{}'",
        arguments.side,
        lines.join("; ")
    );
    Ok(())
}

fn failed(arguments: &Arguments, found: Found) -> Result<(), String> {
    println!(
        "seed {}, world {} ({}): {:?}: {}",
        arguments.options.seed, found.world, found.manner, found.failure.fault, found.failure.text
    );
    show(arguments, found.history, &found.failure)?;
    Err(found.failure.text)
}

fn run_replay(arguments: &Arguments, runner: &mut Runner, history: &str) -> Result<(), String> {
    let history = text::read(history)?;
    match replay(runner, &history) {
        None => {
            println!("{} events, no failure", history.events.len());
            Ok(())
        }
        Some((made, failure)) => {
            println!(
                "event {} of {}: {:?}",
                made,
                history.events.len(),
                failure.fault
            );
            show(arguments, history, &failure)?;
            Err(failure.text)
        }
    }
}

fn run_walk(arguments: &Arguments, runner: &mut Runner, sizes: &str) -> Result<(), String> {
    let sizes = sizes
        .split_once(',')
        .and_then(|(h, v)| Some((h.parse().ok()?, v.parse().ok()?)));
    let (heads, views) = sizes.ok_or("--walk needs HEADS,VIEWS")?;
    if !(1..=4).contains(&heads) || !(1..=4).contains(&views) {
        return Err(String::from("--walk: 1 to 4 heads and views"));
    }
    match walk::all(runner, heads, views) {
        Ok((walked, whole)) => {
            runner.counts.print();
            println!("worlds of {heads} heads and {views} views: {walked}, {whole} walked whole");
            Ok(())
        }
        Err((history, failure)) => {
            show(arguments, history, &failure)?;
            Err(failure.text)
        }
    }
}

fn run_explore(arguments: &Arguments, runner: &mut Runner) -> Result<(), String> {
    println!("seed {}", arguments.options.seed);
    let begin = Instant::now();
    let result = explore(runner, &arguments.options);
    let seconds = begin.elapsed().as_secs_f64();
    runner.counts.print();
    let steps = runner.counts.steps();
    println!(
        "{steps} steps in {seconds:.1} s, {:.0} a second",
        steps as f64 / seconds
    );
    if let Err(found) = result {
        return failed(arguments, *found);
    }
    let not_met = runner.counts.not_met();
    if arguments.options.only.is_none() && !not_met.is_empty() {
        return Err(format!("not met: {}", not_met.join("; ")));
    }
    println!("no failure, seed {}", arguments.options.seed);
    Ok(())
}

fn run() -> Result<(), String> {
    let arguments = arguments()?;
    let mut side = side(&arguments.side)?;
    let mut runner = Runner::new(side.as_mut(), arguments.lockstep);
    match (&arguments.replay, &arguments.walk) {
        (Some(history), _) => run_replay(&arguments, &mut runner, history),
        (_, Some(sizes)) => run_walk(&arguments, &mut runner, sizes),
        _ => run_explore(&arguments, &mut runner),
    }
}

fn main() -> ExitCode {
    match run() {
        Ok(()) => ExitCode::SUCCESS,
        Err(message) => {
            println!("FAILED: {message}");
            ExitCode::from(1)
        }
    }
}
