//! Runs heads as processes, kills them, and checks their logs. See
//! outside/README.md.

use soak::check::{read_life, read_record, Check, Good, Group};
use soak::driver::{Driver, Length, Ran};
use soak::schedule::Schedule;
use soak::summary::summary;
use std::path::{Path, PathBuf};
use std::process::ExitCode;
use std::time::{Duration, Instant};

const USAGE: &str = "usage: soak [--seed N] [--seconds N] [--steps N] [--heads N] \
[--core HEX] [--q N] [--folder DIR] [--keep]
       soak --plan N [--seed N] ..   prints the first N steps of the schedule";

struct Arguments {
    seed: u64,
    seconds: u64,
    steps: u64,
    heads: u64,
    core: u64,
    least: u64,
    folder: PathBuf,
    keep: bool,
    plan: u64,
}

fn arguments() -> Result<Arguments, String> {
    let mut all = Arguments {
        seed: 1,
        seconds: 45,
        steps: 200,
        heads: 7,
        core: 0x1f,
        least: 2,
        folder: std::env::temp_dir(),
        keep: false,
        plan: 0,
    };
    let mut given = std::env::args().skip(1);
    while let Some(word) = given.next() {
        let mut number = |radix: u32| -> Result<u64, String> {
            let text = given.next().unwrap_or_default();
            u64::from_str_radix(&text, radix).map_err(|_| format!("{word}: no number: {text}"))
        };
        match word.as_str() {
            "--seed" => all.seed = number(10)?,
            "--seconds" => all.seconds = number(10)?,
            "--steps" => all.steps = number(10)?,
            "--heads" => all.heads = number(10)?,
            "--core" => all.core = number(16)?,
            "--q" => all.least = number(10)?,
            "--plan" => all.plan = number(10)?,
            "--keep" => all.keep = true,
            "--folder" => all.folder = given.next().ok_or(USAGE)?.into(),
            _ => return Err(format!("{word} is not known\n{USAGE}")),
        }
    }
    Ok(all)
}

/// A group that can form: its core is among the heads that run. A single
/// head never adopts.
fn group(arguments: &Arguments) -> Result<Group, String> {
    let (heads, core) = (arguments.heads, arguments.core);
    let sound = (2..=16).contains(&heads)
        && core != 0
        && core >> heads == 0
        && (1..=core.count_ones() as u64).contains(&arguments.least);
    if !sound {
        return Err(format!("no such group can be run\n{USAGE}"));
    }
    Ok(Group {
        heads: heads as u8,
        core: core as u16,
        least: arguments.least as u8,
    })
}

/// Goes through all logs and the last records.
fn checked(folder: &Path, group: Group, ran: &Ran) -> Result<Good, String> {
    let mut check = Check::new(group);
    for (head, &lives) in ran.lives.iter().enumerate() {
        let head = head as u8;
        let logs = (0..lives).map(|life| read_life(folder, head, life));
        check.head(head, logs, &read_record(folder, head)?)?;
    }
    let good = check.together()?;
    let found = good.counts.killed(|_, _| true);
    if found != ran.kills {
        return Err(format!(
            "{} kills were made and the logs show {found}",
            ran.kills
        ));
    }
    match idle(ran, &good).or(good.counts.missing()) {
        Some(missing) => Err(format!("the soak met {missing}")),
        None => Ok(good),
    }
}

/// Too little for the steps that were run: the schedule has more than one kill
/// a step, and every calm step forms a session of its own.
fn idle(ran: &Ran, good: &Good) -> Option<String> {
    let sessions = good.chain.len() as u64 - 1;
    if ran.kills * 2 < ran.steps {
        Some(format!("only {} kills in {} steps", ran.kills, ran.steps))
    } else if sessions < ran.calm {
        Some(format!("{sessions} sessions in {} calm steps", ran.calm))
    } else {
        None
    }
}

fn soak(arguments: &Arguments, group: Group, folder: &Path) -> Result<(), String> {
    let program = std::env::current_exe().map_err(|e| e.to_string())?;
    let program = program.with_file_name("soak-head");
    let schedule = Schedule::new(arguments.seed, group);
    let length = Length {
        time: Duration::from_secs(arguments.seconds),
        steps: arguments.steps as u32,
    };
    let begun = Instant::now();
    let ran = Driver::new(program, folder, group)?.run(schedule, length)?;
    let run_time = begun.elapsed();
    let good = checked(folder, group, &ran)?;
    let check_time = begun.elapsed() - run_time;
    println!(
        "soak: seed {}, {} heads, W0 {:04x}, Q {}; ran {:.1} s, checked in {:.1} s",
        arguments.seed,
        group.heads,
        group.core,
        group.least,
        run_time.as_secs_f64(),
        check_time.as_secs_f64()
    );
    print!("{}", summary(&ran, &good));
    println!("recovery exact, no answer 2, one chain");
    Ok(())
}

fn run() -> Result<(), String> {
    let arguments = arguments()?;
    let group = group(&arguments)?;
    if arguments.plan > 0 {
        let steps = Schedule::new(arguments.seed, group).take(arguments.plan as usize);
        steps.for_each(|step| println!("{step}"));
        return Ok(());
    }
    let name = format!("soak-{}-{}", arguments.seed, std::process::id());
    let folder = arguments.folder.join(name);
    std::fs::create_dir_all(&folder).map_err(|e| format!("{}: {e}", folder.display()))?;
    let place = folder.display();
    soak(&arguments, group, &folder).map_err(|problem| {
        format!(
            "seed {}: {problem}\nthe logs are in {place}",
            arguments.seed
        )
    })?;
    if arguments.keep {
        println!("the logs are in {place}");
        return Ok(());
    }
    std::fs::remove_dir_all(&folder).map_err(|e| format!("{place}: {e}"))
}

fn main() -> ExitCode {
    match run() {
        Ok(()) => ExitCode::SUCCESS,
        Err(problem) => {
            eprintln!("soak: {problem}");
            ExitCode::FAILURE
        }
    }
}
