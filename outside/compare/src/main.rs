//! Compares the proved programs with `second`. See outside/README.md.

use compare::check::Check;
use compare::feed::{scratch, Process, Program};
use compare::proved_side::Proved;
use compare::side::{Second, Side};
use compare::{bench_compare, calls_compare, frames_compare, stories};
use std::path::PathBuf;
use std::process::ExitCode;
use std::time::{Duration, Instant};

const USAGE: &str = "usage: compare frames PROGRAM [--seed N] [--lines N]
       compare records SIDE [--seed N] [--records N]
       compare calls SIDE [--seed N] [--calls N]
       compare bench PROGRAM [--seed N] [--histories N]
       compare stories PROGRAM
SIDE is proved (the proved library), or second (the second program with itself)";

struct Arguments {
    words: Vec<String>,
    seed: u64,
    lines: usize,
    records: u64,
    calls: u64,
    histories: u64,
}

fn arguments() -> Result<Arguments, String> {
    let mut all = Arguments {
        words: Vec::new(),
        seed: 1,
        lines: 40_000,
        records: 120_000,
        calls: 400_000,
        histories: 2_000,
    };
    let mut given = std::env::args().skip(1);
    while let Some(word) = given.next() {
        let mut number = || -> Result<u64, String> {
            let text = given.next().ok_or(format!("{word} needs a number"))?;
            text.parse().map_err(|_| format!("{word}: not a number: {text}"))
        };
        match word.as_str() {
            "--seed" => all.seed = number()?,
            "--lines" => all.lines = number()? as usize,
            "--records" => all.records = number()?,
            "--calls" => all.calls = number()?,
            "--histories" => all.histories = number()?,
            _ => all.words.push(word),
        }
    }
    Ok(all)
}

/// The side that `second` is compared with.
fn side(name: &str) -> Result<Box<dyn Side>, String> {
    match name {
        "proved" => Ok(Box::new(Proved)),
        "second" => Ok(Box::new(Second)),
        _ => Err(format!("no side is called {name}")),
    }
}

/// Runs the program of a path as a process, with a scratch file that is taken
/// away after it.
fn with_process<T>(path: &str, run: impl FnOnce(&mut dyn Program) -> T) -> T {
    let file = scratch("compare-input");
    let mut program = Process {
        path: PathBuf::from(path),
        scratch: file.clone(),
        limit: Duration::from_secs(30),
    };
    let result = run(&mut program);
    let _ = std::fs::remove_file(&file);
    result
}

/// The comparisons of programs that are run as processes.
fn programs(mode: &str, path: &str, arguments: &Arguments) -> Result<(), String> {
    match mode {
        "frames" => {
            let options = frames_compare::Options {
                seed: arguments.seed,
                lines: arguments.lines,
            };
            let result = with_process(path, |program| frames_compare::run(program, &options));
            frames_compare::print(&result?);
        }
        "bench" => {
            let options = bench_compare::Options {
                seed: arguments.seed,
                histories: arguments.histories,
            };
            let result = with_process(path, |program| bench_compare::run(program, &options));
            bench_compare::print(&result?);
        }
        _ => {
            let names = with_process(path, stories::run)?;
            println!("stories: {}", names.join(", "));
        }
    }
    Ok(())
}

fn run() -> Result<(), String> {
    let arguments = arguments()?;
    let words: Vec<&str> = arguments.words.iter().map(|w| w.as_str()).collect();
    println!("seed {}", arguments.seed);
    let begin = Instant::now();
    match words.as_slice() {
        [mode @ ("frames" | "bench" | "stories"), path] => programs(mode, path, &arguments)?,
        ["records", name] => {
            let mut other = side(name)?;
            let mut check = Check::new(other.as_mut());
            let result = calls_compare::records(&mut check, arguments.seed, arguments.records);
            calls_compare::print(&check);
            println!("records compared: {}", result?);
        }
        ["calls", name] => {
            let mut other = side(name)?;
            let mut check = Check::new(other.as_mut());
            let result = calls_compare::calls(&mut check, arguments.seed, arguments.calls);
            calls_compare::print(&check);
            println!("calls compared: {}", result?);
        }
        _ => return Err(String::from(USAGE)),
    }
    println!("no difference, {:.1} s", begin.elapsed().as_secs_f64());
    Ok(())
}

fn main() -> ExitCode {
    match run() {
        Ok(()) => ExitCode::SUCCESS,
        Err(message) => {
            println!("FAILED: {message}");
            ExitCode::from(1)
        }
    }
}
