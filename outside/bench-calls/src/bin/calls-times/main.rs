//! The proved calls beside the plain ones, and beside the plain ones by value:
//! times, and with `--callgrind` instructions, as a table. See outside/README.md.

mod cases;
mod clock;
mod count;
mod sides;
mod stack;

use cases::{cases, Call, CALLS};
use std::process::ExitCode;

const USAGE: &str = "usage: calls-times [--rounds N] [--only CALL] [--callgrind]";

/// The sizes of views that are measured.
const HEADS: [usize; 3] = [3, 8, 16];

struct Arguments {
    rounds: usize,
    only: Option<String>,
    callgrind: bool,
}

fn call_of(name: &str) -> Result<Call, String> {
    let found = CALLS.iter().find(|(_, n)| *n == name);
    found
        .map(|&(call, _)| call)
        .ok_or(format!("no call is called {name}"))
}

fn arguments(given: &[String]) -> Result<Arguments, String> {
    let mut all = Arguments {
        rounds: 2001,
        only: None,
        callgrind: false,
    };
    let mut given = given.iter();
    while let Some(word) = given.next() {
        let mut next = || given.next().ok_or(format!("{word} needs a value"));
        match word.as_str() {
            "--rounds" => all.rounds = next()?.parse().map_err(|_| String::from(USAGE))?,
            "--only" => all.only = Some(next()?.clone()),
            "--callgrind" => all.callgrind = true,
            _ => return Err(String::from(USAGE)),
        }
    }
    Ok(all)
}

/// The cells of a measure: each plain side's has its ratio after it.
fn cells([proved, plain, by_value]: [f64; 3]) -> String {
    format!(
        " {proved:.0} | {plain:.0} | {:.2} | {by_value:.0} | {:.2} |",
        proved / plain,
        proved / by_value
    )
}

/// The names of these cells.
fn names(unit: &str) -> String {
    format!(" proved, {unit} | plain, {unit} | ratio | by value, {unit} | ratio |")
}

/// One line of the table.
fn row(arguments: &Arguments, call: Call, name: &str, heads: usize) -> Result<(), String> {
    let cases = cases(call, heads);
    for case in &cases {
        sides::agree(call, case)?;
    }
    let times = clock::times(call, &cases, arguments.rounds);
    print!("| {name} | {heads} |{}", cells(times));
    if arguments.callgrind {
        let sides = ["proved", "plain", "by value"];
        print!("{}", cells(count::counts(name, heads, cases.len(), sides)?));
    }
    let [a, b, c] = stack::stacks(call, &cases)?;
    println!(" {a} | {b} | {c} |");
    Ok(())
}

/// A line under the table: what the copies of a session alone cost, over the
/// cases of a call. More cases take more of the cache.
fn copies(arguments: &Arguments, call: Call, name: &str, heads: usize) -> Result<(), String> {
    let cases = cases(call, heads);
    let (made, time) = (cases.len(), clock::copies_time(&cases, arguments.rounds));
    print!("\nA session by value into a call that does nothing, and back ");
    print!("({made} sessions in turn): {time:.0} ns");
    if arguments.callgrind {
        let [count] = count::counts(name, heads, made, ["copies"])?;
        print!(", {count:.0} instructions");
    }
    println!(".");
    Ok(())
}

fn table(arguments: &Arguments) -> Result<(), String> {
    let mut heading = format!("| call | heads |{}", names("ns"));
    if arguments.callgrind {
        heading += &names("instructions");
    }
    heading += " proved, stack | plain, stack | by value, stack |";
    println!("{heading}");
    println!("|{}", "---|".repeat(heading.matches('|').count() - 1));
    for (call, name) in CALLS {
        if arguments.only.as_deref().is_some_and(|only| only != name) {
            continue;
        }
        for heads in HEADS {
            row(arguments, call, name, heads)?;
        }
    }
    copies(arguments, Call::Enter, "enter", 16)?;
    copies(arguments, Call::HearState, "hear state", 16)
}

fn run() -> Result<(), String> {
    let given: Vec<String> = std::env::args().skip(1).collect();
    if let [first, name, heads, side] = given.as_slice() {
        // What callgrind runs (see count.rs).
        if first == "--make" {
            let heads = heads.parse().map_err(|_| String::from(USAGE))?;
            return count::make(call_of(name)?, heads, side);
        }
    }
    table(&arguments(&given)?)
}

fn main() -> ExitCode {
    match run() {
        Ok(()) => ExitCode::SUCCESS,
        Err(message) => {
            println!("FAILED: {message}");
            ExitCode::from(1)
        }
    }
}
