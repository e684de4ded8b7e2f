//! Compares a program with what `second` says that the bench prints, byte for
//! byte, on many histories. Each history is a run of its own, as an input has
//! one group line.

use crate::bench_gen::{damage_names, history};
use crate::bench_met::{missing, Met};
use crate::feed::{Feed, Program};
use crate::frames_compare::shown;
use crate::rng::Rng;
use second::bench::run as second_bench;
use std::time::{Duration, Instant};

pub struct Options {
    pub seed: u64,
    pub histories: u64,
}

#[derive(Default)]
pub struct Counts {
    pub met: Met,
    pub histories: u64,
    pub lines: u64,
    pub bytes: u64,
}

/// The time that may be taken to shrink a history.
const SHRINKING: Duration = Duration::from_secs(20);

/// The first line of the output that differs, counted from 0, and what is said
/// of it.
pub struct Difference {
    at: usize,
    pub text: String,
}

/// What `second` prints for an input.
pub fn second_prints(input: &[u8]) -> Vec<u8> {
    let mut out = Vec::new();
    second_bench(input, &mut out).expect("writing to memory does not fail");
    out
}

/// The whole comparison.
pub fn run(program: &mut dyn Program, options: &Options) -> Result<Counts, String> {
    let mut counts = Counts::default();
    for number in 0..options.histories {
        let made = history(options.seed, number, &mut counts.met)?;
        let input = made.lines.concat();
        // The lines are parted in `second` too.
        if second_prints(&input) != made.expected {
            return Err(format!("history {number}: second disagrees with itself"));
        }
        let feed = feed(options.seed, number, input.len());
        counts.met.note(format!("fed: {}", fed(&feed)));
        counts.histories += 1;
        counts.lines += made.lines.len() as u64;
        counts.bytes += input.len() as u64;
        if let Some(first) = against(program, &made.lines, &made.expected, &feed) {
            return Err(report(program, options, number, made.lines, &feed, first));
        }
    }
    let wanted: Vec<String> = ["from a file", "whole through a pipe", "in pieces"]
        .iter()
        .map(|how| format!("fed: {how}"))
        .chain(damage_names())
        .collect();
    match missing(&counts.met, &wanted).as_slice() {
        [] => Ok(counts),
        names => Err(format!("not met: {}", names.join(", "))),
    }
}

/// How a history is fed. Pieces are small only if the input is.
fn feed(seed: u64, number: u64, bytes: usize) -> Feed {
    let mut rng = Rng::new(seed ^ number.wrapping_mul(0x5851_f42d_4c95_7f2d));
    match number % 16 {
        0..=5 => Feed::Whole,
        6 => {
            let most = (bytes / 100).max(rng.pick(&[1, 9, 17, 300]));
            Feed::Pieces((0..97).map(|_| 1 + rng.index(most)).collect())
        }
        _ => Feed::File,
    }
}

fn fed(feed: &Feed) -> &'static str {
    match feed {
        Feed::File => "from a file",
        Feed::Whole => "whole through a pipe",
        Feed::Pieces(_) => "in pieces",
    }
}

/// Where the program's output differs from the expected one; `None` if it does
/// not. A program that fails differs.
fn against(
    program: &mut dyn Program,
    lines: &[Vec<u8>],
    expected: &[u8],
    feed: &Feed,
) -> Option<Difference> {
    match program.run(&lines.concat(), feed) {
        Err(error) => Some(Difference {
            at: lines.len(),
            text: format!("  the program failed: {error}"),
        }),
        Ok(out) if out == expected => None,
        Ok(out) => Some(first_difference(lines, expected, &out)),
    }
}

/// The same, of lines for which `second` has to be asked.
fn difference(program: &mut dyn Program, lines: &[Vec<u8>], feed: &Feed) -> Option<Difference> {
    against(program, lines, &second_prints(&lines.concat()), feed)
}

/// The first line of two outputs that differs, and the event it is for.
pub fn first_difference(lines: &[Vec<u8>], expected: &[u8], out: &[u8]) -> Difference {
    let parted = |text: &[u8]| -> Vec<Vec<u8>> {
        let parts = text.split_inclusive(|&b| b == b'\n');
        parts.map(|part| part.to_vec()).collect()
    };
    let (expected, out) = (parted(expected), parted(out));
    let same = expected.iter().zip(&out).take_while(|(a, b)| a == b);
    let at = same.count();
    let line = |text: &[Vec<u8>]| match text.get(at) {
        Some(line) => shown(line),
        None => String::from("(no line)"),
    };
    let event = match lines.get(at) {
        Some(event) => shown(event),
        None => String::from("(the formed sessions)"),
    };
    let text = format!(
        "  at line {} of the output\n  event:    {event}\n  expected: {}\n  program:  {}",
        at + 1,
        line(&expected),
        line(&out)
    );
    Difference { at, text }
}

/// Says what differs, on the history and on a smaller one that still differs.
fn report(
    program: &mut dyn Program,
    options: &Options,
    number: u64,
    lines: Vec<Vec<u8>>,
    feed: &Feed,
    first: Difference,
) -> String {
    let count = lines.len();
    let small = shrink(program, lines, feed, first.at);
    let again = difference(program, &small, feed);
    let again = again.map_or(String::from("  (not seen again)"), |d| d.text);
    let shown: Vec<String> = small.iter().map(|l| format!("    {}", shown(l))).collect();
    format!(
        "difference, seed {}, history {number} of {count} lines, fed {}:\n{}\n\
         the smallest history found, of {} lines:\n{}\n{again}",
        options.seed,
        fed(feed),
        first.text,
        small.len(),
        shown.join("\n")
    )
}

/// Leaves out lines while the outputs still differ: those after the first that
/// differs, then many together, then fewer, down to single ones.
fn shrink(
    program: &mut dyn Program,
    mut lines: Vec<Vec<u8>>,
    feed: &Feed,
    first: usize,
) -> Vec<Vec<u8>> {
    let end = Instant::now() + SHRINKING;
    let begin = &lines[..lines.len().min(first + 1)];
    if difference(program, begin, feed).is_some() {
        lines.truncate(first + 1);
    }
    let mut part = lines.len() / 2;
    while part > 0 {
        let mut dropped = false;
        let mut to = lines.len();
        while to > 0 && Instant::now() < end {
            let from = to.saturating_sub(part);
            let fewer = [&lines[..from], &lines[to..]].concat();
            if difference(program, &fewer, feed).is_some() {
                lines = fewer;
                dropped = true;
            }
            to = from;
        }
        // At single lines it goes round until none can be left out.
        if part > 1 || !dropped {
            part /= 2;
        }
    }
    lines
}

pub fn print(counts: &Counts) {
    for (name, count) in &counts.met.counts {
        println!("  {count:>8}  {name}");
    }
    println!(
        "histories compared: {}, lines: {}, bytes fed: {}",
        counts.histories, counts.lines, counts.bytes
    );
}
