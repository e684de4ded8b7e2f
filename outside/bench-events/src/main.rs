//! Times a bench on one long history: a group of sixteen heads and 1,000 views
//! of sizes 1 to 16, each entered, told, decided and formed by all its heads.
//! Another bench is timed in turns with it, after both have printed the same.

use std::fs::File;
use std::io::Write;
use std::path::{Path, PathBuf};
use std::process::{Command, ExitCode, Stdio};
use std::time::Instant;

/// The heads of view v: a row of heads that wanders round the sixteen.
fn members(view: u32) -> Vec<u32> {
    let size = 1 + view * 7 % 16;
    let mut heads: Vec<u32> = (0..size).map(|i| (view * 5 + i) % 16).collect();
    heads.sort_unstable();
    heads
}

/// Each head of the view hears every other one, by events of this kind.
fn delivered(kind: &str, heads: &[u32], out: &mut String) {
    for to in heads {
        for from in heads.iter().filter(|from| *from != to) {
            out.push_str(&format!("{kind}{to:02x}{from:02x}00\n"));
        }
    }
}

fn view(number: u32, out: &mut String) {
    let heads = members(number);
    let set: u32 = heads.iter().map(|head| 1 << head).sum();
    out.push_str(&format!("11{number:08x}{set:04x}\n"));
    for head in &heads {
        out.push_str(&format!("12{head:02x}{number:08x}\n"));
    }
    delivered("13", &heads, out);
    for head in &heads {
        out.push_str(&format!("14{head:02x}\n"));
    }
    delivered("15", &heads, out);
    for head in &heads {
        out.push_str(&format!("16{head:02x}\n"));
    }
}

fn history() -> String {
    let mut out = String::from("10ffff01\n");
    (1..=1000).for_each(|number| view(number, &mut out));
    out
}

/// What a program prints of the events, and the seconds that it takes.
fn run(program: &Path, events: &Path) -> std::io::Result<(Vec<u8>, f64)> {
    let begun = Instant::now();
    let done = Command::new(program)
        .stdin(File::open(events)?)
        .stderr(Stdio::inherit())
        .output()?;
    Ok((done.stdout, begun.elapsed().as_secs_f64()))
}

fn median(times: &mut [f64]) -> f64 {
    times.sort_unstable_by(f64::total_cmp);
    times[times.len() / 2]
}

fn measured(programs: &[PathBuf], rounds: usize) -> std::io::Result<bool> {
    let text = history();
    let lines = text.lines().count();
    let events = std::env::temp_dir().join(format!("events-{}", std::process::id()));
    File::create(&events)?.write_all(text.as_bytes())?;
    let printed: Vec<Vec<u8>> = programs
        .iter()
        .map(|program| run(program, &events).map(|done| done.0))
        .collect::<std::io::Result<_>>()?;
    let same = printed.iter().all(|one| *one == printed[0]);
    let text = String::from_utf8_lossy(&printed[0]);
    let formed = text.lines().filter(|line| *line == "formed").count();
    println!("{lines} events, {formed} forms among them; the benches print the same: {same}");
    let mut times = vec![Vec::new(); programs.len()];
    for _ in 0..rounds {
        for (program, taken) in programs.iter().zip(&mut times) {
            taken.push(run(program, &events)?.1);
        }
    }
    std::fs::remove_file(&events)?;
    let medians: Vec<f64> = times.iter_mut().map(|taken| median(taken)).collect();
    for (program, seconds) in programs.iter().zip(&medians) {
        let name = program.file_name().unwrap_or_default().to_string_lossy();
        let rate = lines as f64 / seconds;
        println!("{name}: median of {rounds} rounds {seconds:.3} s, {rate:.0} events a second");
    }
    if let [first, second, ..] = medians[..] {
        println!("ratio of the times: {:.2}", first / second);
    }
    Ok(same)
}

fn main() -> ExitCode {
    let programs: Vec<PathBuf> = std::env::args().skip(1).map(PathBuf::from).collect();
    if programs.is_empty() {
        eprintln!("events-times BENCH [OTHER-BENCH]");
        return ExitCode::from(2);
    }
    match measured(&programs, 11) {
        Ok(true) => ExitCode::SUCCESS,
        Ok(false) => ExitCode::FAILURE,
        Err(error) => {
            eprintln!("events-times: {error}");
            ExitCode::from(2)
        }
    }
}
