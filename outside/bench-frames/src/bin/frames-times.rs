//! Times `frames` and the plain program on the same input, in turns.

use bench_frames::write_input;
use std::fs::File;
use std::io::{BufWriter, Read, Write};
use std::path::{Path, PathBuf};
use std::process::{Command, ExitCode, Stdio};
use std::time::Instant;

const USAGE: &str = "usage: frames-times PROGRAM [--bytes N] [--rounds N] [--seed N] \
[--fast PROGRAM] [--callgrind] [--callgrind-bytes N]";

struct Arguments {
    program: PathBuf,
    fast: PathBuf,
    bytes: u64,
    rounds: usize,
    seed: u64,
    callgrind: bool,
    callgrind_bytes: u64,
}

fn here() -> PathBuf {
    let exe = std::env::current_exe().unwrap_or_default();
    exe.parent().unwrap_or(Path::new(".")).to_path_buf()
}

fn arguments() -> Result<Arguments, String> {
    let mut all = Arguments {
        program: PathBuf::new(),
        fast: here().join("frames-fast"),
        bytes: 100_000_000,
        rounds: 7,
        seed: 1,
        callgrind: false,
        callgrind_bytes: 2_000_000,
    };
    let mut given = std::env::args().skip(1);
    while let Some(word) = given.next() {
        let mut next = || given.next().ok_or(format!("{word} needs a value"));
        let number = |text: String| text.parse::<u64>().map_err(|_| format!("not a number: {text}"));
        match word.as_str() {
            "--bytes" => all.bytes = number(next()?)?,
            "--rounds" => all.rounds = number(next()?)?.max(1) as usize,
            "--seed" => all.seed = number(next()?)?,
            "--fast" => all.fast = PathBuf::from(next()?),
            "--callgrind" => all.callgrind = true,
            "--callgrind-bytes" => all.callgrind_bytes = number(next()?)?,
            _ if word.starts_with("--") || all.program != PathBuf::new() => {
                return Err(String::from(USAGE))
            }
            _ => all.program = PathBuf::from(word),
        }
    }
    if all.program == PathBuf::new() {
        return Err(String::from(USAGE));
    }
    Ok(all)
}

fn text(e: std::io::Error) -> String {
    e.to_string()
}

/// What the program prints for the input.
fn output(program: &Path, input: &Path) -> Result<Vec<u8>, String> {
    let mut child = Command::new(program)
        .stdin(File::open(input).map_err(text)?)
        .stdout(Stdio::piped())
        .spawn()
        .map_err(|e| format!("{}: {e}", program.display()))?;
    let mut out = Vec::new();
    child
        .stdout
        .take()
        .expect("standard output is a pipe")
        .read_to_end(&mut out)
        .map_err(text)?;
    let status = child.wait().map_err(text)?;
    if !status.success() {
        return Err(format!("{} ended with {status}", program.display()));
    }
    Ok(out)
}

#[repr(C)]
struct Usage {
    user: [i64; 2],
    system: [i64; 2],
    rest: [i64; 14],
}

extern "C" {
    fn getrusage(who: i32, usage: *mut Usage) -> i32;
}

/// The processor seconds of all ended children so far.
fn processor_seconds() -> f64 {
    let mut usage = Usage {
        user: [0; 2],
        system: [0; 2],
        rest: [0; 14],
    };
    const CHILDREN: i32 = -1;
    // SAFETY: the structure has the layout of Linux on 64-bit machines.
    if unsafe { getrusage(CHILDREN, &mut usage) } != 0 {
        return f64::NAN;
    }
    let seconds = |t: [i64; 2]| t[0] as f64 + t[1] as f64 / 1e6;
    seconds(usage.user) + seconds(usage.system)
}

/// Seconds by the clock and of the processor for one run.
fn time(program: &Path, input: &Path) -> Result<(f64, f64), String> {
    let stdin = File::open(input).map_err(text)?;
    let before = processor_seconds();
    let begin = Instant::now();
    let status = Command::new(program)
        .stdin(stdin)
        .stdout(Stdio::null())
        .status()
        .map_err(text)?;
    let clock = begin.elapsed().as_secs_f64();
    if !status.success() {
        return Err(format!("{} ended with {status}", program.display()));
    }
    Ok((clock, processor_seconds() - before))
}

fn median(values: &[f64]) -> f64 {
    let mut sorted = values.to_vec();
    sorted.sort_by(|a, b| a.total_cmp(b));
    let n = sorted.len();
    (sorted[(n - 1) / 2] + sorted[n / 2]) / 2.0
}

/// The run that other work on the machine disturbed least.
fn least(values: &[f64]) -> f64 {
    values.iter().copied().fold(f64::INFINITY, f64::min)
}

/// The instructions callgrind counts for one run.
fn instructions(program: &Path, input: &Path) -> Result<u64, String> {
    let out = here().join(format!("callgrind-{}", std::process::id()));
    let result = Command::new("valgrind")
        .arg("--tool=callgrind")
        .arg(format!("--callgrind-out-file={}", out.display()))
        .arg(program)
        .stdin(File::open(input).map_err(text)?)
        .stdout(Stdio::null())
        .stderr(Stdio::piped())
        .output()
        .map_err(|e| format!("valgrind: {e}"))?;
    let _ = std::fs::remove_file(&out);
    let said = String::from_utf8_lossy(&result.stderr).into_owned();
    said.lines()
        .find_map(|line| line.split("Collected :").nth(1))
        .and_then(|count| count.trim().parse().ok())
        .ok_or(format!("callgrind gave no count:\n{said}"))
}

fn make_input(bytes: u64, seed: u64) -> Result<(PathBuf, u64), String> {
    let path = here().join(format!("frames-input-{}-{bytes}", std::process::id()));
    let mut file = BufWriter::new(File::create(&path).map_err(text)?);
    let lines = write_input(&mut file, bytes, seed).map_err(text)?;
    file.flush().map_err(text)?;
    Ok((path, lines))
}

fn times(arguments: &Arguments, input: &Path, lines: u64) -> Result<(), String> {
    let bytes = std::fs::metadata(input).map_err(text)?.len();
    println!("seed {}, {bytes} bytes, {lines} lines", arguments.seed);
    let ours = output(&arguments.program, input)?;
    let plain = output(&arguments.fast, input)?;
    if ours != plain {
        return Err(String::from("the two programs print different things"));
    }
    println!("both print the same {} bytes", ours.len());

    let programs = [&arguments.program, &arguments.fast];
    let mut clock = [Vec::new(), Vec::new()];
    let mut processor = [Vec::new(), Vec::new()];
    for round in 0..arguments.rounds {
        for turn in 0..2 {
            let which = (round + turn) % 2;
            let (a, b) = time(programs[which], input)?;
            clock[which].push(a);
            processor[which].push(b);
        }
    }
    let names = ["program", "plain"];
    for which in 0..2 {
        let c = median(&clock[which]);
        let p = median(&processor[which]);
        println!(
            "{:8} median of {} rounds: {c:.3} s by the clock, {p:.3} s of processor, \
             least {:.3}, {:.0} MB/s, {:.0} ns a line",
            names[which],
            arguments.rounds,
            least(&processor[which]),
            bytes as f64 / 1e6 / c,
            c * 1e9 / lines as f64,
        );
    }
    println!(
        "ratio program / plain: {:.2} by the clock, {:.2} of processor, {:.2} of the least",
        median(&clock[0]) / median(&clock[1]),
        median(&processor[0]) / median(&processor[1]),
        least(&processor[0]) / least(&processor[1]),
    );
    Ok(())
}

fn counts(arguments: &Arguments, input: &Path, lines: u64) -> Result<(), String> {
    let bytes = std::fs::metadata(input).map_err(text)?.len();
    let ours = instructions(&arguments.program, input)?;
    let plain = instructions(&arguments.fast, input)?;
    println!("callgrind on {bytes} bytes, {lines} lines:");
    for (name, count) in [("program", ours), ("plain", plain)] {
        println!(
            "{name:8} {count} instructions, {:.2} a byte, {:.0} a line",
            count as f64 / bytes as f64,
            count as f64 / lines as f64
        );
    }
    println!("ratio program / plain: {:.2}", ours as f64 / plain as f64);
    Ok(())
}

fn run() -> Result<(), String> {
    let arguments = arguments()?;
    let (input, lines) = make_input(arguments.bytes, arguments.seed)?;
    let result = times(&arguments, &input, lines);
    let _ = std::fs::remove_file(&input);
    result?;
    if arguments.callgrind {
        let (input, lines) = make_input(arguments.callgrind_bytes, arguments.seed)?;
        let result = counts(&arguments, &input, lines);
        let _ = std::fs::remove_file(&input);
        result?;
    }
    Ok(())
}

fn main() -> ExitCode {
    match run() {
        Ok(()) => ExitCode::SUCCESS,
        Err(message) => {
            println!("FAILED: {message}");
            ExitCode::from(1)
        }
    }
}
