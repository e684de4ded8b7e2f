//! Shows that the comparisons find slips: each slip of a list is put in a
//! copy of `second`, and the copy is compared with `second`.
//!
//! usage: mutants [--only WORD] [--from N]
//!
//! Run it in the directory `outside`. The copies are made under the target
//! directory of this workspace.

mod list;

use std::io::Read;
use std::path::{Path, PathBuf};
use std::process::{Command, ExitCode, Stdio};
use std::time::{Duration, Instant};

pub struct Slip {
    pub file: &'static str,
    /// Text that is found in the file once.
    pub from: &'static str,
    pub to: &'static str,
    pub what: &'static str,
}

/// The time given to the comparisons of one copy.
const LIMIT: Duration = Duration::from_secs(180);

const AGAINST: &str = include_str!("against.rs.txt");

fn write(path: &Path, text: &str) -> Result<(), String> {
    if let Some(directory) = path.parent() {
        std::fs::create_dir_all(directory).map_err(|e| e.to_string())?;
    }
    if std::fs::read_to_string(path).is_ok_and(|old| old == text) {
        return Ok(());
    }
    std::fs::write(path, text).map_err(|e| format!("{}: {e}", path.display()))
}

fn sources(second: &Path) -> Result<Vec<(String, String)>, String> {
    let mut all = Vec::new();
    for entry in std::fs::read_dir(second.join("src")).map_err(|e| e.to_string())? {
        let path = entry.map_err(|e| e.to_string())?.path();
        // The programs of the crate are not compared by the copies.
        if path.is_dir() {
            continue;
        }
        let name = path.file_name().unwrap_or_default().to_string_lossy().into_owned();
        let text = std::fs::read_to_string(&path).map_err(|e| e.to_string())?;
        all.push((name, text));
    }
    Ok(all)
}

fn prepare(outside: &Path, work: &Path) -> Result<(), String> {
    write(
        &work.join("Cargo.toml"),
        "[workspace]\nresolver = \"2\"\nmembers = [\"mutant\", \"against\"]\n\n\
         [profile.release]\noverflow-checks = true\n",
    )?;
    write(
        &work.join("mutant/Cargo.toml"),
        "[package]\nname = \"mutant\"\nversion = \"0.1.0\"\nedition = \"2021\"\n",
    )?;
    write(
        &work.join("against/Cargo.toml"),
        &format!(
            "[package]\nname = \"against\"\nversion = \"0.1.0\"\nedition = \"2021\"\n\n\
             [dependencies]\nmutant = {{ path = \"../mutant\" }}\n\
             second = {{ path = {0:?} }}\ncompare = {{ path = {1:?} }}\n",
            outside.join("second"),
            outside.join("compare"),
        ),
    )?;
    write(&work.join("against/src/main.rs"), AGAINST)
}

fn build(work: &Path) -> Result<PathBuf, String> {
    let target = work.join("target");
    let result = Command::new("cargo")
        .args(["build", "--release", "--offline", "--quiet"])
        .current_dir(work)
        .env("CARGO_TARGET_DIR", &target)
        .env("RUSTFLAGS", "-Awarnings")
        .stderr(Stdio::piped())
        .output()
        .map_err(|e| format!("cargo: {e}"))?;
    if !result.status.success() {
        return Err(String::from_utf8_lossy(&result.stderr).into_owned());
    }
    Ok(target.join("release/against"))
}

/// Puts the slip in, and runs the comparisons. `None` is the copy unchanged.
fn run(
    sources: &[(String, String)],
    work: &Path,
    slip: Option<&Slip>,
) -> Result<(bool, String), String> {
    for (name, text) in sources {
        let mut text = text.clone();
        if let Some(slip) = slip.filter(|s| s.file == name) {
            let times = text.matches(slip.from).count();
            if times != 1 {
                return Err(format!("its text is in {name} {times} times"));
            }
            text = text.replace(slip.from, slip.to);
        }
        write(&work.join("mutant/src").join(name), &text)?;
    }
    // The comparison that should see the change comes first.
    let names: &[&str] = match slip.map(|s| s.file) {
        None => &["frames", "records", "calls", "bench"],
        Some("bench.rs") => &["bench"],
        Some("lines.rs" | "frames.rs") => &["frames", "calls"],
        Some("calls.rs" | "head_session.rs") => &["calls"],
        Some(_) => &["records", "calls"],
    };
    let program = build(work)?;
    let mut child = Command::new(program)
        .args(names)
        .stdout(Stdio::piped())
        .spawn()
        .map_err(|e| e.to_string())?;
    // A change that keeps a comparison from ending is found too.
    let end = Instant::now() + LIMIT;
    loop {
        if let Some(status) = child.try_wait().map_err(|e| e.to_string())? {
            let mut said = String::new();
            if let Some(mut out) = child.stdout.take() {
                out.read_to_string(&mut said).map_err(|e| e.to_string())?;
            }
            return Ok((status.success(), said.trim().to_string()));
        }
        if Instant::now() > end {
            let _ = child.kill();
            let _ = child.wait();
            return Ok((true, String::from("no end")));
        }
        std::thread::sleep(Duration::from_millis(20));
    }
}

fn all() -> Result<usize, String> {
    let outside = std::env::current_dir().map_err(|e| e.to_string())?;
    if !outside.join("second/src/lib.rs").exists() {
        return Err(String::from("run this in the directory outside"));
    }
    let mut only = String::new();
    let mut from = 0;
    let usage = "usage: mutants [--only WORD] [--from N]";
    let mut given = std::env::args().skip(1);
    while let Some(word) = given.next() {
        match (word.as_str(), given.next()) {
            ("--only", Some(text)) => only = text,
            ("--from", Some(text)) => from = text.parse().map_err(|_| usage)?,
            _ => return Err(String::from(usage)),
        }
    }
    let work = outside.join("../target/cargo/mutants");
    std::fs::create_dir_all(&work).map_err(|e| e.to_string())?;
    let work = work.canonicalize().map_err(|e| e.to_string())?;
    prepare(&outside, &work)?;
    let sources = sources(&outside.join("second"))?;

    let (found, said) = run(&sources, &work, None)?;
    if found {
        return Err(format!("the unchanged copy differs: {said}"));
    }
    println!("the unchanged copy is found by {said}");
    let mut missed = 0;
    let mut count = 0;
    for slip in list::slips().into_iter().skip(from) {
        if !slip.what.contains(&only) && !slip.file.contains(&only) {
            continue;
        }
        count += 1;
        match run(&sources, &work, Some(&slip)) {
            Err(message) => {
                missed += 1;
                println!("ERROR  {}: {}: {message}", slip.file, slip.what);
            }
            Ok((true, said)) => println!("found  {}: {} (by {said})", slip.file, slip.what),
            Ok((false, _)) => {
                missed += 1;
                println!("MISSED {}: {}", slip.file, slip.what);
            }
        }
    }
    println!("{count} slips, {missed} missed");
    Ok(missed)
}

fn main() -> ExitCode {
    match all() {
        Ok(0) => ExitCode::SUCCESS,
        Ok(_) => ExitCode::from(1),
        Err(message) => {
            println!("FAILED: {message}");
            ExitCode::from(1)
        }
    }
}
