//! Instructions of a call, counted by callgrind while `counted` runs in a
//! second process of this program.

use crate::cases::{cases, Call, Case};
use crate::sides::{copies, nothing, ByValue, Plain, Proved, Run, Side};
use std::process::Command;

/// Callgrind counts while this runs, so it has a name of its own.
#[no_mangle]
#[inline(never)]
fn counted(calls: &mut dyn FnMut()) {
    calls();
}

fn make_all<C: Side>(run: Run<C::Session>, cases: &[Case]) {
    let mut works: Vec<_> = cases.iter().map(C::work).collect();
    counted(&mut || {
        for (case, work) in cases.iter().zip(&mut works) {
            std::hint::black_box(run(case, work));
        }
    });
}

/// What the second process does: each case of a call once.
pub fn make(call: Call, heads: usize, side: &str) -> Result<(), String> {
    let cases = cases(call, heads);
    match side {
        "proved" => make_all::<Proved>(Proved::run(call), &cases),
        "plain" => make_all::<Plain>(Plain::run(call), &cases),
        "by value" => make_all::<ByValue>(ByValue::run(call), &cases),
        "copies" => make_all::<ByValue>(copies, &cases),
        "nothing" => make_all::<Plain>(nothing, &cases),
        _ => return Err(format!("no side is called {side}")),
    }
    Ok(())
}

/// The instructions of all cases of a call on one side.
fn collected(name: &str, heads: usize, side: &str) -> Result<f64, String> {
    let this = std::env::current_exe().map_err(|e| e.to_string())?;
    let result = Command::new("valgrind")
        .args(["--tool=callgrind", "--callgrind-out-file=/dev/null"])
        .args(["--collect-atstart=no", "--toggle-collect=counted"])
        .arg(this)
        .args(["--make", name, &heads.to_string(), side])
        .output()
        .map_err(|e| format!("valgrind: {e}"))?;
    let said = String::from_utf8_lossy(&result.stderr).into_owned();
    said.lines()
        .find_map(|line| line.split("Collected :").nth(1))
        .and_then(|count| count.trim().parse().ok())
        .ok_or(format!("callgrind gave no count:\n{said}"))
}

/// Instructions of one call on each of some sides, `made` calls being counted.
pub fn counts<const N: usize>(
    name: &str,
    heads: usize,
    made: usize,
    sides: [&str; N],
) -> Result<[f64; N], String> {
    let nothing = collected(name, heads, "nothing")?;
    let mut all = [0.0; N];
    for (count, side) in all.iter_mut().zip(sides) {
        *count = (collected(name, heads, side)? - nothing) / made as f64;
    }
    Ok(all)
}
