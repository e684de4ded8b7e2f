//! The comparison of `frames` programs finds wrong ones, and fails if it did
//! not generate a kind of line.

use compare::feed::{Feed, Program};
use compare::frames_compare::{run, Options};
use second::frames::frames;

struct Made(fn(&[u8]) -> Vec<u8>);

impl Program for Made {
    fn run(&mut self, input: &[u8], _: &Feed) -> Result<Vec<u8>, String> {
        Ok((self.0)(input))
    }
}

fn options(lines: usize) -> Options {
    Options { seed: 3, lines }
}

#[test]
fn second_agrees() {
    let counts = run(&mut Made(frames), &options(2000)).unwrap();
    assert!(counts.lines > 2000);
}

#[test]
fn missing_kinds_are_a_failure() {
    let said = run(&mut Made(frames), &options(40)).err().unwrap();
    assert!(said.contains("was generated"), "{said}");
}

#[test]
fn wrong_programs_are_found() {
    // Lower-cases its input.
    let mut lower = Made(|input| frames(&input.to_ascii_lowercase()));
    assert!(run(&mut lower, &options(2000)).is_err());
    // Leaves out last bytes without newline.
    let mut newline = Made(|input| {
        let end = input.iter().rposition(|&b| b == b'\n').map_or(0, |n| n + 1);
        frames(&input[..end])
    });
    assert!(run(&mut newline, &options(2000)).is_err());
    // Forgets what is in its buffer of 1024 bytes when that is full.
    let mut long = Made(|input| {
        let mut out = Vec::new();
        for line in input.split_inclusive(|&b| b == b'\n') {
            out.extend(frames(&line[(line.len() - 1) / 1024 * 1024..]));
        }
        out
    });
    assert!(run(&mut long, &options(4000)).is_err());
    // Prints nothing.
    let mut nothing = Made(|_| Vec::new());
    assert!(run(&mut nothing, &options(2000)).is_err());
}
