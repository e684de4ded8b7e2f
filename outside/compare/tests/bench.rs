//! The stories are told by the second program's bench, and the comparison of
//! bench programs finds wrong ones and fails if something was not met.

use compare::bench_compare::{run, second_prints, Options};
use compare::feed::{Feed, Program};
use compare::stories;

struct Made(fn(&[u8]) -> Vec<u8>);

impl Program for Made {
    fn run(&mut self, input: &[u8], _: &Feed) -> Result<Vec<u8>, String> {
        Ok((self.0)(input))
    }
}

/// Wrong benches, each with what is wrong.
fn wrong() -> Vec<(&'static str, fn(&[u8]) -> Vec<u8>)> {
    vec![
        ("prints nothing", |_| Vec::new()),
        ("takes upper case", |input| {
            second_prints(&input.to_ascii_lowercase())
        }),
        ("leaves out last bytes without newline", |input| {
            let end = input.iter().rposition(|&b| b == b'\n').map_or(0, |n| n + 1);
            second_prints(&input[..end])
        }),
        ("adds a newline to last bytes", |input| {
            let newline: &[u8] = if input.ends_with(b"\n") { b"" } else { b"\n" };
            second_prints(&[input, newline].concat())
        }),
        ("leaves out empty lines", |input| {
            let lines = input.split_inclusive(|&b| b == b'\n');
            let full: Vec<&[u8]> = lines.filter(|l| *l != b"\n").collect();
            second_prints(&full.concat())
        }),
        ("does not print the last formed session", |input| {
            let mut out = second_prints(input);
            let sessions = out.windows(2).rposition(|w| w == b"F ");
            out.truncate(sessions.unwrap_or(out.len()));
            out
        }),
        ("takes CR as the end of a line too", |input| {
            let line = |&b: &u8| if b == b'\r' { b'\n' } else { b };
            second_prints(&input.iter().map(line).collect::<Vec<u8>>())
        }),
    ]
}

#[test]
fn second_tells_the_stories() {
    let names = stories::run(&mut Made(second_prints)).unwrap();
    assert!(names.len() >= 16, "{names:?}");
}

#[test]
fn a_story_has_a_line_for_each_event_and_then_only_sessions() {
    for story in stories::stories().unwrap() {
        let count = story.events.split_inclusive(|&b| b == b'\n').count();
        let expected = String::from_utf8(story.expected).unwrap();
        let sessions = expected.lines().skip(count);
        assert!(expected.lines().count() >= count, "{}", story.name);
        for line in sessions {
            assert!(line.starts_with("F "), "{}: {line}", story.name);
        }
    }
}

#[test]
fn wrong_benches_do_not_tell_the_stories() {
    for (what, bench) in wrong() {
        assert!(stories::run(&mut Made(bench)).is_err(), "{what}");
    }
}

#[test]
fn wrong_benches_are_found_and_the_history_shrinks() {
    for (what, bench) in wrong() {
        let options = Options {
            seed: 5,
            histories: 300,
        };
        let said = run(&mut Made(bench), &options).err().unwrap();
        assert!(said.starts_with("difference, seed 5"), "{what}: {said}");
        let small = said
            .split("the smallest history found, of ")
            .nth(1)
            .unwrap();
        let lines: usize = small.split(' ').next().unwrap().parse().unwrap();
        assert!(lines <= 12, "{what}: {said}");
    }
}

#[test]
fn something_not_met_is_a_failure() {
    let options = Options {
        seed: 5,
        histories: 40,
    };
    let said = run(&mut Made(second_prints), &options).err().unwrap();
    assert!(said.starts_with("not met: "), "{said}");
}
