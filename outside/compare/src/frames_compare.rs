//! Compares a program with what `second` says that `frames` prints.

use crate::feed::{Feed, Program};
use crate::line_gen::{kinds, valid, Expect};
use crate::rng::Rng;
use second::frames::text;
use second::lines::{read, Frame};
use std::collections::BTreeMap;

/// What was generated and compared.
#[derive(Default)]
pub struct Counts {
    pub kinds: Vec<(&'static str, u64)>,
    pub verdicts: BTreeMap<String, u64>,
    pub tails: BTreeMap<String, u64>,
    pub runs: u64,
    pub lines: u64,
    pub bytes: u64,
}

pub struct Options {
    pub seed: u64,
    /// Lines in the main stream.
    pub lines: usize,
}

/// One line of a stream, with its newline except perhaps for the last.
type Line = Vec<u8>;

/// Makes a stream of lines of every kind in turn, in mixed order.
fn main_stream(rng: &mut Rng, count: usize, counts: &mut Counts) -> Result<Vec<Line>, String> {
    let kinds = kinds();
    counts.kinds = kinds.iter().map(|k| (k.name, 0)).collect();
    let mut lines = Vec::new();
    for i in 0..count {
        let which = i % kinds.len();
        let kind = &kinds[which];
        // Very long lines are taken in one turn of eight.
        if kind.name == "over-long: very long" && (i / kinds.len()) % 8 != 0 {
            continue;
        }
        let line = (kind.make)(rng);
        let (verdict, rest) = read(&line);
        let found = match &verdict {
            Ok(Frame::Attempt { .. }) => Expect::Attempt,
            Ok(Frame::State { state, .. }) => Expect::State(state.places.len()),
            Err(broken) => Expect::Rule(broken.0),
        };
        if !rest.is_empty() || (kind.expect != Expect::Any && kind.expect != found) {
            return Err(format!(
                "the generator made a line of kind \"{}\" that second takes as {found:?}: {}",
                kind.name,
                shown(&line)
            ));
        }
        let verdict = match found {
            Expect::Attempt => String::from("attempt"),
            Expect::State(_) => String::from("state"),
            Expect::Rule(n) => format!("refused, rule {n}"),
            Expect::Any => unreachable!(),
        };
        counts.kinds[which].1 += 1;
        *counts.verdicts.entry(verdict).or_default() += 1;
        lines.push(line);
    }
    for i in (1..lines.len()).rev() {
        lines.swap(i, rng.index(i + 1));
    }
    Ok(lines)
}

/// Runs the program on the lines and compares its output with `second`'s.
fn compare(
    program: &mut dyn Program,
    lines: &[Line],
    feed: &Feed,
    counts: &mut Counts,
) -> Result<(), String> {
    let input: Vec<u8> = lines.concat();
    let mut expected = Vec::new();
    let mut ends = Vec::new();
    for line in lines.iter().filter(|l| !l.is_empty()) {
        expected.extend(text(&read(line).0).into_bytes());
        ends.push(expected.len());
    }
    // The lines are walked in `second` too.
    if second::frames::frames(&input) != expected {
        return Err(String::from("second disagrees with itself on a stream"));
    }
    let out = program
        .run(&input, feed)
        .map_err(|e| format!("{} of {} bytes: {e}", feed.name(), input.len()))?;
    counts.runs += 1;
    counts.lines += ends.len() as u64;
    counts.bytes += input.len() as u64;
    if out == expected {
        return Ok(());
    }
    let same = out
        .iter()
        .zip(&expected)
        .take_while(|(a, b)| a == b)
        .count();
    let at = ends.iter().take_while(|&&end| end <= same).count();
    let wanted: Vec<&Line> = lines.iter().filter(|l| !l.is_empty()).collect();
    let line = match wanted.get(at) {
        Some(line) => shown(line),
        None => String::from("(after the last line)"),
    };
    let from = if at == 0 { 0 } else { ends[at - 1] };
    Err(format!(
        "difference, fed {}, at line {} of {}:\n  line:    {}\n  second:  {}\n  program: {}",
        feed.name(),
        at + 1,
        wanted.len(),
        line,
        one_line(&expected, from),
        one_line(&out, from),
    ))
}

fn one_line(text: &[u8], from: usize) -> String {
    let rest = &text[from.min(text.len())..];
    let end = rest
        .iter()
        .position(|&b| b == b'\n')
        .map_or(rest.len(), |n| n + 1);
    shown(&rest[..end])
}

/// Bytes as they can be printed, the middle of long ones left out.
pub fn shown(bytes: &[u8]) -> String {
    if bytes.len() > 1200 {
        return format!(
            "{}...({} bytes)...{}",
            bytes[..500].escape_ascii(),
            bytes.len() - 1000,
            bytes[bytes.len() - 500..].escape_ascii()
        );
    }
    format!("\"{}\"", bytes.escape_ascii())
}

/// Sizes of pieces.
const SIZES: [usize; 31] = [
    1, 2, 3, 5, 7, 12, 13, 14, 63, 64, 65, 226, 227, 228, 418, 419, 420, 511, 512, 513, 1023,
    1024, 1025, 4095, 4096, 4097, 8191, 8192, 8193, 65_535, 65_536,
];

/// Some lines that follow each other in the stream, of about so many bytes.
fn part<'a>(rng: &mut Rng, lines: &'a [Line], bytes: usize) -> &'a [Line] {
    let from = rng.index(lines.len());
    let mut to = from;
    let mut sum = 0;
    while to < lines.len() && sum < bytes {
        sum += lines[to].len();
        to += 1;
    }
    &lines[from..to]
}

/// The whole comparison.
pub fn run(program: &mut dyn Program, options: &Options) -> Result<Counts, String> {
    let mut rng = Rng::new(options.seed);
    let mut counts = Counts::default();
    let lines = main_stream(&mut rng, options.lines, &mut counts)?;
    let short: Vec<Line> = lines.iter().filter(|l| l.len() < 1000).cloned().collect();

    compare(program, &lines, &Feed::File, &mut counts)?;
    compare(program, &lines, &Feed::Whole, &mut counts)?;

    // In pieces. A part of the stream is taken so that the pieces are few.
    for size in SIZES {
        let feed = Feed::Pieces(vec![size]);
        let from = if size < 1000 { &short } else { &lines };
        let taken = part(&mut rng, from, (size * 1500).min(2_000_000));
        compare(program, taken, &feed, &mut counts)?;
    }
    for most in [3, 20, 450, 5000] {
        let sizes: Vec<usize> = (0..997).map(|_| 1 + rng.index(most)).collect();
        let taken = part(&mut rng, &lines, (most * 1000).min(2_000_000));
        compare(program, taken, &Feed::Pieces(sizes), &mut counts)?;
    }
    // Pieces that end at a newline, and just before and after one.
    for off in [0usize, 1, 2] {
        let taken = part(&mut rng, &short, 200_000);
        let mut sizes: Vec<usize> = taken.iter().map(|l| l.len()).collect();
        sizes[0] += off;
        compare(program, taken, &Feed::Pieces(sizes), &mut counts)?;
    }

    // Lines that begin and end around the ends of likely buffers.
    for buffer in [419usize, 512, 1024, 4096, 8192, 32_768, 65_536, 131_072, 1 << 20] {
        for off in 0..7 {
            let mut taken: Vec<Line> = Vec::new();
            let mut filler = vec![b'0'; buffer + off - 4];
            filler.push(b'\n');
            taken.push(filler);
            for _ in 0..8 {
                taken.push(valid(&mut rng));
            }
            compare(program, &taken, &Feed::File, &mut counts)?;
            // The same room filled with short lines.
            let mut taken: Vec<Line> = Vec::new();
            let mut room = buffer + off - 3;
            while room > 13 {
                taken.push(b"020000000702\n".to_vec());
                room -= 13;
            }
            taken.push([vec![b'0'; room - 1], b"\n".to_vec()].concat());
            for _ in 0..8 {
                taken.push(valid(&mut rng));
            }
            compare(program, &taken, &Feed::File, &mut counts)?;
        }
    }

    tails(program, &mut rng, &mut counts)?;

    for (name, count) in &counts.kinds {
        if *count == 0 {
            return Err(format!("no line of kind \"{name}\" was generated"));
        }
    }
    let mut verdicts = vec![String::from("attempt"), String::from("state")];
    verdicts.extend((1..=7).map(|n| format!("refused, rule {n}")));
    for verdict in verdicts {
        if counts.verdicts.get(&verdict).copied().unwrap_or(0) == 0 {
            return Err(format!("no line had the verdict \"{verdict}\""));
        }
    }
    Ok(counts)
}

/// Last bytes without newline, after no lines or some.
fn tails(program: &mut dyn Program, rng: &mut Rng, counts: &mut Counts) -> Result<(), String> {
    let mut ends: Vec<(&str, Vec<u8>)> = vec![("nothing", Vec::new())];
    let mut line = valid(rng);
    line.pop();
    ends.push(("a valid frame", line));
    ends.push(("an attempt", b"020000000702".to_vec()));
    ends.push(("an attempt and CR", b"020000000702\r".to_vec()));
    ends.push(("one digit", b"0".to_vec()));
    ends.push(("one byte 00", vec![0]));
    ends.push(("a blank", b" ".to_vec()));
    ends.push(("a CR", b"\r".to_vec()));
    let mut half = valid(rng);
    half.truncate(half.len() / 2);
    ends.push(("half a frame", half));
    ends.push(("419 digits", vec![b'0'; 419]));
    ends.push(("100,000 digits", vec![b'0'; 100_000]));
    ends.push(("a garbled line", vec![0xff; 30]));
    for (name, end) in ends {
        for before in 0..4 {
            let mut lines: Vec<Line> = Vec::new();
            for i in 0..before {
                lines.push(if i == 2 {
                    b"\n".to_vec()
                } else {
                    valid(rng)
                });
            }
            lines.push(end.clone());
            let feed = match before {
                0 => Feed::Whole,
                1 => Feed::File,
                _ => Feed::Pieces(vec![1 + rng.index(200)]),
            };
            compare(program, &lines, &feed, counts)?;
            *counts.tails.entry(name.to_string()).or_default() += 1;
        }
    }
    // Only newlines.
    for n in [1, 2, 5000] {
        let lines = vec![b"\n".to_vec(); n];
        compare(program, &lines, &Feed::Whole, counts)?;
    }
    Ok(())
}

pub fn print(counts: &Counts) {
    println!("lines generated, by kind:");
    for (name, count) in &counts.kinds {
        println!("  {count:>7}  {name}");
    }
    println!("verdicts on them:");
    for (name, count) in &counts.verdicts {
        println!("  {count:>7}  {name}");
    }
    println!("streams with last bytes that have no newline:");
    for (name, count) in &counts.tails {
        println!("  {count:>7}  {name}");
    }
    println!(
        "runs of the program: {}, lines compared: {}, bytes fed: {}",
        counts.runs, counts.lines, counts.bytes
    );
}
