//! Writes mixed lines to standard output: frames-input BYTES [SEED].

use std::io::{self, BufWriter, Write};

fn main() -> io::Result<()> {
    let mut given = std::env::args().skip(1);
    let mut number = |default| match given.next().map(|text| text.parse::<u64>()) {
        None => default,
        Some(Ok(n)) => n,
        Some(Err(_)) => {
            eprintln!("usage: frames-input [BYTES [SEED]]");
            std::process::exit(2);
        }
    };
    let bytes = number(100_000_000);
    let seed = number(1);
    let mut out = BufWriter::new(io::stdout().lock());
    write_all(&mut out, bytes, seed)?;
    out.flush()
}

fn write_all(out: &mut dyn Write, bytes: u64, seed: u64) -> io::Result<()> {
    bench_frames::write_input(out, bytes, seed).map(|_| ())
}
