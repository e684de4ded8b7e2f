//! The input for the timing of `frames`: mixed lines.

use compare::line_gen::{self, kinds};
use compare::rng::Rng;
use std::io::{self, Write};

/// Writes at least so many bytes of mixed lines: of a hundred lines about 60
/// are valid states, 25 attempts, and 15 of any kind, most of them broken.
pub fn write_input(to: &mut dyn Write, bytes: u64, seed: u64) -> io::Result<u64> {
    let mut rng = Rng::new(seed);
    let kinds = kinds();
    let mut written = 0;
    let mut lines = 0;
    while written < bytes {
        let line = match rng.below(100) {
            0..=59 => line_gen::state(&mut rng),
            60..=84 => line_gen::attempt(&mut rng),
            _ => {
                let kind = &kinds[rng.index(kinds.len())];
                // Very long lines are left for one time in fifty.
                if kind.name == "over-long: very long" && !rng.one_in(50) {
                    continue;
                }
                (kind.make)(&mut rng)
            }
        };
        to.write_all(&line)?;
        written += line.len() as u64;
        lines += 1;
    }
    Ok(lines)
}
