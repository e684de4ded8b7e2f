//! Times of a call on all sides, in turns.

use crate::cases::{Call, Case};
use crate::sides::{copies, nothing, ByValue, Plain, Proved, Run, Side, Work};
use std::hint::black_box;
use std::time::Instant;

/// How often a call is made of each case: more often where it changes nothing
/// and is short.
fn repeats(call: Call) -> usize {
    match call {
        Call::Quorum => 200,
        Call::Start | Call::Whole | Call::ReadLine => 20,
        _ => 1,
    }
}

/// Nanoseconds for all cases once, begun afresh.
fn batch<S: Copy>(run: Run<S>, cases: &[Case], fresh: &[Work<S>], repeats: usize) -> f64 {
    let mut works = fresh.to_vec();
    let begin = Instant::now();
    for (case, work) in cases.iter().zip(&mut works) {
        for _ in 0..repeats {
            black_box(black_box(run)(black_box(case), work));
        }
    }
    begin.elapsed().as_nanos() as f64
}

fn median(mut values: Vec<f64>) -> f64 {
    values.sort_by(f64::total_cmp);
    values[values.len() / 2]
}

/// The rounds of one side: with a call, and with nothing in its place.
struct Clock<'a, S> {
    run: Run<S>,
    cases: &'a [Case],
    fresh: Vec<Work<S>>,
    repeats: usize,
    with: Vec<f64>,
    without: Vec<f64>,
}

impl<S: Copy> Clock<'_, S> {
    fn new<C: Side<Session = S>>(run: Run<S>, cases: &[Case], repeats: usize) -> Clock<'_, S> {
        Clock {
            run,
            cases,
            fresh: cases.iter().map(C::work).collect(),
            repeats,
            with: Vec::new(),
            without: Vec::new(),
        }
    }

    fn round(&mut self) {
        let time = |run| batch(run, self.cases, &self.fresh, self.repeats);
        self.with.push(time(self.run));
        self.without.push(time(nothing));
    }

    /// Nanoseconds of one call.
    fn median(self) -> f64 {
        let made = (self.cases.len() * self.repeats) as f64;
        (median(self.with) - median(self.without)) / made
    }
}

/// Nanoseconds of one call: the proved one, the plain one, and that by value.
pub fn times(call: Call, cases: &[Case], rounds: usize) -> [f64; 3] {
    let repeats = repeats(call);
    let mut proved = Clock::new::<Proved>(Proved::run(call), cases, repeats);
    let mut plain = Clock::new::<Plain>(Plain::run(call), cases, repeats);
    let mut by_value = Clock::new::<ByValue>(ByValue::run(call), cases, repeats);
    for _ in 0..rounds {
        proved.round();
        plain.round();
        by_value.round();
    }
    [proved.median(), plain.median(), by_value.median()]
}

/// Nanoseconds of the copies of a call by value. They are short, so that a
/// moment of other work could fill as few rounds as a call gets.
pub fn copies_time(cases: &[Case], rounds: usize) -> f64 {
    let mut clock = Clock::new::<ByValue>(copies, cases, 1);
    for _ in 0..10 * rounds {
        clock.round();
    }
    clock.median()
}
