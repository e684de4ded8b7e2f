//! Comparisons of the proved programs with `second`.

pub mod bench_compare;
pub mod bench_damage;
pub mod bench_events;
pub mod bench_gen;
pub mod bench_met;
pub mod calls_compare;
pub mod check;
pub mod feed;
pub mod frames_compare;
pub mod history;
pub mod line_gen;
pub mod proved_side;
pub mod record_gen;
pub mod rng;
pub mod session_gen;
pub mod side;
pub mod stories;
