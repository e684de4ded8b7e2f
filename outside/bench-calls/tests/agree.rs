//! The plain library does what `second` does: nothing is timed that computes
//! something else.

use bench_calls::side::Plain;
use compare::calls_compare::{calls, records};
use compare::check::Check;

#[test]
fn records_agree() {
    let mut plain = Plain;
    let mut check = Check::new(&mut plain);
    let result = records(&mut check, 5, 60_000);
    assert!(result.expect("no difference") >= 60_000);
}

#[test]
fn calls_agree() {
    let mut plain = Plain;
    let mut check = Check::new(&mut plain);
    let result = calls(&mut check, 6, 200_000);
    assert!(result.expect("no difference") >= 200_000);
}
