//! Each slip is found in a bounded number of steps and its history shrunk to
//! a few lines; slips that break the chain are found by the chain alone too.

use explorer::event::History;
use explorer::explore::{explore, replay, Options};
use explorer::shrink::shrink;
use explorer::slipped::{Slip, Slipped, SLIPS};
use explorer::step::{Fault, Runner};
use explorer::text;
use std::time::Duration;

/// Explores a head with the slip; the failure and its shrunk history.
fn found(slip: Slip, lockstep: u64, steps: u64, only: Option<&str>) -> Option<(Fault, History)> {
    let mut side = Slipped(slip);
    let mut runner = Runner::new(&mut side, lockstep);
    let only = only.map(String::from);
    let options = Options {
        seed: 1,
        steps,
        time: None,
        only,
    };
    let found = explore(&mut runner, &options).err()?;
    let fault = found.failure.fault;
    let small = shrink(&mut runner, found.history, fault, Duration::from_secs(60));
    let (made, again) = replay(&mut runner, &small).expect("the shrunk history fails");
    assert_eq!(again.fault, fault);
    assert_eq!(made, small.events.len(), "nothing comes after the failure");
    Some((fault, small))
}

fn shown(history: &History) -> String {
    text::lines(history).join("\n")
}

#[test]
fn no_slip_is_found_where_there_is_none() {
    let mut side = Slipped(Slip::None);
    let mut runner = Runner::new(&mut side, 1);
    let options = Options {
        seed: 2,
        steps: 300_000,
        time: None,
        only: None,
    };
    if let Err(found) = explore(&mut runner, &options) {
        panic!("{}\n{}", found.failure.text, shown(&found.history));
    }
    assert!(runner.counts.compared > 300_000);
    assert_eq!(runner.counts.not_met(), Vec::<String>::new());
}

#[test]
fn every_slip_is_found_in_lockstep() {
    for (name, slip) in SLIPS {
        if slip == Slip::None {
            continue;
        }
        let (_, small) =
            found(slip, 1, 150_000, None).unwrap_or_else(|| panic!("{name}: not found"));
        let lines = text::lines(&small).len();
        assert!(lines <= 20, "{name}: {lines} lines\n{}", shown(&small));
    }
}

#[test]
fn slips_of_recovery_are_found_without_lockstep() {
    let slips = [
        Slip::RecoversWithoutStep1,
        Slip::RecoversWithoutStep2,
        Slip::RecoversWithoutStep3,
        Slip::RecoversWithoutStep4,
    ];
    for slip in slips {
        let (fault, small) = found(slip, 0, 50_000, None).expect("it is found");
        assert_eq!(fault, Fault::Recovery, "{slip:?}");
        assert!(
            text::lines(&small).len() <= 20,
            "{slip:?}\n{}",
            shown(&small)
        );
    }
}

/// Each check by itself finds a slip.
#[test]
fn other_checks_find_slips_without_lockstep() {
    let faults = [
        (Slip::ForgetsWhenRefused, None, Fault::NotKept),
        (Slip::AdoptsWithPlaces, None, Fault::Refusal2),
        (Slip::EntersTwice, None, Fault::Line),
        (Slip::KeepsUnderC, Some("pile"), Fault::Places),
    ];
    for (slip, only, expected) in faults {
        let (fault, _) = found(slip, 0, 100_000, only).expect("it is found");
        assert_eq!(fault, expected, "{slip:?}");
    }
    let mut side = Slipped(Slip::None);
    let mut runner = Runner::new(&mut side, 0);
    let no_start = text::read("group 0003 3 2 0").expect("it reads");
    let failed = replay(&mut runner, &no_start);
    assert!(failed.is_some_and(|(_, failure)| failure.fault == Fault::Start));
}

#[test]
fn a_short_run_does_not_meet_all() {
    let mut side = Slipped(Slip::None);
    let mut runner = Runner::new(&mut side, 0);
    let options = Options {
        seed: 1,
        steps: 1000,
        time: None,
        only: None,
    };
    assert!(explore(&mut runner, &options).is_ok());
    let not_met = runner.counts.not_met();
    assert!(not_met.contains(&String::from("decide: numbers run out")));
    assert!(not_met.contains(&String::from("form cut after 9 stores")));
}

/// Found by the formed sessions alone, in so many steps and lines.
fn breaks_the_chain(slip: Slip, manner: &str, steps: u64, most: usize) {
    let (fault, small) = found(slip, 0, steps, Some(manner)).expect("it is found");
    assert_eq!(fault, Fault::Chain, "{slip:?}");
    let lines = text::lines(&small).len();
    assert!(lines <= most, "{slip:?}: {lines} lines\n{}", shown(&small));
}

#[test]
fn half_is_not_enough_for_the_chain() {
    breaks_the_chain(Slip::HalfPasses, "small", 200_000, 20);
}

#[test]
fn keeping_only_the_latest_breaks_the_chain() {
    breaks_the_chain(Slip::KeepsLatest, "rounds", 400_000, 20);
}

#[test]
fn dropping_after_a_later_attempt_breaks_the_chain() {
    breaks_the_chain(Slip::DropsAfterLater, "rounds", 400_000, 20);
}

/// It breaks only with a cut between marking and adoption (head 0 in view 3).
/// The search seldom meets it, so a history that it once found is kept.
#[test]
fn marking_at_or_below_breaks_the_chain_with_a_cut() {
    let history = |stores: &str| {
        let text = format!(
            "group 0005 1 3 0; view 1:0007 2:0005 3:0005 4:0001 5:0003 6:0004
             enter 1 1 0 2; state 1 0<1 0<2 2<0 2<1 1<0 1<2; decide 0 2 1
             attempt 1 2<0 2<1; form 2
             enter 2 0 2; state 2 2<0 0<2; decide 2 0; attempt 2 2<0; form 2
             enter 3 2 0; state 3 0<2; decide 0{stores}
             enter 4 0; decide 0
             enter 5 1 0; state 5 0<1 1<0; decide 0 1; attempt 5 1<0; form 1
             enter 6 2; decide 2; form 2"
        );
        text::read(&text).expect("it reads")
    };
    let fault = |slip, stores| {
        let mut side = Slipped(slip);
        let mut runner = Runner::new(&mut side, 0);
        replay(&mut runner, &history(stores)).map(|(_, failure)| failure.fault)
    };
    assert_eq!(fault(Slip::MarksAtOrBelow, ":1"), Some(Fault::Chain));
    assert_eq!(fault(Slip::MarksAtOrBelow, ""), None);
    assert_eq!(fault(Slip::None, ":1"), None);
}

/// Which head breaks a tie is the same for all, so the chain holds: only
/// `second` tells.
#[test]
fn a_tie_to_the_lowest_head_keeps_the_chain() {
    assert!(found(Slip::TieLowest, 0, 100_000, None).is_none());
}
