//! The summary of a soak, on one screen.

use crate::calls::Kind;
use crate::changes::Meaning;
use crate::check::Good;
use crate::counts::{Counts, Fell};
use crate::driver::Ran;
use second::answers::Answer;

/// The kills have a column for each number of stores made below this one, and
/// one for more.
const COLUMNS: usize = 8;

pub fn summary(ran: &Ran, good: &Good) -> String {
    let counts = &good.counts;
    let mut lines = vec![driven(ran, counts), lines_carried(ran)];
    lines.extend(kills(ran, counts));
    lines.push(recoveries(counts));
    lines.push(decisions(counts));
    lines.push(formed(good));
    lines.push(format!("refusals by number: {}", refusals(counts)));
    lines.join("\n") + "\n"
}

fn driven(ran: &Ran, counts: &Counts) -> String {
    format!(
        "steps {} ({} calm, {} staged), views {}, calls {}, stores {}",
        ran.steps, ran.calm, ran.staged, ran.views, counts.calls, counts.stores
    )
}

fn lines_carried(ran: &Ran) -> String {
    let carried = &ran.carried;
    format!(
        "lines {}: lost {}, parted {}, repeated {}, late {}, short {}",
        carried.taken, carried.lost, carried.parted, carried.repeated, carried.late, carried.short
    )
}

fn kills(ran: &Ran, counts: &Counts) -> Vec<String> {
    let elsewhere = counts.killed(|fell, _| fell == Fell::Between);
    let mut lines = vec![
        format!(
            "kills {}: {} in a call that stores, {elsewhere} elsewhere; named stores not come to {}",
            ran.kills,
            ran.kills - elsewhere,
            ran.unmet
        ),
        String::from("by the stores made; a+b: a at a named store, b at a random moment"),
    ];
    let numbers = (0..COLUMNS).map(|column| column.to_string());
    lines.push(row("made", numbers.chain([format!("{COLUMNS}..")])));
    for kind in Kind::ALL {
        let cells = (0..=COLUMNS).map(|column| kill_cell(counts, kind, column));
        lines.push(row(kind.name(), cells));
    }
    lines
}

fn row(name: &str, cells: impl Iterator<Item = String>) -> String {
    let cells: String = cells.map(|cell| format!(" {cell:>8}")).collect();
    format!("  {name:<8}{cells}")
}

fn kill_cell(counts: &Counts, kind: Kind, column: usize) -> String {
    let count = |wanted: bool| {
        counts.killed(|fell, aimed| match fell {
            Fell::In { kind: other, made } => {
                other == kind && made.min(COLUMNS) == column && aimed == wanted
            }
            Fell::Between => false,
        })
    };
    match (count(true), count(false)) {
        (0, 0) => String::from("."),
        (aimed, 0) => aimed.to_string(),
        (aimed, random) => format!("{aimed}+{random}"),
    }
}

fn recoveries(counts: &Counts) -> String {
    format!(
        "recoveries {}, with words to store {}",
        counts.answered(Answer::Recovered),
        counts.mended
    )
}

fn decisions(counts: &Counts) -> String {
    format!(
        "decisions: attempted {}, no quorum {}; marked {}, adopted {}, cleared {}",
        counts.answered(Answer::Attempted),
        counts.answered(Answer::NoQuorum),
        counts.change(Meaning::Mark),
        counts.change(Meaning::Adoption),
        counts.change(Meaning::Clearing)
    )
}

fn formed(good: &Good) -> String {
    let last = good.chain.last().map_or(0, |session| session.number);
    format!(
        "formed {} times, {} sessions; with the core's a chain of {}, last number {last}",
        good.counts.formed.len(),
        good.chain.len() - 1,
        good.chain.len()
    )
}

fn refusals(counts: &Counts) -> String {
    let refused = counts.answers.iter().filter_map(|(answer, count)| {
        let Answer::Refused(refusal) = answer else {
            return None;
        };
        Some(format!("{}: {count}", refusal.number()))
    });
    refused.collect::<Vec<String>>().join(", ")
}
