//! The comparisons of records and of calls.

use crate::check::{Call, Check};
use crate::history::{self, every_cut, Manner, Met};
use crate::line_gen;
use crate::record_gen;
use crate::rng::Rng;
use crate::session_gen::{
    case, damage_record, damage_session, full_case, related_state, sharp_case, view_zero, Case,
    WANTS,
};
use second::answers::Answer;
use second::group::heads_in;
use second::head_session::HeadSession;
use second::lines::{write, Frame};
use second::stores::recovery_stores;

const ALL: u64 = u64::MAX;

/// Numbers of stores a call may make, some of them beyond 8, 16 and 32 bits.
const BUDGETS: [u64; 10] = [
    0,
    1,
    2,
    3,
    1 << 8,
    1 << 16,
    1 << 32,
    (1 << 32) + 1,
    1 << 63,
    ALL,
];

// ---------------------------------------------------------------- records

/// Start, whole and recover, on at least so many records.
pub fn records(check: &mut Check, seed: u64, count: u64) -> Result<u64, String> {
    let mut rng = Rng::new(seed ^ 0x7265_636f_7264);
    let rng = &mut rng;
    let kinds = record_gen::kinds();
    let mut done = 0;
    let mut from_histories: Vec<Met> = Vec::new();
    while done < count {
        for kind in &kinds {
            let record = (kind.make)(rng);
            let whole = one_record(check, rng, &record)?;
            check.kind(kind.name);
            done += 1;
            if kind.whole.is_some_and(|expected| expected != whole) {
                return Err(format!(
                    "the generator made a record of kind \"{}\" that second takes as whole: \
                     {whole}\n{}",
                    kind.name,
                    crate::check::shown_record(&record)
                ));
            }
        }
        starts(check, rng)?;
        quorums(check, rng)?;

        // Records left by a cut at every position, then damaged.
        let Case {
            record, session, ..
        } = if rng.one_in(4) {
            full_case(rng)
        } else {
            let want = rng.pick(&WANTS);
            case(rng, want)
        };
        for cut in cuts(rng, &record, &session) {
            one_record(check, rng, &cut)?;
            check.kind("left by a cut");
            done += 1;
            if rng.one_in(8) {
                let mut damaged = cut;
                damage_record(rng, &mut damaged);
                one_record(check, rng, &damaged)?;
                check.kind("left by a cut and damaged");
                done += 1;
            }
        }

        // Records met in histories.
        if from_histories.is_empty() {
            let manner = Manner {
                rounds: 12,
                near_the_end: rng.one_in(5),
                mixed: rng.one_in(3),
                unruly: false,
            };
            let mut second = crate::side::Second;
            let mut alone = Check::new(&mut second);
            history::run(&mut alone, rng, &manner, &mut from_histories)?;
        }
        for _ in 0..3 {
            if let Some(met) = from_histories.pop() {
                one_record(check, rng, &met.record)?;
                check.kind("from a history");
                done += 1;
                for cut in cuts(rng, &met.record, &met.session) {
                    one_record(check, rng, &cut)?;
                    check.kind("from a history, left by a cut");
                    done += 1;
                }
            }
        }
    }
    for name in [
        "left by a cut",
        "left by a cut and damaged",
        "from a history",
        "from a history, left by a cut",
    ] {
        if check.kinds.get(name).copied().unwrap_or(0) == 0 {
            return Err(format!("no record of kind \"{name}\" was generated"));
        }
    }
    for (call, answer) in [
        ("whole", "true"),
        ("whole", "false"),
        ("start", "started"),
        ("start", "refusal 1"),
        ("start", "refusal 2"),
        ("recover", "recovered"),
        ("recover", "cut"),
        ("recover", "refusal 2"),
        ("quorum test", "true"),
        ("quorum test", "false"),
        ("quorum test", "refusal 1"),
    ] {
        require(check, call, answer)?;
    }
    Ok(done)
}

fn require(check: &Check, call: &'static str, answer: &str) -> Result<(), String> {
    match check.met.get(&(call, String::from(answer))) {
        Some(_) => Ok(()),
        None => Err(format!("{call} never gave {answer}")),
    }
}

/// Whole and recovery of one record, with several numbers of stores. Hands
/// back whether it is whole.
fn one_record(check: &mut Check, rng: &mut Rng, record: &[u64]) -> Result<bool, String> {
    let whole = check.whole(record)?;
    let (answer, end) = check.recover(record, ALL)?;
    if answer == Answer::Recovered {
        check.whole(&end)?;
        let budget = rng.pick(&BUDGETS);
        check.recover(record, budget)?;
        let stores = recovery_stores(record).len() as u64;
        let every = rng.one_in(4);
        for budget in 0..=stores + 1 {
            if !every && budget > 0 && budget + 1 < stores && !rng.one_in(4) {
                continue;
            }
            let (answer, cut) = check.recover(record, budget)?;
            if answer == Answer::Cut {
                let (_, again) = check.recover(&cut, ALL)?;
                if again != end {
                    return Err(String::from(
                        "recovery cut and run again ends otherwise in second",
                    ));
                }
            }
        }
    } else {
        check.recover(record, 0)?;
    }
    Ok(whole)
}

/// The records that the calls of a session leave if cut at every position.
fn cuts(rng: &mut Rng, record: &[u64], session: &HeadSession) -> Vec<Vec<u64>> {
    let mut all = Vec::new();
    let entering = Call::Enter {
        view: rng.number(),
        members: 0xffff,
        budget: 0,
    };
    for call in [entering, Call::Decide { budget: 0 }, Call::Form { budget: 0 }] {
        for budget in 0..200 {
            let now = match &call {
                Call::Decide { .. } => Call::Decide { budget },
                Call::Form { .. } => Call::Form { budget },
                other => other.clone(),
            };
            let after = crate::check::make(&mut crate::side::Second, record, session, &now);
            if after.answer != Answer::Cut {
                if budget > 0 {
                    all.push(after.record);
                }
                break;
            }
            all.push(after.record);
            if matches!(call, Call::Enter { .. }) {
                break;
            }
        }
    }
    all
}

fn starts(check: &mut Check, rng: &mut Rng) -> Result<(), String> {
    for _ in 0..8 {
        let length = if rng.one_in(6) { rng.index(80) } else { 52 };
        let record: Vec<u64> = (0..length).map(|_| rng.next()).collect();
        let group = record_gen::group(rng);
        let mut head = group.own as u8;
        let mut w0 = group.w0;
        let mut q = group.q;
        match rng.below(8) {
            0 => q = 0,
            1 => q = second::group::size(w0) as u8 + 1,
            2 => q = rng.next() as u8,
            3 => head = rng.range(16, 255) as u8,
            4 => head = 16,
            5 => w0 = 0,
            6 => {
                w0 = 0;
                q = 0;
            }
            _ => {}
        }
        check.start(&record, head, w0, q)?;
    }
    Ok(())
}

fn quorums(check: &mut Check, rng: &mut Rng) -> Result<(), String> {
    for _ in 0..40 {
        let group = record_gen::group(rng);
        let w0 = if rng.one_in(30) { 0 } else { group.w0 };
        let q = match rng.below(20) {
            0 => 0,
            1 => rng.next() as u8,
            2 => second::group::size(w0) as u8 + 1,
            _ => group.q,
        };
        let s = if rng.one_in(20) { 0 } else { rng.set() };
        // T near half of S, often.
        let t = match rng.below(4) {
            0 => rng.set(),
            1 => s & rng.next() as u16,
            2 => {
                let mut t = rng.set() & !s;
                for h in heads_in(s).into_iter().take(second::group::size(s) as usize / 2) {
                    t |= 1 << h;
                }
                t
            }
            _ => {
                let mut t = rng.set() & !s;
                for h in heads_in(s)
                    .into_iter()
                    .rev()
                    .take(second::group::size(s) as usize / 2)
                {
                    t |= 1 << h;
                }
                t
            }
        };
        check.quorum_test(w0, q, s, t)?;
    }
    Ok(())
}

// ---------------------------------------------------------------- calls

/// All calls: at least so many of them.
pub fn calls(check: &mut Check, seed: u64, count: u64) -> Result<u64, String> {
    let mut rng = Rng::new(seed ^ 0x6361_6c6c_73);
    let rng = &mut rng;
    let from = check.calls();
    let mut met: Vec<Met> = Vec::new();
    let mut turn = 0;
    while check.calls() - from < count {
        turn += 1;
        // A history.
        if turn % 2 == 1 {
            let manner = Manner {
                rounds: rng.range(3, 20) as usize,
                near_the_end: rng.one_in(6),
                mixed: rng.one_in(4),
                unruly: rng.one_in(2),
            };
            history::run(check, rng, &manner, &mut met)?;
            check.kind("history");
        }
        // Cases made directly, of each kind of session.
        for want in WANTS {
            let case = case(rng, want);
            all_calls(check, rng, &case)?;
            check.kind("direct");
            damaged_calls(check, rng, &case)?;
        }
        for _ in 0..4 {
            let case = full_case(rng);
            every_cut(check, &case.record, &case.session, &Call::Decide { budget: 0 })?;
            check.kind("direct, places full");
        }
        for _ in 0..20 {
            let ready = case(rng, crate::session_gen::Want::Ready);
            every_cut(check, &ready.record, &ready.session, &Call::Decide { budget: 0 })?;
            check.kind("direct, decide");
        }
        for _ in 0..20 {
            let sharp = sharp_case(rng);
            every_cut(check, &sharp.record, &sharp.session, &Call::Decide { budget: 0 })?;
            check.kind("direct, decide on few sessions");
        }
        // Cases from histories, damaged.
        for _ in 0..6 {
            if let Some(met) = met.pop() {
                let case = Case {
                    own: (met.record[0] >> 24) as usize & 15,
                    record: met.record,
                    session: met.session,
                };
                all_calls(check, rng, &case)?;
                damaged_calls(check, rng, &case)?;
                check.kind("from a history");
            }
        }
        // Lines by themselves, with bytes after them.
        for kind in line_gen::kinds() {
            if kind.name == "over-long: very long" && !rng.one_in(10) {
                continue;
            }
            let mut line = (kind.make)(rng);
            match rng.below(6) {
                0 => line.extend(line_gen::valid(rng)),
                1 => line.push(b'\n'),
                2 => line.extend([0, 10, 255]),
                3 => {
                    line.pop();
                }
                _ => {}
            }
            check.read(&line)?;
        }
        check.read(b"")?;
    }
    for (call, answers) in [
        ("enter", &["entered", "cut", "refusal 2", "refusal 4", "refusal 5"][..]),
        (
            "hear state",
            &[
                "heard", "refusal 2", "refusal 3", "refusal 6", "refusal 7", "refusal 4",
                "refusal 8",
            ],
        ),
        (
            "hear attempt",
            &[
                "heard", "refusal 2", "refusal 3", "refusal 6", "refusal 7", "refusal 4",
                "refusal 12", "refusal 8",
            ],
        ),
        (
            "decide",
            &[
                "attempted", "noquorum", "numbersrunout", "noplace", "cut", "refusal 2",
                "refusal 6", "refusal 10", "refusal 9",
            ],
        ),
        (
            "form",
            &[
                "formed", "cut", "refusal 2", "refusal 6", "refusal 12", "refusal 10",
                "refusal 11", "refusal 9",
            ],
        ),
        (
            "write state",
            &["written", "refusal 2", "refusal 6", "refusal 10", "refusal 13"],
        ),
        (
            "write attempt",
            &[
                "written", "refusal 2", "refusal 6", "refusal 12", "refusal 11", "refusal 13",
            ],
        ),
        ("read", &["state", "attempt", "refusal 3"]),
        ("recover", &["recovered", "cut"]),
        ("start", &["started"]),
    ] {
        for answer in answers {
            require(check, call, answer)?;
        }
    }
    for kind in [
        "history",
        "from a history",
        "direct",
        "damaged",
        "decide adopted",
        "decide adopted and raised word 2",
        "place cleared by adoption",
        "place cleared under c",
        "place marked and kept",
        "place kept as it was",
    ] {
        if check.kinds.get(kind).copied().unwrap_or(0) == 0 {
            return Err(format!("no case of kind \"{kind}\" was met"));
        }
    }
    Ok(check.calls() - from)
}

/// A view and heads for enter.
fn entering(rng: &mut Rng, case: &Case) -> Call {
    let now = case.record.get(1).copied().unwrap_or(0) as u32;
    let view = match rng.below(6) {
        0 => now,
        1 => now.wrapping_sub(1),
        2 => rng.next() as u32,
        3 => 0,
        _ => now.wrapping_add(1 + rng.below(3) as u32),
    };
    let mut members = rng.set() | 1 << case.own;
    if rng.one_in(6) {
        members = rng.set();
    }
    if rng.one_in(10) {
        members &= !(1 << case.own);
    }
    let budget = rng.pick(&BUDGETS);
    Call::Enter {
        view,
        members,
        budget,
    }
}

/// A line that may be heard: mostly of this view and from M.
fn line_for(rng: &mut Rng, case: &Case, attempt: bool) -> Vec<u8> {
    if rng.one_in(6) {
        let kinds = line_gen::kinds();
        let kind = &kinds[rng.index(kinds.len())];
        if kind.name != "over-long: very long" {
            return (kind.make)(rng);
        }
    }
    let view = match rng.below(8) {
        0 => line_gen::view(rng),
        1 => case.session.view.wrapping_add(1).max(1),
        _ => case.session.view.max(1),
    };
    let others = case.session.members & !(1 << case.own);
    let unheard = others
        & !if attempt {
            case.session.attempts_heard
        } else {
            case.session.states_heard
        };
    let sender = if unheard != 0 && !rng.one_in(3) {
        rng.pick(&heads_in(unheard))
    } else if others != 0 && rng.one_in(2) {
        rng.pick(&heads_in(others))
    } else if rng.one_in(3) {
        case.own
    } else {
        rng.index(16)
    };
    // The other kind of line at times.
    let attempt = attempt != rng.one_in(12);
    let mut line = if attempt {
        write(&Frame::Attempt {
            view,
            sender: sender as u8,
        })
    } else {
        let scale = record_gen::scale(rng);
        let pool: Vec<u64> = case
            .record
            .get(3..36)
            .map(|words| words.iter().copied().filter(|&w| w != 0).collect())
            .unwrap_or_default();
        let pool: Vec<u64> = pool
            .into_iter()
            .filter(|&w| matches!(second::group::session_in(w), Ok(Some(_))))
            .collect();
        write(&Frame::State {
            view,
            sender: sender as u8,
            state: related_state(rng, sender, &pool, scale),
        })
    };
    match rng.below(24) {
        0 => line.push(b'\n'),
        1 => line.extend(b"020000000702\n"),
        2 => {
            line.pop();
        }
        3 => {
            let at = rng.index(line.len());
            line[at] = rng.pick(b"0123456789abcdefA\r\n");
        }
        4 => line.push(b'0'),
        _ => {}
    }
    line
}

/// Every call once or a few times on one record and session.
fn all_calls(check: &mut Check, rng: &mut Rng, case: &Case) -> Result<(), String> {
    for call in some_calls(rng, case) {
        check.call(&case.record, &case.session, &call)?;
    }
    let decide = Call::Decide { budget: 0 };
    every_cut(check, &case.record, &case.session, &decide)?;
    let form = Call::Form { budget: 0 };
    every_cut(check, &case.record, &case.session, &form)
}

fn some_calls(rng: &mut Rng, case: &Case) -> Vec<Call> {
    vec![
        entering(rng, case),
        entering(rng, case),
        Call::HearState {
            line: line_for(rng, case, false),
        },
        Call::HearState {
            line: line_for(rng, case, false),
        },
        Call::HearAttempt {
            line: line_for(rng, case, true),
        },
        Call::HearAttempt {
            line: line_for(rng, case, true),
        },
        Call::Decide {
            budget: rng.pick(&BUDGETS),
        },
        Call::Form {
            budget: rng.pick(&BUDGETS),
        },
        Call::WriteState {
            room: rng.pick(&[0, 13, 226, 227, 418, 419, 420, 600]),
        },
        Call::WriteState { room: 419 },
        Call::WriteAttempt {
            room: rng.pick(&[0, 1, 12, 13, 14, 100]),
        },
    ]
}

/// The same with the record or the session damaged.
fn damaged_calls(check: &mut Check, rng: &mut Rng, case: &Case) -> Result<(), String> {
    for _ in 0..4 {
        let mut damaged = case.clone();
        match rng.below(9) {
            0 | 1 => damage_record(rng, &mut damaged.record),
            2..=5 => damage_session(rng, &mut damaged.session),
            6 => view_zero(&mut damaged),
            _ => {
                damage_record(rng, &mut damaged.record);
                damage_session(rng, &mut damaged.session);
            }
        }
        for call in some_calls(rng, case) {
            check.call(&damaged.record, &damaged.session, &call)?;
        }
        check.kind("damaged");
    }
    Ok(())
}

pub fn print(check: &Check) {
    println!("kinds of case:");
    for (name, count) in &check.kinds {
        println!("  {count:>8}  {name}");
    }
    println!("calls and answers:");
    for ((call, answer), count) in &check.met {
        println!("  {count:>8}  {call}: {answer}");
    }
}
