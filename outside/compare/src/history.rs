//! Random histories: heads that enter views, lose lines, hear lines twice,
//! are cut at any store, and recover. Each call is made on both sides.

use crate::check::{Call, Check};
use crate::rng::Rng;
use second::answers::Answer;
use second::group::{heads_in, size, Session};
use second::head_session::{HeadSession, Stage};
use second::record::{NUMBER, PRIMARY};

const ALL: u64 = u64::MAX;

struct Head {
    record: Vec<u64>,
    session: HeadSession,
}

pub struct World {
    heads: Vec<Head>,
    w0: u16,
    view: u64,
    /// Lines written so far: heard again later at times.
    old: Vec<Vec<u8>>,
    /// The sessions formed, each once.
    formed: Vec<Session>,
    /// Heads may enter one view with different heads M.
    mixed: bool,
    /// Calls are made out of turn at times.
    unruly: bool,
    loss: u64,
}

/// What a history is told to do.
pub struct Manner {
    pub rounds: usize,
    /// The first session numbers and views are near the end.
    pub near_the_end: bool,
    pub mixed: bool,
    pub unruly: bool,
}

/// A record and session met in a history just before a call.
pub struct Met {
    pub record: Vec<u64>,
    pub session: HeadSession,
}

/// Runs one history. Some of the records and sessions met are put in `met`.
pub fn run(
    check: &mut Check,
    rng: &mut Rng,
    manner: &Manner,
    met: &mut Vec<Met>,
) -> Result<(), String> {
    let count = match rng.below(4) {
        0 => rng.range(1, 3),
        1 | 2 => rng.range(3, 7),
        _ => rng.range(1, 16),
    } as usize;
    let w0 = loop {
        let w0 = match rng.below(3) {
            0 => 0x001f,
            1 => 0xffff,
            _ => rng.set(),
        } & (((1u32 << count) - 1) as u16);
        if w0 != 0 {
            break w0;
        }
    };
    let q = match rng.below(4) {
        0 => 0,
        1 => rng.range(1, size(w0) as u64),
        _ => 1,
    } as u8;
    let mut world = World {
        heads: Vec::new(),
        w0,
        view: if manner.near_the_end {
            0xffff_ffff - rng.below(60)
        } else {
            0
        },
        old: Vec::new(),
        formed: Vec::new(),
        mixed: manner.mixed,
        unruly: manner.unruly,
        loss: rng.pick(&[5, 20, 60, 400]),
    };
    for h in 0..count {
        let before = vec![rng.next(); 52];
        let (answer, mut record) = check.start(&before, h as u8, w0, q)?;
        if answer != Answer::Started {
            return Err(format!("a history could not start: {answer:?}"));
        }
        if manner.near_the_end {
            // As if many sessions had gone before.
            record[NUMBER] = 0xffff_ffff - rng.below(5);
        }
        world.heads.push(Head {
            record,
            session: HeadSession::none(),
        });
    }
    for _ in 0..manner.rounds {
        world.round(check, rng, met)?;
    }
    if !manner.mixed {
        world.chain()?;
    }
    Ok(())
}

impl World {
    /// A call of a head, compared. A formed session is noted when word 3 is
    /// stored, and a head that was cut recovers.
    fn call(
        &mut self,
        check: &mut Check,
        rng: &mut Rng,
        h: usize,
        call: Call,
        met: &mut Vec<Met>,
    ) -> Result<(Answer, Vec<u8>), String> {
        let head = &self.heads[h];
        if rng.one_in(20) && met.len() < 4000 {
            met.push(Met {
                record: head.record.clone(),
                session: head.session.clone(),
            });
        }
        // Cut at every position, beside the history.
        if rng.one_in(6) {
            every_cut(check, &head.record, &head.session, &call)?;
        }
        let before = head.record[PRIMARY];
        let forming = matches!(call, Call::Form { .. });
        let after = check.call(&head.record, &head.session, &call)?;
        let head = &mut self.heads[h];
        head.record = after.record;
        head.session = after.session;
        if forming && head.record[PRIMARY] != before {
            let formed = Session {
                heads: head.record[PRIMARY] as u16,
                number: (head.record[PRIMARY] >> 16) as u32,
            };
            if !self.formed.contains(&formed) {
                self.formed.push(formed);
            }
        }
        if after.answer == Answer::Cut {
            self.recover(check, rng, h)?;
        }
        Ok((after.answer, after.output))
    }

    /// Recovery, perhaps cut some times.
    fn recover(&mut self, check: &mut Check, rng: &mut Rng, h: usize) -> Result<(), String> {
        loop {
            let budget = if rng.one_in(2) { ALL } else { rng.below(4) };
            let (answer, record) = check.recover(&self.heads[h].record, budget)?;
            self.heads[h].record = record;
            self.heads[h].session = HeadSession::none();
            match answer {
                Answer::Recovered => break,
                Answer::Cut => {}
                other => return Err(format!("a history could not recover: {other:?}")),
            }
        }
        if !check.whole(&self.heads[h].record)? {
            return Err(String::from("a recovered record is not whole"));
        }
        Ok(())
    }

    fn budget(&self, rng: &mut Rng) -> u64 {
        match rng.below(24) {
            0 => rng.below(4),
            1 => rng.below(30),
            2 => rng.pick(&[1, 2, 40, 1000, ALL - 1]),
            _ => ALL,
        }
    }

    /// One round: the heads part, each part enters a view and goes as far as
    /// losses and cuts let it.
    fn round(
        &mut self,
        check: &mut Check,
        rng: &mut Rng,
        met: &mut Vec<Met>,
    ) -> Result<(), String> {
        let count = self.heads.len();
        let parts = rng.pick(&[1, 1, 2, 2, 3]);
        let mut of: Vec<u16> = vec![0; parts];
        for h in 0..count {
            of[rng.index(parts)] |= 1 << h;
        }
        if rng.one_in(5) {
            // The heads of W0 and some others.
            of = vec![self.w0 | rng.set() & (((1u32 << count) - 1) as u16)];
        }
        for m in of {
            if m == 0 {
                continue;
            }
            self.view += rng.range(1, 2);
            let view = self.view.min(0xffff_ffff) as u32;
            self.component(check, rng, view, m, met)?;
        }
        Ok(())
    }

    fn component(
        &mut self,
        check: &mut Check,
        rng: &mut Rng,
        view: u32,
        m: u16,
        met: &mut Vec<Met>,
    ) -> Result<(), String> {
        let members = heads_in(m);
        let loss = self.loss;
        for &h in &members {
            if rng.one_in(8 * loss) {
                continue;
            }
            let mut heads = m;
            if self.mixed && rng.one_in(3) {
                heads = (m & rng.set()) | 1 << h;
            }
            let budget = self.budget(rng);
            let call = Call::Enter {
                view,
                members: heads,
                budget,
            };
            self.call(check, rng, h, call.clone(), met)?;
            if rng.one_in(40) {
                self.call(check, rng, h, call, met)?;
            }
            self.out_of_turn(check, rng, h, met)?;
        }

        // States.
        let mut states: Vec<(usize, Vec<u8>)> = Vec::new();
        for &h in &members {
            let room = if rng.one_in(30) {
                rng.index(450)
            } else {
                419 + rng.index(3)
            };
            let (answer, output) =
                self.call(check, rng, h, Call::WriteState { room }, met)?;
            if let Answer::Written(n) = answer {
                states.push((h, output[..n].to_vec()));
            }
        }
        self.deliver(check, rng, &members, &states, false, met)?;

        // Decisions, some before the last states are in.
        for &h in &members {
            self.out_of_turn(check, rng, h, met)?;
            let budget = self.budget(rng);
            let (answer, _) = self.call(check, rng, h, Call::Decide { budget }, met)?;
            if answer == Answer::Attempted && self.heads[h].session.stage != Stage::Attempted {
                return Err(String::from("attempted, but the session says otherwise"));
            }
        }

        // Attempts. Some are heard by heads that have not decided.
        let mut attempts: Vec<(usize, Vec<u8>)> = Vec::new();
        for &h in &members {
            let room = if rng.one_in(30) {
                rng.index(16)
            } else {
                13 + rng.index(3)
            };
            let (answer, output) =
                self.call(check, rng, h, Call::WriteAttempt { room }, met)?;
            if let Answer::Written(n) = answer {
                attempts.push((h, output[..n].to_vec()));
            }
        }
        self.deliver(check, rng, &members, &attempts, true, met)?;
        for &h in &members {
            self.out_of_turn(check, rng, h, met)?;
            let budget = self.budget(rng);
            self.call(check, rng, h, Call::Form { budget }, met)?;
        }
        for &h in &members {
            if rng.one_in(20) {
                // The head stops and recovers.
                self.recover(check, rng, h)?;
            }
        }
        self.old.extend(states.into_iter().map(|(_, line)| line));
        self.old.extend(attempts.into_iter().map(|(_, line)| line));
        if self.old.len() > 300 {
            self.old.drain(..150);
        }
        Ok(())
    }

    /// Lines to every member but the sender: some lost, some twice, and some
    /// old ones among them.
    fn deliver(
        &mut self,
        check: &mut Check,
        rng: &mut Rng,
        members: &[usize],
        lines: &[(usize, Vec<u8>)],
        attempts: bool,
        met: &mut Vec<Met>,
    ) -> Result<(), String> {
        for &to in members {
            for (from, line) in lines {
                if *from == to && !rng.one_in(20) {
                    continue;
                }
                if rng.one_in(self.loss) {
                    continue;
                }
                let times = if rng.one_in(25) { 2 } else { 1 };
                for _ in 0..times {
                    let line = line.clone();
                    let call = if attempts {
                        Call::HearAttempt { line }
                    } else {
                        Call::HearState { line }
                    };
                    self.call(check, rng, to, call, met)?;
                }
            }
            if !self.old.is_empty() && rng.one_in(6) {
                let line = self.old[rng.index(self.old.len())].clone();
                let call = if attempts {
                    Call::HearAttempt { line }
                } else {
                    Call::HearState { line }
                };
                self.call(check, rng, to, call, met)?;
            }
        }
        Ok(())
    }

    /// A call out of turn, at times.
    fn out_of_turn(
        &mut self,
        check: &mut Check,
        rng: &mut Rng,
        h: usize,
        met: &mut Vec<Met>,
    ) -> Result<(), String> {
        if !self.unruly || !rng.one_in(5) {
            return Ok(());
        }
        let call = match rng.below(6) {
            0 => Call::Decide { budget: ALL },
            1 => Call::Form { budget: ALL },
            2 => Call::WriteState { room: 419 },
            3 => Call::WriteAttempt { room: 13 },
            4 => Call::Enter {
                view: self.view.min(0xffff_ffff) as u32,
                members: rng.set(),
                budget: 0,
            },
            _ => {
                if self.old.is_empty() {
                    return Ok(());
                }
                let line = self.old[rng.index(self.old.len())].clone();
                Call::HearState { line }
            }
        };
        // The call is made beside the history, so that it stays in turn.
        let _ = met;
        check.call(&self.heads[h].record, &self.heads[h].session, &call)?;
        Ok(())
    }

    /// Formed sessions have numbers of their own, and each shares a head with
    /// the next. The first is (W0, 0).
    fn chain(&self) -> Result<(), String> {
        let mut all = self.formed.clone();
        all.push(Session {
            heads: self.w0,
            number: 0,
        });
        all.sort_by_key(|s| s.number);
        for pair in all.windows(2) {
            if pair[0].number == pair[1].number || pair[0].heads & pair[1].heads == 0 {
                return Err(format!(
                    "a history of second broke the chain: {:x?} then {:x?}",
                    pair[0], pair[1]
                ));
            }
        }
        Ok(())
    }
}

/// Makes a call with every number of stores it may be given, and recovers
/// each record that is left.
pub fn every_cut(
    check: &mut Check,
    record: &[u64],
    session: &HeadSession,
    call: &Call,
) -> Result<(), String> {
    for budget in 0.. {
        let now = match call {
            Call::Enter { view, members, .. } => Call::Enter {
                view: *view,
                members: *members,
                budget,
            },
            Call::Decide { .. } => Call::Decide { budget },
            Call::Form { .. } => Call::Form { budget },
            _ => return Ok(()),
        };
        let after = check.call(record, session, &now)?;
        if after.answer != Answer::Cut {
            return Ok(());
        }
        check.whole(&after.record)?;
        let (answer, _) = check.recover(&after.record, ALL)?;
        if answer != Answer::Recovered {
            return Err(format!(
                "the record left by a cut is not recovered: {answer:?}, {now:?}"
            ));
        }
    }
    Ok(())
}
