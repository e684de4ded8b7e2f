//! The views and faults of a soak, all from its seed and its group alone.

use crate::calls::Kind;
use crate::check::Group;
use compare::rng::Rng;
use second::group::{has, heads_in, single};
use std::fmt;

/// A view that is announced.
#[derive(Clone, Copy, PartialEq, Eq, Debug)]
pub struct View {
    pub number: u32,
    pub members: u16,
}

/// How lines are carried in a step; each rate is in thousandths.
#[derive(Clone, Copy, PartialEq, Eq, Debug, Default)]
pub struct Links {
    pub seed: u64,
    pub step: u32,
    /// Links that carry nothing.
    pub severed: u64,
    pub loss: u64,
    pub repeat: u64,
    /// Lines that come so late that another view may have begun.
    pub late: u64,
    /// Lines whose end is lost, newline and all.
    pub short: u64,
}

/// When a head is killed.
#[derive(Clone, Copy, PartialEq, Eq, Debug)]
pub enum Moment {
    /// In the next call of this kind. Of n stores `at` modulo n + 1 are made.
    AtStore { kind: Kind, at: u64 },
    /// So many microseconds after the views were announced.
    After { micros: u64 },
}

/// When a head is killed in its recovery.
#[derive(Clone, Copy, PartialEq, Eq, Debug)]
pub enum Stop {
    /// Of n stores so many modulo n + 1 are made.
    AtStore(u64),
    /// So many microseconds after its process was made.
    After(u64),
}

#[derive(Clone, PartialEq, Eq, Debug)]
pub struct Kill {
    pub head: u8,
    pub moment: Moment,
    /// The steps that the head stays down.
    pub down: u32,
    /// Kills during the recovery that follows, one after the other.
    pub in_recovery: Vec<Stop>,
}

#[derive(Clone, Copy, PartialEq, Eq, Debug)]
pub enum Manner {
    /// All heads are up, in one view, and nothing is done to them: all form.
    Calm,
    /// All heads are up and all lines come; kills are at named stores only,
    /// and the step waits for them.
    Staged,
    /// Anything may be done, and the step waits for nothing.
    Rough,
}

#[derive(Clone, PartialEq, Eq, Debug)]
pub struct Step {
    pub number: u32,
    pub manner: Manner,
    pub groups: Vec<View>,
    pub links: Links,
    pub kills: Vec<Kill>,
    /// A head that is also told of a view that it is not in.
    pub stray: Option<(u8, View)>,
    /// The step ends after so many milliseconds if it has not before and waits
    /// for no kill.
    pub patience: u64,
}

impl fmt::Display for Step {
    fn fmt(&self, f: &mut fmt::Formatter) -> fmt::Result {
        write!(f, "step {} {:?}:", self.number, self.manner)?;
        for view in &self.groups {
            write!(f, " view {} {:04x}", view.number, view.members)?;
        }
        let links = &self.links;
        write!(
            f,
            "; severed {} loss {} repeat {} late {} short {}",
            links.severed, links.loss, links.repeat, links.late, links.short
        )?;
        for kill in &self.kills {
            write!(f, "; kill {} {:?}", kill.head, kill.moment)?;
            write!(f, " down {} in recovery {:?}", kill.down, kill.in_recovery)?;
        }
        if let Some((head, view)) = self.stray {
            write!(f, "; {head} is told of {}", view.number)?;
        }
        write!(f, "; {} ms", self.patience)
    }
}

/// The steps of a soak, without end.
pub struct Schedule {
    rng: Rng,
    seed: u64,
    group: Group,
    step: u32,
    view: u32,
    /// The step from which each head is up again.
    up_from: Vec<u32>,
}

impl Schedule {
    pub fn new(seed: u64, group: Group) -> Schedule {
        Schedule {
            rng: Rng::new(seed),
            seed,
            group,
            step: 0,
            view: 0,
            up_from: vec![0; group.heads as usize],
        }
    }

    fn every_head(&self) -> u16 {
        (0..self.group.heads as usize).map(single).sum()
    }

    fn new_view(&mut self, members: u16) -> View {
        self.view += self.rng.range(1, 3) as u32;
        View {
            number: self.view,
            members,
        }
    }

    /// The heads in up to three groups, most of them in the first. A head
    /// that is down is mostly left out, as others would wait for it.
    fn partition(&mut self) -> Vec<View> {
        let count = self.rng.range(1, 3) as usize;
        let mut sets = vec![0u16; count];
        for head in heads_in(self.every_head()) {
            let down = self.up_from[head] > self.step;
            if down && !self.rng.one_in(4) {
                continue;
            }
            let group = if self.rng.one_in(3) {
                self.rng.index(count)
            } else {
                0
            };
            sets[group] |= single(head);
        }
        sets.retain(|&set| set != 0);
        sets.into_iter().map(|set| self.new_view(set)).collect()
    }

    fn links(&mut self) -> Links {
        let rng = &mut self.rng;
        let mut links = Links {
            seed: self.seed,
            step: self.step,
            ..Links::default()
        };
        if rng.one_in(2) {
            links.loss = rng.range(20, 300);
            links.repeat = rng.range(0, 200);
            links.late = rng.range(0, 100);
            links.short = rng.range(0, 30);
        }
        if rng.one_in(3) {
            links.severed = rng.range(20, 150);
        }
        links
    }

    /// Where the kills of a step fall; none stands for random moments.
    fn aim(&mut self) -> Option<Kind> {
        match self.rng.below(10) {
            0 => Some(Kind::Enter),
            1..=3 => Some(Kind::Decide),
            4..=7 => Some(Kind::Form),
            _ => None,
        }
    }

    fn moment(&mut self, aim: Option<Kind>) -> Moment {
        let rng = &mut self.rng;
        match aim {
            Some(kind) => Moment::AtStore {
                kind,
                at: rng.below(1 << 16),
            },
            None => {
                let most = rng.pick(&[1_000, 4_000, 20_000]);
                Moment::After {
                    micros: rng.below(most),
                }
            }
        }
    }

    fn kill(&mut self, head: u8, aim: Option<Kind>) -> Kill {
        let moment = self.moment(aim);
        let rng = &mut self.rng;
        let down = if rng.one_in(3) {
            rng.range(1, 3) as u32
        } else {
            0
        };
        let again = if rng.one_in(2) { rng.range(1, 3) } else { 0 };
        let in_recovery = (0..again).map(|_| stop(rng)).collect();
        self.up_from[head as usize] = self.step + 1 + down;
        Kill {
            head,
            moment,
            down,
            in_recovery,
        }
    }

    /// One to three kills. A kill keeps others from what comes after it, so
    /// all have one aim unless they are mixed.
    fn kills(&mut self, first: Option<Kind>, mixed: bool) -> Vec<Kill> {
        let mut heads = heads_in(self.every_head());
        let count = (self.rng.range(1, 3) as usize).min(heads.len());
        let mut aim = first;
        let mut kills = Vec::new();
        for _ in 0..count {
            let head = heads.swap_remove(self.rng.index(heads.len()));
            kills.push(self.kill(head as u8, aim));
            if mixed {
                aim = self.aim();
            }
        }
        kills
    }

    fn stray(&mut self, groups: &[View]) -> Option<(u8, View)> {
        if !self.rng.one_in(8) {
            return None;
        }
        let view = self.rng.pick(groups);
        let outside = (0..self.group.heads).filter(|&head| !has(view.members, head as usize));
        let outside: Vec<u8> = outside.collect();
        if outside.is_empty() {
            return None;
        }
        Some((self.rng.pick(&outside), view))
    }

    fn calm(&mut self) -> Step {
        self.up_from.fill(0);
        let all = self.every_head();
        Step {
            number: self.step,
            manner: Manner::Calm,
            groups: vec![self.new_view(all)],
            links: Links::default(),
            kills: Vec::new(),
            stray: None,
            patience: CALM_PATIENCE,
        }
    }

    fn staged(&mut self) -> Step {
        self.up_from.fill(0);
        let groups = self.partition();
        let kinds = [
            Kind::Enter,
            Kind::Decide,
            Kind::Decide,
            Kind::Form,
            Kind::Form,
        ];
        let aim = self.rng.pick(&kinds);
        let kills = self.kills(Some(aim), false);
        Step {
            number: self.step,
            manner: Manner::Staged,
            groups,
            links: Links::default(),
            kills,
            stray: None,
            patience: self.rng.range(15, 60),
        }
    }

    fn rough(&mut self) -> Step {
        let groups = self.partition();
        let fair = self.rng.one_in(3);
        let links = if fair { Links::default() } else { self.links() };
        let aim = self.aim();
        let mixed = self.rng.one_in(4);
        let kills = if fair {
            Vec::new()
        } else {
            self.kills(aim, mixed)
        };
        let stray = self.stray(&groups);
        Step {
            number: self.step,
            manner: Manner::Rough,
            groups,
            links,
            kills,
            stray,
            patience: self.rng.range(15, 60),
        }
    }
}

fn stop(rng: &mut Rng) -> Stop {
    if rng.one_in(4) {
        Stop::After(rng.below(4_000))
    } else {
        Stop::AtStore(rng.below(1 << 16))
    }
}

/// A calm step that takes longer has failed. Nothing is lost in it, so only a
/// machine that stands still could make it so long.
const CALM_PATIENCE: u64 = 120_000;

impl Iterator for Schedule {
    type Item = Step;

    fn next(&mut self) -> Option<Step> {
        self.step += 1;
        Some(match self.rng.below(10) {
            0 => self.calm(),
            1..=3 => self.staged(),
            _ => self.rough(),
        })
    }
}

#[cfg(test)]
mod tests {
    use super::*;

    const GROUP: Group = Group {
        heads: 7,
        core: 0x1f,
        least: 2,
    };

    #[test]
    fn a_seed_repeats_its_schedule() {
        let first: Vec<Step> = Schedule::new(5, GROUP).take(300).collect();
        let again: Vec<Step> = Schedule::new(5, GROUP).take(300).collect();
        let other: Vec<Step> = Schedule::new(6, GROUP).take(300).collect();
        assert_eq!(first, again);
        assert_ne!(first, other);
    }

    #[test]
    fn views_rise_and_part_the_heads() {
        let mut last = 0;
        for step in Schedule::new(7, GROUP).take(1000) {
            let mut seen = 0;
            for view in &step.groups {
                assert!(view.number > last);
                assert!(view.members != 0 && view.members & seen == 0);
                last = view.number;
                seen |= view.members;
            }
        }
    }
}
