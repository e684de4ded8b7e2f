//! Makes a failing history small. Each try is replayed and must fail in the
//! same way.

use crate::event::{Event, History};
use crate::explore::replay;
use crate::step::{Fault, Runner};
use std::collections::BTreeSet;
use std::time::{Duration, Instant};

struct Shrinker<'r, 'a> {
    runner: &'r mut Runner<'a>,
    fault: Fault,
    best: History,
    end: Instant,
}

/// The smallest history found in the time given.
pub fn shrink(runner: &mut Runner, history: History, fault: Fault, time: Duration) -> History {
    let mut shrinker = Shrinker {
        runner,
        fault,
        best: history,
        end: Instant::now() + time,
    };
    loop {
        let before = shrinker.best.clone();
        shrinker.drop_chunks();
        shrinker.drop_heads();
        shrinker.simplify_settings();
        shrinker.leave_views();
        shrinker.raise_or_lower_budgets();
        if shrinker.best == before || Instant::now() >= shrinker.end {
            break;
        }
    }
    shrinker.renumber_views();
    shrinker.join();
    shrinker.best
}

impl Shrinker<'_, '_> {
    /// Takes the history if it fails in the same way; what comes after the
    /// failure is dropped.
    fn takes(&mut self, mut tried: History) -> bool {
        if Instant::now() >= self.end {
            return false;
        }
        match replay(self.runner, &tried) {
            Some((made, failure)) if failure.fault == self.fault => {
                tried.events.truncate(made);
                self.best = tried;
                true
            }
            _ => false,
        }
    }

    fn without(&self, from: usize, to: usize) -> History {
        let mut tried = self.best.clone();
        tried.events.drain(from..to);
        tried
    }

    /// Chunks of half the length, then of a quarter, down to single events.
    fn drop_chunks(&mut self) {
        let mut chunk = self.best.events.len().div_ceil(2).max(1);
        loop {
            let mut to = self.best.events.len();
            while to > 0 {
                let from = to.saturating_sub(chunk);
                let tried = self.without(from, to);
                self.takes(tried);
                to = from.min(self.best.events.len());
            }
            if chunk == 1 {
                return;
            }
            chunk /= 2;
        }
    }

    /// A head gone from the events, the views and W0; then fewer started.
    fn drop_heads(&mut self) {
        for head in 0..self.best.settings.heads as u8 {
            let mut tried = self.best.clone();
            tried.settings.w0 &= !(1 << head);
            tried.events.retain(|e| e.head() != Some(head));
            for event in &mut tried.events {
                if let Event::View { heads, .. } = event {
                    *heads &= !(1 << head);
                }
            }
            tried.settings.q = tried.settings.q.min(tried.settings.w0.count_ones() as u8);
            if tried.settings.w0 != 0 && tried != self.best {
                self.takes(tried);
            }
        }
        while self.best.settings.heads > 1 {
            let mut tried = self.best.clone();
            tried.settings.heads -= 1;
            if !self.takes(tried) {
                return;
            }
        }
    }

    fn simplify_settings(&mut self) {
        let mut tried = self.best.clone();
        tried.settings.number = 0;
        self.takes(tried);
        for head in 0..16 {
            let mut tried = self.best.clone();
            tried.settings.w0 &= !(1 << head);
            if tried.settings.w0.count_ones() as u8 >= tried.settings.q.max(1) {
                self.takes(tried);
            }
        }
        while self.best.settings.q > 1 {
            let mut tried = self.best.clone();
            tried.settings.q -= 1;
            if !self.takes(tried) {
                return;
            }
        }
    }

    /// One head fewer in one view.
    fn leave_views(&mut self) {
        for i in 0..self.best.events.len() {
            for head in 0..16 {
                let mut tried = self.best.clone();
                let Some(Event::View { heads, .. }) = tried.events.get_mut(i) else {
                    break;
                };
                if *heads >> head & 1 == 1 {
                    *heads &= !(1 << head);
                    self.takes(tried);
                }
            }
        }
    }

    /// No limit of stores, else the least that still fails.
    fn raise_or_lower_budgets(&mut self) {
        for i in 0..self.best.events.len() {
            let Some(now) = self.best.events.get(i).and_then(|e| e.budget()) else {
                continue;
            };
            for budget in [None].into_iter().chain((0..now).map(Some)) {
                let mut tried = self.best.clone();
                tried.events[i] = tried.events[i].with_budget(budget);
                if self.takes(tried) {
                    break;
                }
            }
        }
    }

    /// Views 1, 2, 3, ... in their order.
    fn renumber_views(&mut self) {
        let mut tried = self.best.clone();
        let views: BTreeSet<u32> = tried
            .events
            .iter_mut()
            .filter_map(|e| e.view_mut().copied())
            .collect();
        for view in tried.events.iter_mut().filter_map(|e| e.view_mut()) {
            *view = views.range(..=*view).count() as u32;
        }
        self.takes(tried);
    }

    /// Moves events beside earlier ones of their verb, so that they share a
    /// line of text.
    fn join(&mut self) {
        for i in 1..self.best.events.len() {
            let Some(event) = self.best.events.get(i).copied() else {
                return;
            };
            let verb = event.verb();
            let same = |e: &Event| e.verb() == verb;
            let Some(last) = self.best.events[..i].iter().rposition(same) else {
                continue;
            };
            if last + 1 == i {
                continue;
            }
            let mut tried = self.best.clone();
            tried.events.remove(i);
            tried.events.insert(last + 1, event);
            self.takes(tried);
        }
    }
}
