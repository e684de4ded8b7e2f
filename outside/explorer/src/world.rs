//! A world: heads with their records and sessions, the views announced, the
//! lines sent, and the sessions formed.

use crate::call::{Record, ALL};
use crate::event::{Kind, Settings};
use second::head_session::HeadSession;
use second::record::{PLACE, WORDS};
use std::collections::BTreeMap;
use std::rc::Rc;

#[derive(Clone, PartialEq, Eq, Debug)]
pub struct Head {
    pub record: Record,
    pub session: HeadSession,
    /// After a cut and until recovery: the record after the done changes.
    pub cut: Option<Record>,
}

impl Head {
    pub fn new() -> Head {
        Head {
            record: [0; WORDS],
            session: HeadSession::none(),
            cut: None,
        }
    }

    /// The record lacks stores of a change that is done, so that it is not
    /// whole until it is recovered.
    pub fn is_torn(&self) -> bool {
        self.cut.as_ref().is_some_and(|done| *done != self.record)
    }

    pub fn places_in_use(&self) -> usize {
        self.record[PLACE..PLACE + 16]
            .iter()
            .filter(|&&w| w != 0)
            .count()
    }
}

impl Default for Head {
    fn default() -> Head {
        Head::new()
    }
}

#[derive(Clone)]
pub struct World {
    pub settings: Settings,
    pub heads: Vec<Head>,
    /// The heads of each view announced.
    pub views: BTreeMap<u32, u16>,
    /// The lines sent. A head enters a view once, so it has one of each kind.
    pub sent: BTreeMap<(u32, Kind, u8), Rc<[u8]>>,
    /// The sessions formed by their numbers, and the core's as the first.
    pub formed: BTreeMap<u32, u16>,
}

impl World {
    /// A world whose heads are not started yet.
    pub fn new(settings: Settings) -> World {
        World {
            settings,
            heads: vec![Head::new(); settings.heads],
            views: BTreeMap::new(),
            sent: BTreeMap::new(),
            formed: BTreeMap::from([(0, settings.w0)]),
        }
    }

    pub fn line(&self, view: u32, kind: Kind, from: u8) -> Option<Rc<[u8]>> {
        self.sent.get(&(view, kind, from)).cloned()
    }

    /// The newest view announced that has this head in it.
    pub fn newest_view(&self, head: u8) -> Option<u32> {
        let has = |heads: u16| heads >> head & 1 == 1;
        self.views
            .iter()
            .rev()
            .find(|(_, &heads)| has(heads))
            .map(|(&view, _)| view)
    }

    /// Adds a formed session: numbers differ, and in order of number each
    /// session shares a head with the one before.
    pub fn add_formed(&mut self, word: u64) -> Result<bool, String> {
        let (heads, number) = (word as u16, (word >> 16) as u32);
        if let Some(&other) = self.formed.get(&number) {
            if other != heads {
                return Err(format!(
                    "two formed sessions have the number {number}: {other:04x} and {heads:04x}"
                ));
            }
            return Ok(false);
        }
        let before = self.formed.range(..number).next_back();
        let after = self.formed.range(number..).next();
        for (&near, &other) in before.into_iter().chain(after) {
            if other & heads == 0 {
                return Err(format!(
                    "formed sessions that share no head stand next to each other: \
                     ({other:04x}, {near}) and ({heads:04x}, {number})"
                ));
            }
        }
        self.formed.insert(number, heads);
        Ok(true)
    }
}

/// The number of stores of a budget.
pub fn stores_of(budget: Option<u16>) -> u64 {
    budget.map_or(ALL, u64::from)
}
