//! The manners of worlds.

use crate::event::Settings;
use compare::rng::Rng;

pub struct Manner {
    pub name: &'static str,
    /// Its share of the steps.
    pub share: u64,
    pub heads: (u64, u64),
    pub events: (u64, u64),
    /// One storing call in so many is given few stores.
    pub cut: u64,
    /// One event in so many is out of turn, late or repeated.
    pub noise: u64,
    /// Chances in a hundred, one picked for each view, that a line is lost.
    pub lost_states: &'static [u64],
    pub lost_attempts: &'static [u64],
    /// One storing call in so many is cut at every position; 0 for none.
    pub sweep: u64,
    /// The session numbers begin near the end.
    pub late: bool,
    /// Events come by rounds.
    pub rounds: bool,
    /// Attempts pile up (only by rounds).
    pub pile: bool,
}

pub const MANNERS: [Manner; 10] = [
    Manner {
        name: "random",
        share: 4,
        heads: (1, 16),
        events: (50, 800),
        cut: 12,
        noise: 8,
        lost_states: &[0, 0, 5, 20],
        lost_attempts: &[0, 10, 40],
        sweep: 0,
        late: false,
        pile: false,
        rounds: false,
    },
    // Few heads and views, much lost and cut.
    Manner {
        name: "small",
        share: 6,
        heads: (3, 5),
        events: (40, 250),
        cut: 5,
        noise: 20,
        lost_states: &[0, 0, 5],
        lost_attempts: &[0, 20, 40, 70],
        sweep: 0,
        late: false,
        pile: false,
        rounds: false,
    },
    Manner {
        name: "long",
        share: 3,
        heads: (16, 16),
        events: (20_000, 20_000),
        cut: 60,
        noise: 15,
        lost_states: &[0, 0, 0, 2],
        lost_attempts: &[0, 0, 5, 30],
        sweep: 0,
        late: false,
        pile: false,
        rounds: false,
    },
    Manner {
        name: "late",
        share: 1,
        heads: (1, 5),
        events: (40, 200),
        cut: 10,
        noise: 10,
        lost_states: &[0, 5],
        lost_attempts: &[0, 40],
        sweep: 0,
        late: true,
        pile: false,
        rounds: false,
    },
    Manner {
        name: "sweep",
        share: 4,
        heads: (2, 6),
        events: (30, 150),
        cut: 8,
        noise: 15,
        lost_states: &[0, 0, 5],
        lost_attempts: &[0, 20, 60],
        sweep: 12,
        late: false,
        pile: false,
        rounds: false,
    },
    // Rounds without a cut, with cuts, and of many heads for long calls.
    Manner {
        name: "rounds",
        share: 4,
        heads: (3, 4),
        events: (40, 100),
        cut: 0,
        noise: 0,
        lost_states: &[],
        lost_attempts: &[],
        sweep: 0,
        late: false,
        pile: false,
        rounds: true,
    },
    Manner {
        name: "cut rounds",
        share: 4,
        heads: (3, 5),
        events: (50, 140),
        cut: 6,
        noise: 0,
        lost_states: &[],
        lost_attempts: &[],
        sweep: 0,
        late: false,
        pile: false,
        rounds: true,
    },
    Manner {
        name: "wide rounds",
        share: 3,
        heads: (8, 16),
        events: (300, 1500),
        cut: 3,
        noise: 0,
        lost_states: &[],
        lost_attempts: &[],
        sweep: 50,
        late: false,
        pile: false,
        rounds: true,
    },
    Manner {
        name: "pile",
        share: 3,
        heads: (6, 16),
        events: (400, 1600),
        cut: 20,
        noise: 0,
        lost_states: &[],
        lost_attempts: &[],
        sweep: 0,
        late: false,
        pile: true,
        rounds: true,
    },
    // Walked without chance: only the heads are taken from here.
    Manner {
        name: "walk",
        share: 2,
        heads: (2, 3),
        events: (0, 0),
        cut: 0,
        noise: 0,
        lost_states: &[],
        lost_attempts: &[],
        sweep: 0,
        late: false,
        pile: false,
        rounds: false,
    },
];

impl Manner {
    pub fn settings(&self, rng: &mut Rng) -> Settings {
        let heads = rng.range(self.heads.0, self.heads.1) as usize;
        let all = ((1u32 << heads) - 1) as u16;
        let w0 = match rng.below(3) {
            _ if self.pile => (1 << rng.pick(&[0, 1, 1, 2, 3, 5, 8])) - 1 & all | 1,
            0 => all,
            1 => all & rng.next() as u16,
            _ => all & (rng.next() | rng.next()) as u16,
        };
        // A core head at least.
        let w0 = if w0 == 0 {
            1 << rng.below(heads as u64)
        } else {
            w0
        };
        let size = w0.count_ones() as u64;
        let q = match rng.below(3) {
            _ if self.pile => size,
            0 => rng.range(1, size),
            1 => rng.range(1, size.min(2)),
            _ => 1,
        } as u8;
        let number = if self.late {
            u32::MAX - rng.below(6) as u32
        } else {
            0
        };
        Settings {
            w0,
            q,
            heads,
            number,
        }
    }
}

/// A seed of its own for each world.
pub fn world_seed(seed: u64, world: u64) -> u64 {
    let first = Rng::new(seed).next();
    Rng::new(first ^ world.wrapping_mul(0x2545_f491_4f6c_dd1d)).next()
}
