//! Sets of heads, session words, the quorum test.

pub const HEADS: usize = 16;
pub const PLACES: usize = 16;
/// The largest session number, and the largest view.
pub const TOP: u64 = u32::MAX as u64;

#[inline]
pub fn number(word: u64) -> u64 {
    word >> 16
}

#[inline]
pub fn heads(word: u64) -> u16 {
    word as u16
}

/// The order of numbers, with none (the word 0) below all.
#[inline]
pub fn rank(word: u64) -> u64 {
    if word == 0 {
        0
    } else {
        number(word) + 1
    }
}

/// The heads of a set, in rising order.
pub struct Rising(pub u16);

impl Iterator for Rising {
    type Item = usize;

    #[inline]
    fn next(&mut self) -> Option<usize> {
        if self.0 == 0 {
            return None;
        }
        let head = self.0.trailing_zeros() as usize;
        self.0 &= self.0 - 1;
        Some(head)
    }
}

/// Last primary is none or has own head, and last formed for q is last
/// primary for each q in it, and for other q none or a session with own head,
/// q, and a lower number.
#[inline]
pub fn primary_and_formed_agree(own: usize, primary: u64, formed: &[u64; HEADS]) -> bool {
    if primary != 0 && primary >> own & 1 == 0 {
        return false;
    }
    for (q, &word) in formed.iter().enumerate() {
        let in_primary = primary >> q & 1 == 1;
        let usual = if in_primary { primary } else { 0 };
        if word != usual {
            let both = 1 << own | 1 << q;
            if in_primary || word & both != both || number(word) >= number(primary) {
                return false;
            }
        }
    }
    true
}

/// The quorum test by one set T, with what does not hang on S done once.
pub struct Weights {
    t: u16,
    enough: bool,
    blocking: bool,
}

impl Weights {
    /// Q is from 1 to the size of W0.
    #[inline]
    pub fn of(core: u16, least: u8, t: u16) -> Weights {
        let least = least as u32;
        let ours = (core & t).count_ones();
        Weights {
            t,
            enough: ours >= least,
            blocking: ours > core.count_ones() - least,
        }
    }

    /// Sub-quorum of S by T; false for S none.
    #[inline]
    pub fn pass(&self, s: u16) -> bool {
        if s == 0 || !self.enough {
            return false;
        }
        if self.blocking {
            return true;
        }
        let doubled = 2 * (s & self.t).count_ones();
        let size = s.count_ones();
        doubled > size || (doubled == size && self.t >> (15 - s.leading_zeros()) & 1 == 1)
    }
}
