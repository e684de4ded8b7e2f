//! Where a head's record is kept.

use crate::WORDS;

/// The store can't go on: the power is lost, or a word could not be stored or
/// read. Whether the word in hand was stored is not known.
#[derive(Clone, Copy, Debug, PartialEq, Eq)]
pub struct Stopped;

/// The durable words of one head. While a head has it, nothing else may change
/// the words: lend it as `&mut`, or give it away.
pub trait Store {
    /// The words as they stand.
    fn read(&mut self) -> Result<[u64; WORDS], Stopped>;

    /// Stores one word and returns once it is kept. Words are put one at a
    /// time, in document 01's order of stores, and none is put whose value
    /// stands there already.
    fn put(&mut self, index: usize, word: u64) -> Result<(), Stopped>;
}

/// A record in memory, for desk tools and tests.
impl Store for [u64; WORDS] {
    fn read(&mut self) -> Result<[u64; WORDS], Stopped> {
        Ok(*self)
    }

    fn put(&mut self, index: usize, word: u64) -> Result<(), Stopped> {
        *self.get_mut(index).ok_or(Stopped)? = word;
        Ok(())
    }
}

impl<S: Store> Store for &mut S {
    fn read(&mut self) -> Result<[u64; WORDS], Stopped> {
        (**self).read()
    }

    fn put(&mut self, index: usize, word: u64) -> Result<(), Stopped> {
        (**self).put(index, word)
    }
}
