//! A store whose power can be lost.

use head::{Stopped, Store, WORDS};
use std::cell::Cell;

pub struct Flash {
    pub words: [u64; WORDS],
    /// The words put since the log was last taken, in order.
    pub log: Cell<Vec<(usize, u64)>>,
    /// When the power is lost: after how many more words, and whether the word
    /// in hand is stored all the same.
    pub loss: Cell<Option<(usize, bool)>>,
}

impl Flash {
    pub fn of(words: [u64; WORDS]) -> Flash {
        Flash {
            words,
            log: Cell::new(Vec::new()),
            loss: Cell::new(None),
        }
    }

    fn keep(&mut self, index: usize, word: u64) {
        self.words[index] = word;
        self.log.get_mut().push((index, word));
    }
}

impl Store for Flash {
    fn read(&mut self) -> Result<[u64; WORDS], Stopped> {
        Ok(self.words)
    }

    fn put(&mut self, index: usize, word: u64) -> Result<(), Stopped> {
        if let Some((left, is_kept)) = self.loss.get() {
            let Some(left) = left.checked_sub(1) else {
                if is_kept {
                    self.keep(index, word);
                }
                return Err(Stopped);
            };
            self.loss.set(Some((left, is_kept)));
        }
        self.keep(index, word);
        Ok(())
    }
}
