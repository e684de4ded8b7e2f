//! The head.

use crate::answers::{fault, Decision, Fault};
use crate::lines::{Line, Session, STATE_ROOM};
use crate::store::{Stopped, Store};
use crate::WORDS;
use proved::{codes, HeadEnd, HeadLine};

/// One capture head: its record, its session, and the store of its record.
pub struct Head<S: Store> {
    words: [u64; WORDS],
    session: proved::Session,
    store: S,
    out_of_use: bool,
}

/// The stage of a session that is formed.
const FORMED: u8 = 4;

fn no_session() -> proved::Session {
    let none = proved::State {
        number: 0,
        primary: 0,
        formed: [0; 16],
        count: 0,
        places: [0; 16],
    };
    proved::Session {
        stage: 0,
        view: 0,
        members: 0,
        states: 0,
        attempts: 0,
        held: [none; 16],
    }
}

impl<S: Store> Head<S> {
    /// Starts a head: the fresh record, in a group with the core W0 and the
    /// minimum Q, 0 for the default. Only for a number that was never started in
    /// this group: a head that starts again teaches its peers that it formed and
    /// attempted nothing. What the store holds does not matter.
    ///
    /// Word 0 is stored as 0 first and in full last. A start that is stopped in
    /// between leaves words that recover refuses; start again then.
    pub fn start(store: S, head: u8, core: u16, least: u8) -> Result<Head<S>, Fault> {
        let mut fresh = [0; WORDS];
        let code = proved::start(&mut fresh, head, core, least);
        if code != codes::DONE {
            return Err(fault(code));
        }
        let mut head = Head::over(store)?;
        let mut groupless = fresh;
        groupless[0] = 0;
        head.put_all(&groupless)?;
        head.put_all(&fresh)?;
        Ok(head)
    }

    /// A head from the words of its store, after a loss of power or a clean stop:
    /// a cut record is recovered, store by store, and a whole one stays as it
    /// is. The head has no session.
    pub fn recover(store: S) -> Result<Head<S>, Fault> {
        let mut head = Head::over(store)?;
        let code = head.storing(|words, session, stores| HeadEnd {
            code: proved::recover(words, stores),
            session,
        })?;
        head.done(code)?;
        Ok(head)
    }

    /// Enters a view with the heads M: ends any session and opens one.
    pub fn enter(&mut self, view: u32, heads: u16) -> Result<(), Fault> {
        let code = self
            .storing(|words, session, stores| proved::enter(words, session, view, heads, stores))?;
        self.done(code)
    }

    /// Hears a state line.
    pub fn hear_state(&mut self, line: &[u8]) -> Result<(), Fault> {
        self.hear(proved::hear_state, line)
    }

    /// Hears an attempt line, also before deciding.
    pub fn hear_attempt(&mut self, line: &[u8]) -> Result<(), Fault> {
        self.hear(proved::hear_attempt, line)
    }

    /// Decides, once all states of M are in.
    pub fn decide(&mut self) -> Result<Decision, Fault> {
        match self.storing(proved::decide)? {
            codes::ATTEMPTED => Ok(Decision::Attempted),
            codes::NO_QUORUM => Ok(Decision::NoQuorum),
            codes::NUMBERS_RUN_OUT => Ok(Decision::NumbersRunOut),
            codes::NO_PLACE => Ok(Decision::NoPlace),
            code => Err(self.at_fault(code)),
        }
    }

    /// Forms (M, session number), once all attempts of M are in.
    pub fn form(&mut self) -> Result<(), Fault> {
        let code = self.storing(proved::form)?;
        self.done(code)
    }

    /// The state line, from entry until decided.
    pub fn state_line(&mut self) -> Result<Line, Fault> {
        self.write(proved::write_state)
    }

    /// The attempt line, once attempted.
    pub fn attempt_line(&mut self) -> Result<Line, Fault> {
        self.write(proved::write_attempt)
    }

    /// The record's words as far as they are known to be stored, to look at.
    pub fn words(&self) -> &[u64; WORDS] {
        &self.words
    }

    /// Own head's number.
    pub fn own(&self) -> u8 {
        (self.words[0] >> 24) as u8
    }

    /// The highest view entered, 0 before any.
    pub fn view(&self) -> u32 {
        self.words[1] as u32
    }

    /// The session number.
    pub fn number(&self) -> u32 {
        self.words[2] as u32
    }

    /// The last primary.
    pub fn last_primary(&self) -> Option<Session> {
        Session::of(self.words[3])
    }

    /// Whether the head is primary: it formed, and entered no other view since.
    pub fn is_primary(&self) -> bool {
        self.session.stage == FORMED
    }

    /// The store, to look at.
    pub fn store(&self) -> &S {
        &self.store
    }

    /// Stops the head and hands its store back.
    pub fn into_store(self) -> S {
        self.store
    }

    /// A head whose words are the store's, not yet judged.
    fn over(mut store: S) -> Result<Head<S>, Fault> {
        let Ok(words) = store.read() else {
            return Err(Fault::Stopped);
        };
        Ok(Head {
            words,
            session: no_session(),
            store,
            out_of_use: false,
        })
    }

    fn hear(
        &mut self,
        call: fn(&[u64], proved::Session, &[u8]) -> HeadEnd,
        line: &[u8],
    ) -> Result<(), Fault> {
        self.usable()?;
        let end = call(&self.words, self.session, line);
        self.session = end.session;
        self.done(end.code)
    }

    fn write(
        &mut self,
        call: fn(&[u64], proved::Session, &mut [u8]) -> HeadLine,
    ) -> Result<Line, Fault> {
        self.usable()?;
        let mut bytes = [0; STATE_ROOM];
        let end = call(&self.words, self.session, &mut bytes);
        self.session = end.session;
        self.done(end.code)?;
        Ok(Line::of(bytes, end.length))
    }

    /// Makes a call store by store, and gives the number of its answer.
    fn storing(
        &mut self,
        call: impl Fn(&mut [u64], proved::Session, u64) -> HeadEnd,
    ) -> Result<u8, Fault> {
        self.usable()?;
        let before = self.words;
        let mut stores = 0;
        loop {
            let mut words = before;
            let end = call(&mut words, self.session, stores);
            self.put_all(&words)?;
            if end.code != codes::CUT {
                self.session = end.session;
                return Ok(end.code);
            }
            stores += 1;
        }
    }

    /// Stores the words that differ, by index.
    fn put_all(&mut self, words: &[u64; WORDS]) -> Result<(), Fault> {
        for (index, word) in words.iter().enumerate() {
            self.put(index, *word)?;
        }
        Ok(())
    }

    fn put(&mut self, index: usize, word: u64) -> Result<(), Fault> {
        if self.words[index] == word {
            return Ok(());
        }
        match self.store.put(index, word) {
            Ok(()) => {
                self.words[index] = word;
                Ok(())
            }
            Err(Stopped) => Err(self.take_out_of_use(Fault::Stopped)),
        }
    }

    fn usable(&self) -> Result<(), Fault> {
        if self.out_of_use {
            return Err(Fault::Stopped);
        }
        Ok(())
    }

    fn done(&mut self, code: u8) -> Result<(), Fault> {
        match code {
            codes::DONE => Ok(()),
            code => Err(self.at_fault(code)),
        }
    }

    fn at_fault(&mut self, code: u8) -> Fault {
        match fault(code) {
            Fault::Unknown(code) => self.take_out_of_use(Fault::Unknown(code)),
            fault => fault,
        }
    }

    fn take_out_of_use(&mut self, fault: Fault) -> Fault {
        self.out_of_use = true;
        self.session = no_session();
        fault
    }
}
