//! One capture head, over the proved calls.
//!
//! A [`Head`] owns its record, its session and the store that keeps the record,
//! so the calls always get what the last one left: the record can't be changed
//! beside them, and a session can't be given to another record or after a cut.
//! The only ways to a head are [`Head::start`] and [`Head::recover`]; recovery of
//! a whole record stores nothing, so it is also how a head comes up after a
//! clean stop. What no type prevents: words copied into a second store, or a
//! number started twice, are two heads of one number.
//!
//! # Storing
//!
//! Document 01: "Words are stored singly, in this order", and "nothing is sent
//! before its call's last store". A [`Store`] is given each word of a call in
//! that order, one at a time, and says when it is kept. The proved calls change
//! words in memory and take the number of stores they may make, so a call is
//! made on a copy with 0, 1, 2, .. stores until it is not cut: the k-th store is
//! what differs between the copies of k - 1 and k. (A store of the value that
//! stands there is not seen and need not be made.) That is at most 69 calls for
//! one, and no second reading of the order of stores.
//!
//! If the store says [`Stopped`], the call ends with [`Fault::Stopped`] and the
//! head is out of use: it has no session, and whether the word in hand was
//! stored is not known. [`Head::recover`] from the store goes on from there, as
//! it does after a loss of power.
//!
//! # What can't be done
//!
//! This is the start of each of the following, and compiles:
//!
//! ```
//! use head::{Head, WORDS};
//! let mut store = [0; WORDS];
//! let mut head = Head::start(&mut store, 0, 0x0001, 1).unwrap();
//! head.enter(1, 0x0001).unwrap();
//! assert_eq!(head.words()[1], 1);
//! ```
//!
//! Changing the record, by field or through what is lent:
//!
//! ```compile_fail
//! # use head::{Head, WORDS};
//! # let mut store = [0; WORDS];
//! # let mut head = Head::start(&mut store, 0, 0x0001, 1).unwrap();
//! head.words[1] = 7;
//! ```
//!
//! ```compile_fail
//! # use head::{Head, WORDS};
//! # let mut store = [0; WORDS];
//! # let mut head = Head::start(&mut store, 0, 0x0001, 1).unwrap();
//! head.words()[1] = 7;
//! ```
//!
//! Taking the session out:
//!
//! ```compile_fail
//! # use head::{Head, WORDS};
//! # let mut store = [0; WORDS];
//! # let mut head = Head::start(&mut store, 0, 0x0001, 1).unwrap();
//! let session = head.session;
//! ```
//!
//! Writing the store beside the head:
//!
//! ```compile_fail
//! # use head::{Head, WORDS};
//! # let mut store = [0; WORDS];
//! # let mut head = Head::start(&mut store, 0, 0x0001, 1).unwrap();
//! store[1] = 7;
//! head.enter(1, 0x0001).unwrap();
//! ```
//!
//! A second head with the same session:
//!
//! ```compile_fail
//! # use head::{Head, WORDS};
//! # let head = Head::start([0; WORDS], 0, 0x0001, 1).unwrap();
//! let twin = head.clone();
//! ```
//!
//! A head of words that were not judged:
//!
//! ```compile_fail
//! # use head::{Head, WORDS};
//! # let head = Head::start([0; WORDS], 0, 0x0001, 1).unwrap();
//! let other = Head { words: [0; WORDS], ..head };
//! ```

#![forbid(unsafe_code)]

mod answers;
mod capture;
mod lines;
mod store;

pub use answers::{Decision, Fault, Refusal};
pub use capture::Head;
pub use lines::{read_line, Line, Read, Session, State};
pub use store::{Stopped, Store};

/// The words of a record.
pub const WORDS: usize = 52;

/// The quorum test: sub-quorum of `s` by `t`, in a group with the core W0 and
/// the minimum Q. A set has bit h for head h.
pub fn quorum(core: u16, least: u8, s: u16, t: u16) -> Result<bool, Fault> {
    match proved::quorum(core, least, s, t) {
        proved::codes::HOLDS => Ok(true),
        proved::codes::FAILS => Ok(false),
        code => Err(answers::fault(code)),
    }
}
