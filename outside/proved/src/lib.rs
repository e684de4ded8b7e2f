//! The exported functions of the proved library, as Rust declares them.
//!
//! A slice is an address and a length, a struct is laid out as C lays it out.
//! The linker checks none of this; a test of `head` compares the text of the
//! declarations with the proved source.

/// What a state line carries; a session is its word, 0 for none.
#[repr(C)]
#[derive(Clone, Copy, Debug, PartialEq, Eq)]
pub struct State {
    pub number: u32,
    pub primary: u64,
    pub formed: [u64; 16],
    pub count: usize,
    pub places: [u64; 16],
}

/// A head's session. Stages: 0 none, 1 undecided, 2 closed, 3 attempted, 4
/// formed; any other fits no record.
#[repr(C)]
#[derive(Clone, Copy, Debug, PartialEq, Eq)]
pub struct Session {
    pub stage: u8,
    pub view: u32,
    pub members: u16,
    pub states: u16,
    pub attempts: u16,
    pub held: [State; 16],
}

/// What a call ends with: the number of its answer, and the session.
#[repr(C)]
#[derive(Clone, Copy, Debug, PartialEq, Eq)]
pub struct HeadEnd {
    pub session: Session,
    pub code: u8,
}

/// The same of a call that writes a line, with the line's length.
#[repr(C)]
#[derive(Clone, Copy, Debug, PartialEq, Eq)]
pub struct HeadLine {
    pub session: Session,
    pub length: usize,
    pub code: u8,
}

/// A line that was read. Kind 1 is a state, 2 an attempt, 0 a line that
/// breaks `rule`; `left` is the number of lent bytes after it.
#[repr(C)]
#[derive(Clone, Copy, Debug, PartialEq, Eq)]
pub struct LineRead {
    pub kind: u8,
    pub rule: u8,
    pub sender: u8,
    pub view: u32,
    pub left: usize,
    pub state: State,
}

/// Numbers of answers: 0 done, 1 to 63 the refusal's number, and these.
pub mod codes {
    pub const DONE: u8 = 0;
    pub const CUT: u8 = 64;
    pub const ATTEMPTED: u8 = 65;
    pub const NO_QUORUM: u8 = 66;
    pub const NUMBERS_RUN_OUT: u8 = 67;
    pub const NO_PLACE: u8 = 68;
    pub const HOLDS: u8 = 69;
    pub const FAILS: u8 = 70;
}

mod linked {
    use super::{HeadEnd, HeadLine, LineRead, Session};
    extern "C" {
        pub fn head_quorum(core: u16, least: u8, s: u16, t: u16) -> u8;
        pub fn head_start(words: *mut u64, len: usize, head: u8, core: u16, least: u8) -> u8;
        pub fn head_whole(words: *const u64, len: usize) -> u8;
        pub fn head_recover(words: *mut u64, len: usize, stores: u64) -> u8;
        pub fn head_read_line(bytes: *const u8, len: usize) -> LineRead;
        pub fn head_enter(
            words: *mut u64,
            len: usize,
            session: Session,
            view: u32,
            heads: u16,
            stores: u64,
        ) -> HeadEnd;
        pub fn head_hear_state(
            words: *const u64,
            len: usize,
            session: Session,
            line: *const u8,
            line_len: usize,
        ) -> HeadEnd;
        pub fn head_hear_attempt(
            words: *const u64,
            len: usize,
            session: Session,
            line: *const u8,
            line_len: usize,
        ) -> HeadEnd;
        pub fn head_decide(words: *mut u64, len: usize, session: Session, stores: u64) -> HeadEnd;
        pub fn head_form(words: *mut u64, len: usize, session: Session, stores: u64) -> HeadEnd;
        pub fn head_write_state(
            words: *const u64,
            len: usize,
            session: Session,
            out: *mut u8,
            out_len: usize,
        ) -> HeadLine;
        pub fn head_write_attempt(
            words: *const u64,
            len: usize,
            session: Session,
            out: *mut u8,
            out_len: usize,
        ) -> HeadLine;
    }
}

// SAFETY, for all of the following: addresses and lengths are those of live
// slices, and the proved functions keep within them and ask for nothing else.
// They are inlined, so that a session is copied no oftener than C copies it.

#[inline]
pub fn quorum(core: u16, least: u8, s: u16, t: u16) -> u8 {
    unsafe { linked::head_quorum(core, least, s, t) }
}

#[inline]
pub fn start(words: &mut [u64], head: u8, core: u16, least: u8) -> u8 {
    unsafe { linked::head_start(words.as_mut_ptr(), words.len(), head, core, least) }
}

#[inline]
pub fn whole(words: &[u64]) -> bool {
    unsafe { linked::head_whole(words.as_ptr(), words.len()) == 1 }
}

#[inline]
pub fn recover(words: &mut [u64], stores: u64) -> u8 {
    unsafe { linked::head_recover(words.as_mut_ptr(), words.len(), stores) }
}

#[inline]
pub fn read_line(bytes: &[u8]) -> LineRead {
    unsafe { linked::head_read_line(bytes.as_ptr(), bytes.len()) }
}

#[inline]
pub fn enter(words: &mut [u64], session: Session, view: u32, heads: u16, stores: u64) -> HeadEnd {
    unsafe { linked::head_enter(words.as_mut_ptr(), words.len(), session, view, heads, stores) }
}

#[inline]
pub fn hear_state(words: &[u64], session: Session, line: &[u8]) -> HeadEnd {
    unsafe {
        linked::head_hear_state(words.as_ptr(), words.len(), session, line.as_ptr(), line.len())
    }
}

#[inline]
pub fn hear_attempt(words: &[u64], session: Session, line: &[u8]) -> HeadEnd {
    unsafe {
        linked::head_hear_attempt(words.as_ptr(), words.len(), session, line.as_ptr(), line.len())
    }
}

#[inline]
pub fn decide(words: &mut [u64], session: Session, stores: u64) -> HeadEnd {
    unsafe { linked::head_decide(words.as_mut_ptr(), words.len(), session, stores) }
}

#[inline]
pub fn form(words: &mut [u64], session: Session, stores: u64) -> HeadEnd {
    unsafe { linked::head_form(words.as_mut_ptr(), words.len(), session, stores) }
}

#[inline]
pub fn write_state(words: &[u64], session: Session, out: &mut [u8]) -> HeadLine {
    unsafe {
        linked::head_write_state(words.as_ptr(), words.len(), session, out.as_mut_ptr(), out.len())
    }
}

#[inline]
pub fn write_attempt(words: &[u64], session: Session, out: &mut [u8]) -> HeadLine {
    unsafe {
        linked::head_write_attempt(
            words.as_ptr(),
            words.len(),
            session,
            out.as_mut_ptr(),
            out.len(),
        )
    }
}
