//! "What is built": the limits, sets of heads, and sessions.

/// Heads are numbered 0 to 15.
pub const HEADS: usize = 16;
/// Places for ambiguous sessions.
pub const PLACES: usize = 16;
/// The largest session number.
pub const LARGEST_NUMBER: u64 = 4_294_967_295;
/// The largest view. Views begin at 1.
pub const LARGEST_VIEW: u64 = 4_294_967_295;

/// A set of heads: head h is bit h.
pub type Set = u16;

pub fn has(set: Set, head: usize) -> bool {
    head < HEADS && (set >> head) & 1 == 1
}

pub fn single(head: usize) -> Set {
    1 << head
}

pub fn size(set: Set) -> u32 {
    (0..HEADS).filter(|&h| has(set, h)).count() as u32
}

/// The heads of a set, in rising order.
pub fn heads_in(set: Set) -> Vec<usize> {
    (0..HEADS).filter(|&h| has(set, h)).collect()
}

pub fn highest_head(set: Set) -> Option<usize> {
    (0..HEADS).filter(|&h| has(set, h)).last()
}

/// Is `a` a part of `b`?
pub fn within(a: Set, b: Set) -> bool {
    a & !b == 0
}

/// A real session: a set of heads, at least one, and a number.
/// "None" is `Option::None` of this type.
#[derive(Clone, Copy, PartialEq, Eq, Debug)]
pub struct Session {
    pub heads: Set,
    pub number: u32,
}

impl Session {
    pub fn word(self) -> u64 {
        (self.heads as u64) | ((self.number as u64) << 16)
    }
}

/// The word of a session or of none.
pub fn word_of(session: Option<Session>) -> u64 {
    match session {
        None => 0,
        Some(s) => s.word(),
    }
}

/// The number of a session; none counts as -1.
pub fn number_of(session: Option<Session>) -> i64 {
    match session {
        None => -1,
        Some(s) => s.number as i64,
    }
}

/// What a session word holds. `Err` if the word is no session word: bits
/// above bit 47, or no heads though the word is not 0.
pub fn session_in(word: u64) -> Result<Option<Session>, NotASession> {
    if word == 0 {
        return Ok(None);
    }
    let heads = bits_heads(word);
    if word >> 48 != 0 || heads == 0 {
        return Err(NotASession);
    }
    Ok(Some(Session {
        heads,
        number: (word >> 16) as u32,
    }))
}

#[derive(Clone, Copy, PartialEq, Eq, Debug)]
pub struct NotASession;

/// The bits of a word where a session has its heads, whatever the word is.
pub fn bits_heads(word: u64) -> Set {
    (word & 0xffff) as u16
}

/// The number of a word, whatever the word is: all bits above the heads, so
/// that a word with bits above 47 is past every limit (INDEPENDENCE.md,
/// sentence 6); -1 for the word 0.
pub fn bits_number(word: u64) -> i64 {
    if word == 0 {
        -1
    } else {
        (word >> 16) as i64
    }
}
