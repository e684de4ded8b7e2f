//! "Lines": the reader, the writers, and the rules.

use crate::group::{has, number_of, session_in, Session, HEADS, PLACES};

/// The number of the first rule a line breaks, 1 to 7.
#[derive(Clone, Copy, PartialEq, Eq, Debug, PartialOrd, Ord, Hash)]
pub struct Broken(pub u8);

/// What a state line says of its sender, without view and sender.
/// Sessions stand as session words.
#[derive(Clone, PartialEq, Eq, Debug)]
pub struct State {
    pub number: u32,
    pub last_primary: u64,
    pub last_formed: Vec<u64>,
    pub places: Vec<u64>,
}

#[derive(Clone, PartialEq, Eq, Debug)]
pub enum Frame {
    State { view: u32, sender: u8, state: State },
    Attempt { view: u32, sender: u8 },
}

pub const STATE_KIND: u8 = 1;
pub const ATTEMPT_KIND: u8 = 2;
/// The bytes of a state frame without places.
pub const STATE_BYTES: usize = 113;
/// The bytes of an attempt frame.
pub const ATTEMPT_BYTES: usize = 6;
/// The characters of the longest state line and of an attempt line.
pub const STATE_CHARACTERS: usize = 419;
pub const ATTEMPT_CHARACTERS: usize = 13;

/// Judges the first line of the bytes and hands back the rest after it.
pub fn read(bytes: &[u8]) -> (Result<Frame, Broken>, &[u8]) {
    match bytes.iter().position(|&b| b == b'\n') {
        // No newline: rule 1 is broken, and the rest is the empty end.
        None => (Err(Broken(1)), &bytes[bytes.len()..]),
        Some(at) => (judge(&bytes[..at]), &bytes[at + 1..]),
    }
}

/// Judges bytes given as one line: anything after the newline breaks rule 1.
pub fn read_one(bytes: &[u8]) -> Result<Frame, Broken> {
    let (verdict, rest) = read(bytes);
    if rest.is_empty() {
        verdict
    } else {
        Err(Broken(1))
    }
}

/// Judges the characters of a line before its newline.
fn judge(characters: &[u8]) -> Result<Frame, Broken> {
    // Rule 1: digits. The newline is known to be there.
    let mut digits: Vec<u8> = Vec::new();
    for &c in characters {
        match c {
            b'0'..=b'9' => digits.push(c - b'0'),
            b'a'..=b'f' => digits.push(c - b'a' + 10),
            _ => return Err(Broken(1)),
        }
    }

    // Rule 2: kind and length, count at most 16.
    if digits.is_empty() || digits.len() % 2 != 0 {
        return Err(Broken(2));
    }
    let bytes: Vec<u8> = digits.chunks(2).map(|d| d[0] * 16 + d[1]).collect();
    match bytes[0] {
        STATE_KIND => {
            if bytes.len() < STATE_BYTES {
                return Err(Broken(2));
            }
            let count = bytes[STATE_BYTES - 1] as usize;
            if count > PLACES || bytes.len() != STATE_BYTES + 6 * count {
                return Err(Broken(2));
            }
        }
        ATTEMPT_KIND => {
            if bytes.len() != ATTEMPT_BYTES {
                return Err(Broken(2));
            }
        }
        _ => return Err(Broken(2)),
    }

    // Rule 3: view not 0, sender at most 15.
    let view = number_at(&bytes, 1);
    let sender = bytes[5];
    if view == 0 || sender as usize >= HEADS {
        return Err(Broken(3));
    }

    if bytes[0] == ATTEMPT_KIND {
        return Ok(Frame::Attempt { view, sender });
    }

    let count = bytes[STATE_BYTES - 1] as usize;
    let state = State {
        number: number_at(&bytes, 6),
        last_primary: session_at(&bytes, 10),
        last_formed: (0..HEADS)
            .map(|h| session_at(&bytes, 16 + 6 * h))
            .collect(),
        places: (0..count)
            .map(|i| session_at(&bytes, STATE_BYTES + 6 * i))
            .collect(),
    };
    rules_4_to_7(sender as usize, &state)?;
    Ok(Frame::State {
        view,
        sender,
        state,
    })
}

/// Four bytes, high byte first.
fn number_at(bytes: &[u8], at: usize) -> u32 {
    bytes[at..at + 4]
        .iter()
        .fold(0, |n, &b| n * 256 + b as u32)
}

/// Six bytes of a session, number then heads, as a word.
fn session_at(bytes: &[u8], at: usize) -> u64 {
    let number = number_at(bytes, at) as u64;
    let heads = bytes[at + 4] as u64 * 256 + bytes[at + 5] as u64;
    heads | (number << 16)
}

/// Line rules 4 to 7, of what a sender says. Held states are judged by them too.
pub fn rules_4_to_7(sender: usize, state: &State) -> Result<(), Broken> {
    // Rule 4: a session with no heads is all zero.
    let session = |word: u64| session_in(word).map_err(|_| Broken(4));
    let last_primary = session(state.last_primary)?;
    let mut last_formed = Vec::new();
    for &word in &state.last_formed {
        last_formed.push(session(word)?);
    }
    let mut places = Vec::new();
    for &word in &state.places {
        places.push(session(word)?);
    }

    // Rule 5: last primary and last formed as in a whole record, with the
    // sender as own head.
    if !primary_and_formed_agree(sender, last_primary, &last_formed) {
        return Err(Broken(5));
    }

    // Rule 6: places strictly rising, above last primary's number, at least
    // 1, each with the sender.
    let mut before = number_of(last_primary);
    for place in &places {
        let Some(place) = place else {
            return Err(Broken(6));
        };
        let number = place.number as i64;
        if number <= before || number < 1 || !has(place.heads, sender) {
            return Err(Broken(6));
        }
        before = number;
    }

    // Rule 7: no number above the session number.
    let most = state.number as i64;
    let all = [last_primary]
        .into_iter()
        .chain(last_formed)
        .chain(places)
        .all(|s| number_of(s) <= most);
    if !all {
        return Err(Broken(7));
    }
    Ok(())
}

/// The part of "whole" about last primary and last formed: last primary is
/// none or has own head in it; last formed for q is last primary for each q
/// in it, and for other q none or a session with both own head and q and a
/// lower number.
pub fn primary_and_formed_agree(
    own: usize,
    last_primary: Option<Session>,
    last_formed: &[Option<Session>],
) -> bool {
    if let Some(primary) = last_primary {
        if !has(primary.heads, own) {
            return false;
        }
    }
    for q in 0..HEADS {
        let in_primary = last_primary.is_some_and(|s| has(s.heads, q));
        if in_primary {
            if last_formed[q] != last_primary {
                return false;
            }
        } else if let Some(formed) = last_formed[q] {
            let lower = (formed.number as i64) < number_of(last_primary);
            if !has(formed.heads, own) || !has(formed.heads, q) || !lower {
                return false;
            }
        }
    }
    true
}

/// The line of a frame, with its newline.
pub fn write(frame: &Frame) -> Vec<u8> {
    let mut bytes = Vec::new();
    match frame {
        Frame::Attempt { view, sender } => {
            bytes.push(ATTEMPT_KIND);
            bytes.extend(view.to_be_bytes());
            bytes.push(*sender);
        }
        Frame::State {
            view,
            sender,
            state,
        } => {
            bytes.push(STATE_KIND);
            bytes.extend(view.to_be_bytes());
            bytes.push(*sender);
            bytes.extend(state.number.to_be_bytes());
            put_session(&mut bytes, state.last_primary);
            for &word in &state.last_formed {
                put_session(&mut bytes, word);
            }
            bytes.push(state.places.len() as u8);
            for &word in &state.places {
                put_session(&mut bytes, word);
            }
        }
    }
    characters(&bytes)
}

fn put_session(bytes: &mut Vec<u8>, word: u64) {
    let number = (word >> 16) as u32;
    let heads = (word & 0xffff) as u16;
    bytes.extend(number.to_be_bytes());
    bytes.extend(heads.to_be_bytes());
}

/// The bytes in lower-case hexadecimal, and a newline.
pub fn characters(bytes: &[u8]) -> Vec<u8> {
    let digits = b"0123456789abcdef";
    let mut line = Vec::new();
    for &b in bytes {
        line.push(digits[(b / 16) as usize]);
        line.push(digits[(b % 16) as usize]);
    }
    line.push(b'\n');
    line
}
