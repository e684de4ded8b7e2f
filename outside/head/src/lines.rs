//! Lines, read and written.

/// A set of heads and a number, as "session" is used of last primary, last
/// formed and the places. None is `Option`'s.
#[derive(Clone, Copy, Debug, PartialEq, Eq)]
pub struct Session {
    pub heads: u16,
    pub number: u32,
}

impl Session {
    /// The session of a session word: heads in bits 0 to 15, number in 16 to 47.
    pub(crate) fn of(word: u64) -> Option<Session> {
        (word != 0).then_some(Session {
            heads: word as u16,
            number: (word >> 16) as u32,
        })
    }
}

/// The room of the longest line.
pub(crate) const STATE_ROOM: usize = 419;

/// A line that a head wrote, to be sent as it is.
#[derive(Clone, Copy, Debug, PartialEq, Eq)]
pub struct Line {
    bytes: [u8; STATE_ROOM],
    length: usize,
}

impl Line {
    pub(crate) fn of(bytes: [u8; STATE_ROOM], length: usize) -> Line {
        Line { bytes, length }
    }

    /// Its characters, newline included.
    pub fn bytes(&self) -> &[u8] {
        self.bytes.get(..self.length).unwrap_or(&[])
    }
}

/// What a state line carries.
#[derive(Clone, Debug, PartialEq, Eq)]
pub struct State {
    pub number: u32,
    pub primary: Option<Session>,
    pub formed: [Option<Session>; 16],
    /// In rising number.
    pub places: Vec<Session>,
}

/// What a line is.
#[derive(Clone, Debug, PartialEq, Eq)]
pub enum Read {
    State {
        view: u32,
        sender: u8,
        state: State,
    },
    Attempt {
        view: u32,
        sender: u8,
    },
    /// The first broken rule, 1 to 7.
    Broken {
        rule: u8,
    },
}

/// Judges the first line of the bytes and hands back what comes after it, the
/// empty end if there is no newline.
pub fn read_line(bytes: &[u8]) -> (Read, &[u8]) {
    let line = proved::read_line(bytes);
    let (view, sender) = (line.view, line.sender);
    let read = match line.kind {
        1 => Read::State {
            view,
            sender,
            state: carried(&line.state),
        },
        2 => Read::Attempt { view, sender },
        _ => Read::Broken { rule: line.rule },
    };
    let rest = bytes.len().saturating_sub(line.left);
    (read, bytes.get(rest..).unwrap_or(&[]))
}

fn carried(state: &proved::State) -> State {
    let places = state.places.iter().take(state.count);
    State {
        number: state.number,
        primary: Session::of(state.primary),
        formed: state.formed.map(Session::of),
        places: places.filter_map(|word| Session::of(*word)).collect(),
    }
}
