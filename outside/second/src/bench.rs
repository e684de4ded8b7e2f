//! Document 02, Item 1: the bench, which runs the events of a whole world.

use crate::answers::Answer;
use crate::calls;
use crate::group::{session_in, Session, Set, HEADS};
use crate::head_session::HeadSession;
use crate::lines::{ATTEMPT_CHARACTERS, STATE_CHARACTERS};
use crate::record::{start, PRIMARY, WORDS};
use crate::stores::recover;
use std::io::{BufRead, BufReader, BufWriter, Read, Write};

/// The views that are taken.
pub const VIEWS: usize = 1000;
/// The sent lines that are kept of a head.
pub const KEPT: usize = 4;
/// The characters of the longest event, a view, with its newline.
pub const EVENT_CHARACTERS: usize = 15;

/// The bench's own refusals.
const NO_EVENT: u8 = 3;
const OUT_OF_PLACE: u8 = 14;

/// One event.
#[derive(Clone, Copy, PartialEq, Eq, Debug)]
pub enum Event {
    Group { w0: Set, q: u8 },
    View { number: u32, heads: Set },
    Enter { head: usize, view: u32 },
    DeliverState { to: usize, from: usize, which: u8 },
    Decide { head: usize },
    DeliverAttempt { to: usize, from: usize, which: u8 },
    Form { head: usize },
    Cut { head: usize, stores: u16 },
    Recover { head: usize },
}

/// The event of a line given with its newline; `None` if the line is not of
/// the form or names a head over 15.
pub fn read_event(line: &[u8]) -> Option<Event> {
    let bytes = bytes_of(line.strip_suffix(b"\n")?)?;
    let head = |at: usize| Some(bytes[at] as usize).filter(|&h| h < HEADS);
    let two = |at: usize| u16::from_be_bytes([bytes[at], bytes[at + 1]]);
    let four = |at: usize| u32::from(two(at)) << 16 | u32::from(two(at + 2));
    let event = match (*bytes.first()?, bytes.len()) {
        (0x10, 4) => Event::Group {
            w0: two(1),
            q: bytes[3],
        },
        (0x11, 7) => Event::View {
            number: four(1),
            heads: two(5),
        },
        (0x12, 6) => Event::Enter {
            head: head(1)?,
            view: four(2),
        },
        (0x13, 4) => Event::DeliverState {
            to: head(1)?,
            from: head(2)?,
            which: bytes[3],
        },
        (0x14, 2) => Event::Decide { head: head(1)? },
        (0x15, 4) => Event::DeliverAttempt {
            to: head(1)?,
            from: head(2)?,
            which: bytes[3],
        },
        (0x16, 2) => Event::Form { head: head(1)? },
        (0x17, 4) => Event::Cut {
            head: head(1)?,
            stores: two(2),
        },
        (0x18, 2) => Event::Recover { head: head(1)? },
        _ => return None,
    };
    Some(event)
}

/// The bytes that lower-case digits stand for.
fn bytes_of(digits: &[u8]) -> Option<Vec<u8>> {
    if digits.len() % 2 != 0 {
        return None;
    }
    let value = |c: u8| match c {
        b'0'..=b'9' => Some(c - b'0'),
        b'a'..=b'f' => Some(c - b'a' + 10),
        _ => None,
    };
    digits
        .chunks(2)
        .map(|d| Some(value(d[0])? * 16 + value(d[1])?))
        .collect()
}

/// One head on the bench.
pub struct Head {
    pub record: Vec<u64>,
    pub session: HeadSession,
    /// Its last sent lines, states and attempts, the newest first.
    pub sent: Vec<Vec<u8>>,
    /// The stores its next call of the four that store may make.
    pub armed: Option<u16>,
}

impl Head {
    /// The number of stores for a call that is made now; a pending cut is
    /// used up by it, refused or not.
    fn stores(&mut self) -> u64 {
        self.armed.take().map_or(u64::MAX, u64::from)
    }

    /// A call that takes the session and hands it back.
    fn call(
        &mut self,
        call: impl FnOnce(&mut [u64], HeadSession) -> (Answer, HeadSession),
    ) -> Answer {
        let session = std::mem::replace(&mut self.session, HeadSession::none());
        let (answer, session) = call(&mut self.record, session);
        self.session = session;
        answer
    }

    fn enter(&mut self, view: u32, members: Set) -> Answer {
        let stores = self.stores();
        let answer = self.call(|r, s| calls::enter(r, s, view, members, stores));
        if answer == Answer::Entered {
            let mut line = [0; STATE_CHARACTERS];
            let written = self.call(|r, s| calls::write_state(r, s, &mut line));
            self.send(&line, written);
        }
        answer
    }

    fn decide(&mut self) -> Answer {
        let stores = self.stores();
        let answer = self.call(|r, s| calls::decide(r, s, stores));
        if answer == Answer::Attempted {
            let mut line = [0; ATTEMPT_CHARACTERS];
            let written = self.call(|r, s| calls::write_attempt(r, s, &mut line));
            self.send(&line, written);
        }
        answer
    }

    fn recover(&mut self) -> Answer {
        let stores = self.stores();
        let answer = recover(&mut self.record, stores);
        // Recovery leaves no session, and neither does a cut one.
        if !matches!(answer, Answer::Refused(_)) {
            self.session = HeadSession::none();
        }
        answer
    }

    /// Keeps a line that was written.
    fn send(&mut self, line: &[u8], written: Answer) {
        if let Answer::Written(count) = written {
            self.sent.insert(0, line[..count].to_vec());
            self.sent.truncate(KEPT);
        }
    }
}

/// The whole world. There are no heads before the group line.
#[derive(Default)]
pub struct Bench {
    pub w0: Set,
    pub heads: Vec<Head>,
    pub views: Vec<(u32, Set)>,
    /// The sessions formed, each once, without the core group's.
    pub formed: Vec<Session>,
}

impl Bench {
    /// Takes the event of one line, and hands back what is printed for it.
    pub fn line(&mut self, line: &[u8]) -> String {
        let said = match read_event(line) {
            None => Err(NO_EVENT),
            Some(event) => self.event(event),
        };
        match said {
            Err(refusal) => format!("R {refusal}\n"),
            Ok(word) => format!("{word}\n"),
        }
    }

    fn event(&mut self, event: Event) -> Result<&'static str, u8> {
        match event {
            Event::Group { w0, q } => self.group(w0, q),
            _ if self.heads.is_empty() => Err(OUT_OF_PLACE),
            Event::View { number, heads } => self.view(number, heads),
            Event::Enter { head, view } => self.enter(head, view),
            Event::DeliverState { to, from, which } => {
                let line = self.kept(from, which)?;
                word(self.heads[to].call(|r, s| calls::hear_state(r, s, &line)))
            }
            Event::DeliverAttempt { to, from, which } => {
                let line = self.kept(from, which)?;
                word(self.heads[to].call(|r, s| calls::hear_attempt(r, s, &line)))
            }
            Event::Decide { head } => word(self.heads[head].decide()),
            Event::Form { head } => self.form(head),
            Event::Recover { head } => word(self.heads[head].recover()),
            Event::Cut { head, stores } => {
                self.heads[head].armed = Some(stores);
                Ok("armed")
            }
        }
    }

    /// A group line that start refuses isn't one, so it is refused with 3
    /// wherever it stands (reading 27).
    fn group(&mut self, w0: Set, q: u8) -> Result<&'static str, u8> {
        let mut heads = Vec::new();
        for own in 0..HEADS {
            let mut record = vec![0; WORDS];
            if start(&mut record, own as u8, w0, q) != Answer::Started {
                return Err(NO_EVENT);
            }
            heads.push(Head {
                record,
                session: HeadSession::none(),
                sent: Vec::new(),
                armed: None,
            });
        }
        if !self.heads.is_empty() {
            return Err(OUT_OF_PLACE);
        }
        self.w0 = w0;
        self.heads = heads;
        word(Answer::Started)
    }

    fn view(&mut self, number: u32, heads: Set) -> Result<&'static str, u8> {
        if self.members(number).is_some() || self.views.len() >= VIEWS {
            return Err(OUT_OF_PLACE);
        }
        self.views.push((number, heads));
        Ok("announced")
    }

    /// The heads of a view that was announced.
    pub fn members(&self, view: u32) -> Option<Set> {
        let found = self.views.iter().find(|(number, _)| *number == view);
        found.map(|&(_, heads)| heads)
    }

    fn enter(&mut self, head: usize, view: u32) -> Result<&'static str, u8> {
        let members = self.members(view).ok_or(OUT_OF_PLACE)?;
        word(self.heads[head].enter(view, members))
    }

    fn kept(&self, from: usize, which: u8) -> Result<Vec<u8>, u8> {
        let line = self.heads[from].sent.get(which as usize);
        line.cloned().ok_or(OUT_OF_PLACE)
    }

    /// A session is formed when a form call has stored word 3, also if the
    /// call was cut after it.
    fn form(&mut self, head: usize) -> Result<&'static str, u8> {
        let head = &mut self.heads[head];
        let before = head.record[PRIMARY];
        let stores = head.stores();
        let answer = head.call(|r, s| calls::form(r, s, stores));
        let after = head.record[PRIMARY];
        if let (true, Ok(Some(session))) = (after != before, session_in(after)) {
            if !self.formed.contains(&session) {
                self.formed.push(session);
            }
        }
        word(answer)
    }

    /// The lines printed at the end: the formed sessions in rising number, the
    /// core group's first, each with the heads shared with the one before.
    pub fn sessions(&self) -> String {
        if self.heads.is_empty() {
            return String::new();
        }
        let mut all = self.formed.clone();
        all.push(Session {
            heads: self.w0,
            number: 0,
        });
        all.sort_by_key(|s| s.number);
        let mut text = String::new();
        let mut before = 0;
        for session in all {
            let shared = session.heads & before;
            text += &format!("F {:04x} {} {shared:04x}\n", session.heads, session.number);
            before = session.heads;
        }
        text
    }
}

/// What is printed for an answer of a head.
fn word(answer: Answer) -> Result<&'static str, u8> {
    match answer {
        Answer::Refused(refusal) => Err(refusal.number()),
        Answer::Cut => Ok("cut"),
        Answer::Started => Ok("started"),
        Answer::Recovered => Ok("recovered"),
        Answer::Entered => Ok("entered"),
        Answer::Heard => Ok("heard"),
        Answer::Attempted => Ok("attempted"),
        Answer::NoQuorum => Ok("no quorum"),
        Answer::NumbersRunOut => Ok("numbers run out"),
        Answer::NoPlace => Ok("no place"),
        Answer::Formed => Ok("formed"),
        Answer::Written(_) => unreachable!("no event answers with a written line"),
    }
}

/// Runs the bench over an input of any bytes.
pub fn run(input: impl Read, output: impl Write) -> std::io::Result<()> {
    let mut input = BufReader::new(input);
    let mut output = BufWriter::new(output);
    let mut bench = Bench::default();
    let mut line = Vec::new();
    while next_line(&mut input, &mut line)? {
        output.write_all(bench.line(&line).as_bytes())?;
    }
    output.write_all(bench.sessions().as_bytes())?;
    output.flush()
}

/// Puts the next line in `line`, with its newline if it has one. Of a line
/// longer than any event only a first part is kept, which is no event either.
/// False at the end of the input.
fn next_line(input: &mut impl BufRead, line: &mut Vec<u8>) -> std::io::Result<bool> {
    let most = EVENT_CHARACTERS + 1;
    line.clear();
    input.take(most as u64).read_until(b'\n', line)?;
    if line.len() == most && !line.ends_with(b"\n") {
        input.skip_until(b'\n')?;
    }
    Ok(!line.is_empty())
}
