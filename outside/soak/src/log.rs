//! The log of one life of a head: one entry a line, written before and after
//! what it tells of. What was written before a kill is kept by the system.

use crate::calls::Call;
use compare::side::refusal_of;
use second::answers::Answer;
use std::fmt::Write;

#[derive(Clone, PartialEq, Eq, Debug)]
pub enum Entry {
    /// The head was started fresh with this W0 and Q.
    Started {
        core: u16,
        least: u8,
    },
    /// The record's words as they were in the file when the life began.
    Found(Vec<u64>),
    Call(Call),
    /// Store k (from 1) is about to be made.
    Store {
        k: usize,
        word: usize,
        value: u64,
    },
    /// Store k is made and durable.
    Stored(usize),
    /// The call was stopped on order with this many stores made.
    Hold(usize),
    /// The call's answer, and the line it wrote if it wrote one.
    End {
        answer: Answer,
        line: Vec<u8>,
    },
    /// The record's words as they were in the file after recovery.
    Record(Vec<u64>),
    /// The life ended because it was told to, and not by a kill.
    Quit,
}

/// The characters of a line with `$` for its newline.
fn shown(line: &[u8]) -> String {
    line.iter()
        .map(|&b| if b == b'\n' { '$' } else { b as char })
        .collect()
}

fn bytes_of(text: &str) -> Vec<u8> {
    text.bytes()
        .map(|b| if b == b'$' { b'\n' } else { b })
        .collect()
}

fn put_words(text: &mut String, name: &str, words: &[u64]) {
    text.push_str(name);
    for word in words {
        let _ = write!(text, " {word:x}");
    }
}

fn call_text(call: &Call) -> String {
    match call {
        Call::Recover => String::from("recover"),
        Call::Enter { view, members } => format!("enter {view} {members:x}"),
        Call::HearState(line) => format!("state {}", shown(line)),
        Call::HearAttempt(line) => format!("attempt {}", shown(line)),
        Call::Decide => String::from("decide"),
        Call::Form => String::from("form"),
        Call::WriteState => String::from("write-state"),
        Call::WriteAttempt => String::from("write-attempt"),
    }
}

const NAMES: [(Answer, &str); 9] = [
    (Answer::Cut, "cut"),
    (Answer::Recovered, "recovered"),
    (Answer::Entered, "entered"),
    (Answer::Heard, "heard"),
    (Answer::Attempted, "attempted"),
    (Answer::NoQuorum, "no-quorum"),
    (Answer::NumbersRunOut, "numbers-run-out"),
    (Answer::NoPlace, "no-place"),
    (Answer::Formed, "formed"),
];

fn end_text(answer: Answer, line: &[u8]) -> String {
    match answer {
        Answer::Refused(refusal) => format!("refused {}", refusal.number()),
        Answer::Written(_) => format!("written {}", shown(line)),
        other => NAMES
            .iter()
            .find(|(answer, _)| *answer == other)
            .map_or("started", |(_, name)| name)
            .to_string(),
    }
}

impl Entry {
    /// The entry as one line, without newline.
    pub fn text(&self) -> String {
        let mut text = String::new();
        match self {
            Entry::Started { core, least } => text = format!("started {core:x} {least}"),
            Entry::Found(words) => put_words(&mut text, "found", words),
            Entry::Call(call) => text = format!("call {}", call_text(call)),
            Entry::Store { k, word, value } => text = format!("store {k} {word} {value:x}"),
            Entry::Stored(k) => text = format!("stored {k}"),
            Entry::Hold(k) => text = format!("hold {k}"),
            Entry::End { answer, line } => text = format!("end {}", end_text(*answer, line)),
            Entry::Record(words) => put_words(&mut text, "record", words),
            Entry::Quit => text.push_str("quit"),
        }
        text
    }

    /// Reads an entry back.
    pub fn read(text: &str) -> Result<Entry, String> {
        let words: Vec<&str> = text.split(' ').collect();
        parse(&words).ok_or_else(|| format!("no entry of a log: {text}"))
    }
}

fn hex(text: &str) -> Option<u64> {
    u64::from_str_radix(text, 16).ok()
}

fn hex_set(text: &str) -> Option<u16> {
    u16::from_str_radix(text, 16).ok()
}

fn hex_words(words: &[&str]) -> Option<Vec<u64>> {
    words.iter().map(|word| hex(word)).collect()
}

fn parse(words: &[&str]) -> Option<Entry> {
    match words {
        ["started", core, least] => Some(Entry::Started {
            core: hex_set(core)?,
            least: least.parse().ok()?,
        }),
        ["found", rest @ ..] => Some(Entry::Found(hex_words(rest)?)),
        ["call", rest @ ..] => Some(Entry::Call(parse_call(rest)?)),
        ["store", k, word, value] => Some(Entry::Store {
            k: k.parse().ok()?,
            word: word.parse().ok()?,
            value: hex(value)?,
        }),
        ["stored", k] => Some(Entry::Stored(k.parse().ok()?)),
        ["hold", k] => Some(Entry::Hold(k.parse().ok()?)),
        ["end", rest @ ..] => parse_end(rest),
        ["record", rest @ ..] => Some(Entry::Record(hex_words(rest)?)),
        ["quit"] => Some(Entry::Quit),
        _ => None,
    }
}

fn parse_call(words: &[&str]) -> Option<Call> {
    match words {
        ["recover"] => Some(Call::Recover),
        ["enter", view, members] => Some(Call::Enter {
            view: view.parse().ok()?,
            members: hex_set(members)?,
        }),
        ["state", line] => Some(Call::HearState(bytes_of(line))),
        ["attempt", line] => Some(Call::HearAttempt(bytes_of(line))),
        ["decide"] => Some(Call::Decide),
        ["form"] => Some(Call::Form),
        ["write-state"] => Some(Call::WriteState),
        ["write-attempt"] => Some(Call::WriteAttempt),
        _ => None,
    }
}

fn parse_end(words: &[&str]) -> Option<Entry> {
    let (answer, line) = match words {
        ["refused", number] => {
            let refusal = refusal_of(number.parse().ok()?)?;
            (Answer::Refused(refusal), Vec::new())
        }
        ["written", line] => {
            let line = bytes_of(line);
            (Answer::Written(line.len()), line)
        }
        [name] => {
            let (answer, _) = NAMES.iter().find(|(_, known)| known == name)?;
            (*answer, Vec::new())
        }
        _ => return None,
    };
    Some(Entry::End { answer, line })
}

/// The entries of a log. A last line without newline was being written when
/// the head was killed: what it tells of had not begun.
pub fn read_all(text: &str) -> Result<Vec<Entry>, String> {
    let whole = text.rfind('\n').map_or("", |at| &text[..at]);
    whole.lines().map(Entry::read).collect()
}
