//! Histories as text, a few events a line: a verb, the view where there is
//! one, then an item for each event.
//!
//! ```text
//! group W0 Q HEADS NUMBER
//! view V:HEADS ...
//! enter V head[:stores] ...
//! state V to<from ...          also attempt, state-as-attempt, attempt-as-state
//! decide head[:stores] ...     also form, recover
//! stop head ...
//! write-state head:room ...    also write-attempt
//! ```
//!
//! Sets of heads are in hexadecimal, the rest is decimal; `;` ends a line too.

use crate::event::{Budget, Event, History, Kind, Settings};

fn item(event: &Event) -> String {
    match *event {
        Event::View { view, heads } => format!("{view}:{heads:04x}"),
        Event::Deliver { from, to, .. } => format!("{to}<{from}"),
        Event::Stop { head } => format!("{head}"),
        Event::Write { head, room, .. } => format!("{head}:{room}"),
        _ => {
            let head = event.head().unwrap_or(0);
            match event.budget() {
                None => format!("{head}"),
                Some(k) => format!("{head}:{k}"),
            }
        }
    }
}

/// The lines of a history; events of one verb that follow each other share one.
pub fn lines(history: &History) -> Vec<String> {
    let s = &history.settings;
    let mut all = vec![format!(
        "group {:04x} {} {} {}",
        s.w0, s.q, s.heads, s.number
    )];
    let mut last = String::new();
    for event in &history.events {
        let verb = event.verb();
        if verb == last {
            let line = all.last_mut().expect("the group's line is there");
            *line += &format!(" {}", item(event));
        } else {
            all.push(format!("{verb} {}", item(event)));
        }
        last = verb;
    }
    all
}

fn number<T: std::str::FromStr>(word: &str) -> Result<T, String> {
    word.parse().map_err(|_| format!("not a number: {word}"))
}

fn set(word: &str) -> Result<u16, String> {
    u16::from_str_radix(word, 16).map_err(|_| format!("not a set of heads: {word}"))
}

/// `head` or `head:stores`.
fn head_and_budget(word: &str) -> Result<(u8, Budget), String> {
    match word.split_once(':') {
        None => Ok((number(word)?, None)),
        Some((head, k)) => Ok((number(head)?, Some(number(k)?))),
    }
}

fn delivery(word: &str, view: u32, line: Kind, ear: Kind) -> Result<Event, String> {
    let (to, from) = word.split_once('<').ok_or(format!("not to<from: {word}"))?;
    Ok(Event::Deliver {
        line,
        ear,
        view,
        from: number(from)?,
        to: number(to)?,
    })
}

fn announced(word: &str) -> Result<Event, String> {
    let (view, heads) = word
        .split_once(':')
        .ok_or(format!("not view:heads: {word}"))?;
    Ok(Event::View {
        view: number(view)?,
        heads: set(heads)?,
    })
}

fn parsed(verb: &str, view: u32, word: &str) -> Result<Event, String> {
    let (state, attempt) = (Kind::State, Kind::Attempt);
    match verb {
        "view" => return announced(word),
        "state" => return delivery(word, view, state, state),
        "attempt" => return delivery(word, view, attempt, attempt),
        "state-as-attempt" => return delivery(word, view, state, attempt),
        "attempt-as-state" => return delivery(word, view, attempt, state),
        _ => {}
    }
    let (head, budget) = head_and_budget(word)?;
    let room = budget.unwrap_or(0);
    match verb {
        "enter" => Ok(Event::Enter { head, view, budget }),
        "decide" => Ok(Event::Decide { head, budget }),
        "form" => Ok(Event::Form { head, budget }),
        "recover" => Ok(Event::Recover { head, budget }),
        "stop" => Ok(Event::Stop { head }),
        "write-state" => Ok(Event::Write {
            kind: state,
            head,
            room,
        }),
        "write-attempt" => Ok(Event::Write {
            kind: attempt,
            head,
            room,
        }),
        _ => Err(format!("no event is called {verb}")),
    }
}

fn group(words: &[&str]) -> Result<Settings, String> {
    let [w0, q, heads, first] = words else {
        return Err(String::from(
            "group needs W0, Q, the number of heads and word 2",
        ));
    };
    let settings = Settings {
        w0: set(w0)?,
        q: number(q)?,
        heads: number(heads)?,
        number: number(first)?,
    };
    if settings.heads > 16 {
        return Err(String::from("there are at most 16 heads"));
    }
    Ok(settings)
}

/// The history of a text.
pub fn read(text: &str) -> Result<History, String> {
    let mut settings = None;
    let mut events = Vec::new();
    for line in text.split(['\n', ';']) {
        let words: Vec<&str> = line.split_whitespace().collect();
        let Some((&verb, mut rest)) = words.split_first() else {
            continue;
        };
        if verb == "group" {
            settings = Some(group(rest)?);
            continue;
        }
        let mut view = 0;
        let of_view = [
            "enter",
            "state",
            "attempt",
            "state-as-attempt",
            "attempt-as-state",
        ];
        if of_view.contains(&verb) {
            let (first, items) = rest.split_first().ok_or(format!("{verb} needs a view"))?;
            view = number(first)?;
            rest = items;
        }
        for word in rest {
            events.push(parsed(verb, view, word)?);
        }
    }
    let settings = settings.ok_or("a history begins with its group")?;
    Ok(History { settings, events })
}
