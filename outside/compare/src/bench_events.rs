//! The lines of bench events, and the names of their kinds.

use second::bench::Event;
use second::lines::characters;

/// The line of an event, with its newline.
pub fn write_event(event: &Event) -> Vec<u8> {
    let mut bytes = Vec::new();
    match *event {
        Event::Group { w0, q } => {
            bytes.push(0x10);
            bytes.extend(w0.to_be_bytes());
            bytes.push(q);
        }
        Event::View { number, heads } => {
            bytes.push(0x11);
            bytes.extend(number.to_be_bytes());
            bytes.extend(heads.to_be_bytes());
        }
        Event::Enter { head, view } => {
            bytes.extend([0x12, head as u8]);
            bytes.extend(view.to_be_bytes());
        }
        Event::DeliverState { to, from, which } => {
            bytes.extend([0x13, to as u8, from as u8, which]);
        }
        Event::Decide { head } => bytes.extend([0x14, head as u8]),
        Event::DeliverAttempt { to, from, which } => {
            bytes.extend([0x15, to as u8, from as u8, which]);
        }
        Event::Form { head } => bytes.extend([0x16, head as u8]),
        Event::Cut { head, stores } => {
            bytes.extend([0x17, head as u8]);
            bytes.extend(stores.to_be_bytes());
        }
        Event::Recover { head } => bytes.extend([0x18, head as u8]),
    }
    characters(&bytes)
}

/// The name of an event's kind.
pub fn kind(event: Event) -> &'static str {
    match event {
        Event::Group { .. } => "group",
        Event::View { .. } => "view",
        Event::Enter { .. } => "enter",
        Event::DeliverState { .. } => "deliver state",
        Event::Decide { .. } => "decide",
        Event::DeliverAttempt { .. } => "deliver attempt",
        Event::Form { .. } => "form",
        Event::Cut { .. } => "arm",
        Event::Recover { .. } => "recover",
    }
}

/// The head that an event makes a call of, or arms.
pub fn head_of(event: Event) -> Option<usize> {
    match event {
        Event::Group { .. } | Event::View { .. } => None,
        Event::Enter { head, .. }
        | Event::Decide { head }
        | Event::Form { head }
        | Event::Cut { head, .. }
        | Event::Recover { head } => Some(head),
        Event::DeliverState { to, .. } | Event::DeliverAttempt { to, .. } => Some(to),
    }
}
