//! The text of the program `frames`.

use crate::group::{number_of, session_in};
use crate::lines::{read, Broken, Frame};

/// What `frames` prints for this input.
pub fn frames(input: &[u8]) -> Vec<u8> {
    let mut out = Vec::new();
    let mut rest = input;
    // A line counts once, and so do last bytes without newline.
    while !rest.is_empty() {
        let (verdict, after) = read(rest);
        out.extend(text(&verdict).into_bytes());
        rest = after;
    }
    out
}

/// The line printed for one verdict.
pub fn text(verdict: &Result<Frame, Broken>) -> String {
    match verdict {
        Err(_) => String::from("R 3\n"),
        Ok(Frame::Attempt { view, sender }) => format!("A {view} {sender}\n"),
        Ok(Frame::State {
            view,
            sender,
            state,
        }) => {
            // The reader has judged the word, so it is none or a session.
            let primary = session_in(state.last_primary).unwrap_or(None);
            format!(
                "S {} {} {} {:04x} {} {}\n",
                view,
                sender,
                state.number,
                primary.map_or(0, |s| s.heads),
                number_of(primary),
                state.places.len(),
            )
        }
    }
}
