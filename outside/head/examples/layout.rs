//! The layout of the structs that Rust declares of the proved library, under
//! the names that `include/head.h` gives them: of each its size and alignment,
//! of each field its offset and size. `outside/examples/layout.c` prints the
//! header's.

use proved::{HeadEnd, HeadLine, LineRead, Session, State};
use std::mem::{align_of, offset_of, size_of};

/// The size of what a function reads out of a struct.
fn read_size<S, F>(_: fn(&S) -> &F) -> usize {
    size_of::<F>()
}

macro_rules! laid_out {
    ($type:ty as $name:literal: $($field:ident),*) => {
        println!("{} {} {}", $name, size_of::<$type>(), align_of::<$type>());
        $(
            let (offset, size) = (offset_of!($type, $field), read_size(|s: &$type| &s.$field));
            println!("{}.{} {offset} {size}", $name, stringify!($field));
        )*
    };
}

fn main() {
    laid_out!(State as "head_state": number, primary, formed, count, places);
    laid_out!(Session as "head_session": stage, view, members, states, attempts, held);
    laid_out!(HeadEnd as "head_end": session, code);
    laid_out!(HeadLine as "head_line": session, length, code);
    laid_out!(LineRead as "head_line_read": kind, rule, sender, view, left, state);
}
