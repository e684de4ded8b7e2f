//! The calls of a head in plain Rust written for speed: the record and the
//! session are changed in place, nothing is allocated. Written from document
//! 01; the answers are those of `second`, so that both can be compared.

pub mod by_value;
pub mod calls;
mod decide;
pub mod lines;
pub mod record;
pub mod session;
pub mod side;
mod words;
