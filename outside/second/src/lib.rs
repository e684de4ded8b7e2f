//! A second program for one capture head, written from document 01 alone, and
//! its bench, written from document 02, Item 1.
//!
//! The modules follow the order of document 01. Everything is written for
//! reading, with plain types, and nothing here is meant to be fast.
//! Where the documents can be read two ways, the reading taken is listed in
//! outside/INDEPENDENCE.md under the number given in the comment.

#![forbid(unsafe_code)]

pub mod answers;
pub mod bench;
pub mod calls;
pub mod frames;
pub mod group;
pub mod head_session;
pub mod lines;
pub mod quorum;
pub mod record;
pub mod stores;
