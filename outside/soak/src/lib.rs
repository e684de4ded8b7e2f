//! A soak with real processes: each head is a process with its record in a
//! file, and a driver announces views, carries lines badly and kills heads.
//! What happened is checked afterwards from the heads' logs.

#![forbid(unsafe_code)]

pub mod caller;
pub mod calls;
pub mod chain;
pub mod changes;
pub mod check;
pub mod counts;
pub mod disk;
pub mod driver;
pub mod log;
pub mod process;
pub mod relay;
pub mod replay;
pub mod schedule;
pub mod seat;
pub mod summary;
