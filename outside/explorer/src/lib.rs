//! Whole worlds of heads in one process: histories with cuts, losses and late
//! lines, checked after every step against document 01.

#![forbid(unsafe_code)]

pub mod call;
pub mod counts;
pub mod cuts;
pub mod event;
pub mod explore;
pub mod generate;
pub mod manner;
pub mod rounds;
pub mod shrink;
pub mod slipped;
pub mod step;
pub mod text;
pub mod walk;
pub mod world;
