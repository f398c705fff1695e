//! A second reading of the documentation: it makes the same report from the
//! same two files, as plainly as possible, and so checks the program proper.
//!
//! The parts, from the file to the report: [`net`] is what a net file holds,
//! [`reader`] reads it, [`term`] evaluates terms and bag terms, [`judge`]
//! judges claims, [`bench`] fires transitions, [`trace`] replays a trace, and
//! [`report`] puts the lines together. [`generate`] makes nets and traces to
//! compare on.

pub mod bench;
pub mod generate;
pub mod judge;
pub mod net;
pub mod reader;
pub mod report;
pub mod term;
pub mod trace;
