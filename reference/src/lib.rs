//! A second implementation of document 01, and of document 02 as far as W7, written from their text alone, on one
//! central timetable.
//!
//! It is meant to be compared with, so it is naive on purpose: maps and sets for the state, whole lists of findings
//! that are collected and sorted, no sheets and no division. Comments quote the sentence that a function reads,
//! document 01's unless a request of document 02 is named.

pub mod edits;
pub mod findings;
pub mod machine;
pub mod network;
pub mod number;
pub mod programs;
pub mod projection;
pub mod railway;
pub mod recheck;
pub mod tally;
pub mod timetable;
