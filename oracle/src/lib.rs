//! A second checker of yard files, written from document 01's text and 001's
//! rules and definitions.
//!
//! * `plain` says everything by its plain meaning: expressions are trees, loop
//!   charts are explicit subcharts, matching is searched for.
//! * `fast` gives the same answers with bit sets and row offsets.
//! * `gen` makes yard files, accepted and damaged, from a seed.
#![forbid(unsafe_code)]

mod answer;
pub mod fast;
pub mod gen;
pub mod plain;

pub use answer::{Answer, NOT_POSSIBLE, SPOILT, TAKEN};
