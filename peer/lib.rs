//! The peer: an independent working of the calendar rules in plain Rust.
//!
//! It is tested only, not proved, and shares nothing with the proved crates.
//! It serves to write the files that say what the programs are expected to
//! print, and to be compared with the library. Where a program or the library
//! and the peer differ, the rules say which of them is to be mended; an
//! expected file is never edited to settle it.

pub mod calendar;
pub mod dates;
pub mod eclipse;
pub mod figures;
pub mod genka;
pub mod hours;
pub mod instants;
pub mod lines;
pub mod listing;
pub mod months;
pub mod moon;
pub mod record;
pub mod records;
pub mod refusal;
pub mod replies;
pub mod rounding;
pub mod run;
pub mod runs;
pub mod senmyo;
pub mod sun;
pub mod units;
pub mod worked;
