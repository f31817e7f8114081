//! Anchors: two implementations in safe Rust that the library is measured beside. They answer what it answers, for every
//! input; they allocate nothing, and a failure has changed no byte and no row. Neither is proved.
//!
//! The rules stand once, for both. `hand` puts them together as a careful programmer does straight away, `tuned` as it
//! turned out to be fastest.

mod containers;
pub mod hand;
mod header;
mod joining;
mod outcome;
mod output;
mod reading;
mod row;
mod table;
pub mod tuned;
mod utf8;
mod writing;

pub use outcome::{counted, joined, written, Counts, Error, Failure};
