//! A plain second implementation of nachricht bundles, the oracle for the verified code.
//!
//! It follows the paper line by line and prefers being obviously right to being fast. It shares
//! no code with what it is compared with.

mod canonical;
pub mod command_line;
mod envelope;
mod error;
pub mod generate;
mod header;
mod item;
mod joining;
mod limits;
mod programs;
mod reading;
mod structure;
pub mod utf8;
mod writing;

pub use canonical::canonicalize;
pub use envelope::{close, open};
pub use error::{Error, JoinError};
pub use item::Row;
pub use joining::join;
pub use limits::{MAX_BYTES, MAX_ENTRIES, MAX_OPEN, MAX_ROWS};
pub use programs::{listing, tidy, Input, Printed, Program, Run};
pub use reading::{check, read, Counts, Mode};
pub use writing::write;
