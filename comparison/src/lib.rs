//! The proved library and programs compared with the reference: inputs, what is expected for them, and the cases to meet.

pub mod bad_texts;
pub mod buffer;
pub mod cases;
pub mod expected;
pub mod folder;
pub mod inputs;
pub mod items;
mod pipe;
pub mod program;
pub mod refusals;
pub mod row;
pub mod run;
pub mod streams;
pub mod table;
mod tally;

pub use tally::Tally;

use reference::Mode;

pub const MODES: [Mode; 2] = [Mode::Lenient, Mode::Strict];

/// Where the bundle starts in an envelope.
pub const BUNDLE_START: usize = 3;
