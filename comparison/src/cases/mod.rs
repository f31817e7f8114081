//! The cases that a comparison has to meet, told from what a call is given and what it answers.

pub mod canonicalizing;
pub mod closing;
pub mod joining;
mod names;
pub mod opening;
mod result;
pub mod writing;
