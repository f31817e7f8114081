//! Messages to measure with, the implementations that are measured, and the time that a call takes.
#![forbid(unsafe_code)]

pub mod agreement;
pub mod anchors;
pub mod calls;
pub mod codec;
pub mod corpora;
pub mod families;
pub mod format;
pub mod jobs;
pub mod loose;
pub mod message;
pub mod processes;
pub mod ratios;
pub mod report;
pub mod streams;
pub mod timing;
