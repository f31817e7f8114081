//! Seeded generators of inputs, for the tests here and for comparisons with other code.
//!
//! They build and encode items by a model of their own, so they do not inherit mistakes from the
//! reader and the writer. All is determined by the seed.

pub mod bundles;
pub mod model;
pub mod pairs;
mod random;
pub mod streams;
pub mod tables;
pub mod texts;

pub use random::Random;

/// A number one below, at, or one above a limit.
fn near(random: &mut Random, limit: usize) -> usize {
    limit - 1 + random.below(3)
}

/// A capacity for a result of this length: exact, one short, none, some more, or plenty.
pub fn capacity(random: &mut Random, exact: usize) -> usize {
    match random.below(6) {
        0 | 1 => exact,
        2 => exact.saturating_sub(1),
        3 => random.below(4),
        4 => exact + random.below(40),
        _ => 20_000,
    }
}
