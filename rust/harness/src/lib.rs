//! The differential harness for lines, number fields, paths, ranges, texts, bundles and tables of tags: questions, what the Rust answers, and the
//! comparison with the port. Cutting before and after adding is compared without the Rust.
//!
//! Nothing here is linked with the port: [`Port`], [`Numbers`], [`Ranges`], [`Gatherer`] and [`Tagged`] are what the programs hand in, a [`Build`], and the tests
//! a stand-in for it.

pub mod calls;
pub mod compare;
pub mod cutting;
pub mod differences;
pub mod ends;
pub mod expected;
pub mod files;
pub mod guarded;
pub mod interface;
pub mod lines;
pub mod numbers;
pub mod paths;
pub mod plus;
pub mod ranges;
pub mod reports;
pub mod rng;
pub mod sample;
pub mod tagged;
pub mod tally;
pub mod tracefile;
pub mod with_scratch;

#[cfg(test)]
mod stand_in;

pub use calls::Build;
pub use compare::Comparison;
pub use interface::{Gatherer, Numbers, Port, Ranges, Tagged};
pub use rng::Rng;
