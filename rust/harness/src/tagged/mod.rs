//! Calls that take a table of tags: a question in the tags of a table is answered as the same question in default tags is by the call
//! without a table, which is compared with the Rust elsewhere.

pub mod compare;
pub mod tables;
pub mod translated;

pub use compare::Comparison;
