//! The oracle: the unchanged Rust asked what the port is asked, its answers in the numbers of SPEC 9.
//!
//! Every question is answered by a value or a [`Fault`]. A fault is a refusal with SPEC 9.2's number and place, or says that the
//! question lies outside the domain of comparison: bytes that are not UTF-8, and sums and range lists for which SPEC 10.2 added a
//! number. Limits on entries and on the output (10, 14, 15) are the port's alone and are not known here, and nor is what was asked for
//! since: the Rust takes a plus sign before a number (19) and a second SF in a section (25), and reads an end line of FN as part of the
//! name (23).

// The Rust's files name each other from the root of their crate, so they stand at the root of this one.
include!(concat!(env!("OUT_DIR"), "/lcov/lib.rs"));

mod fault;
mod line;
mod ranges;
pub mod requests;
mod text;

pub use fault::{hush_overflow, Fault, Refusal};
pub use line::{print_record, read_line};
pub use ranges::{closed, filter, query, ranges_after};
pub use text::{compare_paths, gather, print_report, read_text, Mode};
