//! Single number fields: which are asked about, what include/lcov.h says of them, and the comparison with the port. The Rust takes a plus sign
//! and does not tell how many digits it read, so it is not asked.

pub mod compare;
pub mod expected;
pub mod fields;
