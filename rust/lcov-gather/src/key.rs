//! The order of test names and paths.

use lcov_sys::{GREATER, LESS};
use std::cmp::Ordering;

/// The order in which the library prints sections (SPEC 4.3), of test name and path.
pub fn compare_keys(a: (&[u8], &[u8]), b: (&[u8], &[u8])) -> Ordering {
    let by_path = || match lcov_sys::compare_paths(a.1, b.1) {
        LESS => Ordering::Less,
        GREATER => Ordering::Greater,
        _ => Ordering::Equal,
    };
    a.0.cmp(b.0).then_with(by_path)
}
