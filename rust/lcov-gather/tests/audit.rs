//! The audit in a whole run: a wrong sum over the files is refused, and nothing is written.

mod common;

use common::{section, Folder};
use lcov_gather::audit::Sums;
use lcov_gather::failure::Failure;
use lcov_gather::options::{self, Asked, Options};
use lcov_gather::run::{run, run_from};
use std::ffi::OsString;
use std::fs;

const BRANCHES: &str =
    "TN:\nSF:y\nFN:1,f\nFNDA:4,f\nFNDA:5,f\nBRDA:1,0,0,5\nBRDA:1,0,1,-\nend_of_record\n";

fn sums(lines: u128, branches: u128, calls: u128) -> Sums {
    Sums {
        lines,
        branches,
        calls,
        full: 0,
    }
}

fn folder() -> Folder {
    let a = section("x", &[(1, 1), (2, 3)]);
    Folder::with(&[("a", &a), ("b", BRANCHES), ("out", "old")])
}

fn options(folder: &Folder, option: &str) -> Options {
    let path = |name| folder.path(name).into_os_string();
    let words = ["lcov-gather", "--quiet", option, "-o"].map(OsString::from);
    let words = words.into_iter().filter(|word| !word.is_empty());
    match options::parse(words.chain([path("out"), path("a"), path("b")])) {
        Ok(Asked::Gather(options)) => *options,
        _ => panic!("a gather"),
    }
}

#[test]
fn a_sum_that_begins_above_0_is_refused() {
    for (start, told) in [
        (sums(1, 0, 0), "count 5 and"),
        (sums(0, 1, 0), "BRDA lines 6 and 5"),
        (sums(0, 0, 1), "FNDA lines 10 and 9"),
    ] {
        let folder = folder();
        let failure = run_from(&options(&folder, ""), start).unwrap_err();
        assert!(matches!(failure, Failure::Audit(_)));
        assert_eq!(failure.status(), 3);
        let message = failure.to_string();
        assert!(message.contains(told), "{message}");
        assert!(message.ends_with("; nothing is written"), "{message}");
        assert_eq!(folder.text("out"), "old");
        assert_eq!(folder.names(), ["a", "b", "out"]);
    }
}

#[test]
fn as_written_a_difference_is_no_refusal() {
    let folder = folder();
    run_from(&options(&folder, "--as-written"), sums(1, 0, 0)).unwrap();
    assert!(folder.text("out").contains("DA:2,3\n"));
}

#[test]
fn the_sums_of_a_run_begin_at_0() {
    let folder = folder();
    run(&options(&folder, "")).unwrap();
    let whole = folder.text("out");
    assert_eq!(Sums::of(whole.as_bytes()), sums(4, 5, 9));
    // The result is compared before it is cut.
    fs::write(folder.path("out"), "old").unwrap();
    run(&options(&folder, "--lines=x:1")).unwrap();
    assert!(!folder.text("out").contains("DA:2"));
}
