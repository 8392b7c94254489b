//! `--stats`: the numbers of each file and their digits.

mod common;

use common::{printed, said, said_in_short, section, Folder};
use std::fs;
use std::process::Command;

/// Thirteen numbers of 22 digits.
const TEXT: &str = "TN:1\nSF:22\nFN:0007,f3\nFNDA:12,f3\nFNF:1\nFNH:01\nBRDA:7,0,00,-\nBRDA:7,0,1,5\nDA:007,12,99\nend_of_record:5\n";

fn told(folder: &Folder, words: &[&str]) -> String {
    let output = folder.run(words);
    printed(&output);
    said(&output)
}

#[test]
fn leading_zeros_are_digits_and_a_dash_is_no_number() {
    let folder = Folder::with(&[("a", TEXT)]);
    assert_eq!(
        told(&folder, &["--stats", "a"]),
        "a: 13 numbers, 22 digits\n"
    );
    let long = format!("SF:x\nDA:{:0300},1\nend_of_record\n", 7);
    let folder = Folder::with(&[("a", &long)]);
    assert_eq!(
        told(&folder, &["--stats", "a"]),
        "a: 2 numbers, 301 digits\n"
    );
}

#[test]
fn without_it_nothing_is_told_and_the_result_is_the_same() {
    let folder = Folder::with(&[("a", TEXT)]);
    let plain = folder.run(&["a"]);
    assert_eq!(said(&plain), "");
    let stats = folder.run(&["--stats", "a"]);
    assert_eq!(printed(&stats), printed(&plain));
    folder.run(&["--stats", "-o", "out", "a"]);
    assert_eq!(folder.text("out"), printed(&plain));
}

#[test]
fn files_are_told_in_order_and_then_all() {
    let folder = Folder::with(&[
        ("b", &section("x", &[(1, 1), (20, 300)])),
        ("a", &section("x", &[(1, 1)])),
        ("empty", ""),
    ]);
    let expected = "b: 6 numbers, 9 digits\na: 4 numbers, 4 digits\nempty: 0 numbers, 0 digits\na: 4 numbers, 4 digits\n14 numbers, 17 digits in all\n";
    for threads in ["1", "2", "5"] {
        let words = [
            "-q",
            "--threads",
            threads,
            "--stats",
            "b",
            "a",
            "empty",
            "a",
        ];
        assert_eq!(told(&folder, &words), expected);
    }
    let notes = told(&folder, &["--stats", "empty"]);
    let (note, numbers) = notes.split_once('\n').unwrap();
    assert_eq!(note, "lcov-gather: empty: the file is empty");
    assert_eq!(numbers, "empty: 0 numbers, 0 digits\n");
}

#[test]
fn packed_files_and_standard_input() {
    let folder = Folder::with(&[("a", TEXT)]);
    let packed = Command::new("gzip")
        .args(["-c"])
        .arg(folder.path("a"))
        .output()
        .unwrap();
    assert!(packed.status.success());
    fs::write(folder.path("a.gz"), packed.stdout).unwrap();
    let output = folder.run_with(&["--stats", "a.gz", "-"], &section("y", &[(10, 0)]));
    printed(&output);
    let expected = "a.gz: 13 numbers, 22 digits\nstandard input: 4 numbers, 5 digits\n17 numbers, 27 digits in all\n";
    assert_eq!(said(&output), expected);
}

#[test]
fn rewritten_files_have_the_same_numbers() {
    let folder = Folder::with(&[("a", TEXT)]);
    let words = [
        "--test-name",
        "123",
        "--map-path",
        "22=/4567",
        "--stats",
        "a",
    ];
    assert_eq!(told(&folder, &words), "a: 13 numbers, 22 digits\n");
}

#[test]
fn an_end_line_is_a_number() {
    let text = "SF:x\nFN:10,0020,f\nFN:30,+5,g\nFN:40,50\nend_of_record\n";
    let folder = Folder::with(&[("a", text)]);
    for options in [&[][..], &["--as-geninfo"], &["--as-written"]] {
        let words = [options, &["--stats", "a"]].concat();
        assert_eq!(told(&folder, &words), "a: 4 numbers, 10 digits\n");
    }
}

/// The fields that the library reads count, and no others.
#[test]
fn lines_of_other_producers() {
    let text = "SF:x\nFNL:0,10,20\nFNA:0,7,f\nBRDA:1,e0,12,3\nDA:7,-3\nDA:08,1\nend_of_record\n";
    let folder = Folder::with(&[("a", text)]);
    let words = ["-q", "--as-geninfo", "--stats", "a"];
    assert_eq!(told(&folder, &words), "a: 6 numbers, 8 digits\n");
}

#[test]
fn a_refused_run_tells_no_numbers() {
    let folder = Folder::with(&[("a", TEXT), ("bad", "SF:x\nDA:1,+5\nend_of_record\n")]);
    let refused = folder.run(&["--stats", "a", "bad"]);
    assert_eq!(refused.status.code(), Some(1));
    let refusal = "lcov-gather: bad:2: field 2: number with a plus sign (refusal 19)\n";
    assert_eq!(said_in_short(&refused), refusal);
    let unwritten = folder.run(&["--stats", "-o", "none/out", "a"]);
    assert_eq!(unwritten.status.code(), Some(2));
    assert!(!said(&unwritten).contains("digits"), "{}", said(&unwritten));
    let kept = folder.run(&["--keep-going", "--stats", "a", "bad"]);
    assert_eq!(kept.status.code(), Some(4));
    let left_out = "lcov-gather: left out 1 of 2 files:\n";
    let expected = format!("{refusal}a: 13 numbers, 22 digits\n{left_out}");
    assert_eq!(said_in_short(&kept), expected);
}

#[test]
fn it_is_not_for_a_check() {
    let folder = Folder::with(&[("a", TEXT)]);
    let output = folder.run(&["--check", "--stats", "a"]);
    assert_eq!(output.status.code(), Some(2));
    assert!(said(&output).contains("'--stats'"), "{}", said(&output));
}
