//! The lines under a refusal: what is wrong where, and what to do.

mod common;

use common::{said, Folder};
use std::fs;
use std::ops::Range;
use std::process::Command;

/// Lines parted by blanks, each with byte 10 after it.
fn text(lines: &str) -> String {
    lines.split(' ').map(|line| format!("{line}\n")).collect()
}

/// The indented lines that the command says of texts, the files t0, t1 and so on; it refuses them with this number.
fn explained(options: &[&str], texts: &[&str], number: u32) -> Vec<String> {
    let names: Vec<String> = (0..texts.len()).map(|k| format!("t{k}")).collect();
    let names: Vec<&str> = names.iter().map(String::as_str).collect();
    let files: Vec<(&str, &str)> = names.iter().copied().zip(texts.iter().copied()).collect();
    let output = Folder::with(&files).run(&[options, &names].concat());
    assert_eq!(output.status.code(), Some(1), "{}", said(&output));
    let said = said(&output);
    let mut lines = said.lines().map(str::to_owned);
    let first = lines.next().unwrap();
    assert!(first.ends_with(&format!(" (refusal {number})")), "{said}");
    lines.collect()
}

fn explains(lines: &str, number: u32, expected: &[&str]) {
    assert_eq!(explained(&[], &[&text(lines)], number), expected, "{lines}");
}

/// The second line of a file is refused with this number; carets stand under a part of it, and help follows.
fn points_at(options: &[&str], line: &str, number: u32, part: Range<usize>, help: &str) {
    let file = format!("SF:a\n{line}\nend_of_record\n");
    let carets = " ".repeat(part.start) + &"^".repeat(part.len().max(1));
    let expected = [
        format!("  2 | {line}"),
        format!("    | {carets}"),
        format!("  help: {help}"),
    ];
    assert_eq!(explained(options, &[&file], number), expected, "{line}");
}

const TAGS: &str = "TN, SF, FN, FNDA, FNF, FNH, BRDA, BRF, BRH, DA, LF, LH, end_of_record";

#[test]
fn a_tag_that_is_unknown() {
    let tags = format!("  help: the tags are {TAGS}");
    explains("SF:a DQ:1,2", 1, &["  2 | DQ:1,2", "    | ^^", &tags]);
    let first = format!("  help: is it a tracefile? the tags are {TAGS}");
    let page = "<!DOCTYPE html>";
    let page = explained(&[], &[page], 1);
    let carets = format!("    | {}", "^".repeat(15));
    assert_eq!(page, ["  1 | <!DOCTYPE html>", &carets, &first]);
    let empty = "  help: an empty line is no record; remove it";
    assert_eq!(
        explained(&[], &["SF:a\n\n"], 1),
        ["  2 | ", "    | ^", empty]
    );
    let newer = "lcov 2.3 writes FNL and FNA in place of FN and FNDA; --as-geninfo reads them";
    points_at(&[], "FNL:0,1", 1, 0..3, newer);
}

const DA: &str = "the line has the form DA:LINE,COUNT[,CHECKSUM]";
const BRDA: &str = "the line has the form BRDA:LINE,BLOCK,BRANCH,TAKEN";
const FNDA: &str = "the line has the form FNDA:COUNT,NAME";

#[test]
fn fields_that_are_missing_or_too_many() {
    points_at(&[], "DA:17", 2, 5..5, DA);
    points_at(&[], "BRDA:1,2,3,4,5,6", 3, 13..16, BRDA);
}

#[test]
fn numbers() {
    let form = "the line has the form FN:START[,END],NAME";
    points_at(&[], "FN:,f", 4, 3..3, form);
    points_at(&[], "FNDA:12x4,f", 5, 5..9, FNDA);
    let greatest = "LINE is at most 4294967295";
    points_at(&[], "DA:4294967296,1", 6, 3..13, greatest);
    let greatest = "TAKEN is at most 18446744073709551615";
    points_at(&[], "BRDA:1,0,0,99999999999999999999", 6, 11..31, greatest);
}

#[test]
fn end_lines() {
    let greatest = "END is at most 4294967295";
    points_at(&[], "FN:1,4294967296,f", 6, 5..15, greatest);
    let help = "a function ends on its start line or on a later one; capture the file again, or correct the line";
    points_at(&[], "FN:138,68,f", 23, 7..9, help);
    points_at(&["--as-geninfo"], "FNL:0,138,68", 23, 10..12, help);
}

#[test]
fn counts_below_0_and_blocks_of_exceptions() {
    for (line, carets) in [
        ("DA:1163,-1071", "    |         ^^^^^"),
        ("BRDA:1,0,0,-1", "    |            ^^"),
        ("FNDA:-5,f", "    |      ^^"),
    ] {
        let lines = explained(&[], &[&text(&format!("SF:a {line}"))], 5);
        assert_eq!(lines[..2], [format!("  2 | {line}"), carets.to_owned()]);
        for word in ["-fprofile-update=atomic", "--as-geninfo"] {
            assert!(
                lines[2].starts_with("  help: ") && lines[2].contains(word),
                "{lines:?}"
            );
        }
    }
    let block = "lcov 2 marks the branches of exceptions by an e; --as-geninfo reads them";
    points_at(&[], "BRDA:1,e0,0,1", 5, 7..9, block);
    points_at(&[], "BRDA:e1,0,0,1", 5, 5..7, BRDA);
}

/// The option reads FNL, FNA, blocks of exceptions and counts below 0, so that it is not what helps.
#[test]
fn wrong_lines_of_other_producers_as_geninfo() {
    let fnl = "the line has the form FNL:INDEX,START[,END]";
    let fna = "the line has the form FNA:INDEX,COUNT,NAME";
    let blocks = "the block of an exception is e0 to e2147483647";
    let greatest = "START is at most 4294967295";
    for (line, number, part, help) in [
        ("FNL:0", 1, 5..5, fnl),
        ("FNL:0,x", 1, 6..7, fnl),
        ("FNL:0,1,2,3", 1, 10..11, fnl),
        ("FNL:0,4294967296", 1, 6..16, greatest),
        ("FNA:0,+1,f", 1, 6..8, fna),
        ("FNA:0,1", 1, 7..7, fna),
        ("BRDA:1,e2147483648,0,1", 5, 7..18, blocks),
        ("BRDA:1,ex,0,1", 5, 7..9, blocks),
        ("BRDA:1,e5,0,x", 5, 12..13, BRDA),
        ("BRDA:1,e5,0", 2, 11..11, BRDA),
        ("BRDA:1,0,0,-4,5", 3, 14..15, BRDA),
        ("DA:x,-1", 5, 3..4, DA),
        ("DA:1,-x", 5, 5..7, DA),
        ("FNDA:-2", 2, 7..7, FNDA),
    ] {
        points_at(&["--as-geninfo"], line, number, part, help);
    }
    let tags = format!("the tags are {TAGS}, FNL, FNA");
    points_at(&["--as-geninfo"], "DQ:1", 1, 0..2, &tags);
}

#[test]
fn long_lines_are_cut_and_bytes_escaped() {
    let form = "  help: the line has the form DA:LINE,COUNT[,CHECKSUM]";
    let line = format!("DA:{},\x1b[2J{}", "0".repeat(60), "x".repeat(100));
    let lines = explained(&[], &[&format!("SF:a\n{line}\n")], 5);
    let shown = format!("  2 | ...{},\\x1b[2J{}...", "0".repeat(23), "x".repeat(44));
    let carets = format!("    | {}{}", " ".repeat(27), "^".repeat(4 + 3 + 44 + 3));
    assert_eq!(lines, [shown, carets, form.to_owned()]);
}

#[test]
fn a_section_that_is_open() {
    explains(
        "TN:s SF:a DA:1,1 end_of_record TN:t SF:b DA:1,1 TN:u",
        7,
        &[
            "  8 | TN:u",
            "    | ^^",
            "  the section of b under the test name t, which began on line 6, is still open",
            "  help: an end_of_record is missing before this line",
        ],
    );
    explains(
        "TN:t SF: DA:1,1 SF:b end_of_record",
        25,
        &[
            "  4 | SF:b",
            "    | ^^",
            "  the section without a path under the test name t, which began on line 2, is still open",
            "  help: an end_of_record is missing before this line",
        ],
    );
    explains(
        "SF:a DA:1,1 end_of_record DA:2,1 LF:1",
        8,
        &[
            "  the section without a path, which began on line 4, is still open",
            "  help: the file is cut; get it again",
        ],
    );
    let newer = text("SF:a FNL:0,1 FNA:0,1,f end_of_record FNL:0,1 SF:b FNA:0,1,f");
    let lines = explained(&["--as-geninfo"], &[&newer], 8);
    let open = "  the section of b, which began on line 5, is still open";
    assert_eq!(lines[0], open);
}

#[test]
fn calls_of_a_function_in_one_file() {
    explains(
        "TN:t SF:a FNDA:18446744073709551614,f FNDA:1,f FNDA:3,f",
        9,
        &[
            "  5 | FNDA:3,f",
            "    |      ^",
            "  function f in the section of a under the test name t, which began on line 2, has 18446744073709551615 calls before this line",
            "  help: a count is damaged; leave the file out, as --keep-going does",
        ],
    );
}

fn lines_of(path: &str, from: u32, count: u32) -> String {
    let lines: String = (from..from + count)
        .map(|line| format!("DA:{line},1\n"))
        .collect();
    format!("SF:{path}\n{lines}end_of_record\n")
}

/// The limit is 65,535 entries, of which the section itself is one.
#[test]
fn too_many_entries() {
    let large = [lines_of("a", 1, 40_000), lines_of("a", 20_001, 60_000)];
    let large: Vec<&str> = large.iter().map(String::as_str).collect();
    let lines = explained(&[], &large, 10);
    assert_eq!(
        lines[0],
        "  the section of a needs 80001 entries (sections, functions, branches and lines); the limit is 65535"
    );
    assert!(lines[1].starts_with("  help: "), "{lines:?}");
    let again = lines_of("b", 1, 40_000);
    let many = lines_of("a", 1, 40_000) + &again + &again;
    let lines = explained(&["--as-written"], &["", &many], 10);
    assert_eq!(
        lines[0],
        "  the file needs 80002 entries (sections, functions, branches and lines); the limit is 65535"
    );
    assert!(lines[1].contains("--as-geninfo"), "{lines:?}");
    let lines = explained(&["--as-written"], &[&again.repeat(2)], 10);
    assert_eq!(
        lines[0],
        "  the file needs 40001 entries (sections, functions, branches and lines), and more while a section \
        that comes again is read; the limit is 65535"
    );
}

#[test]
fn start_lines_that_differ() {
    let a = text("TN:t SF:src/x.c FN:3,f FN:7,g end_of_record");
    let between =
        text("TN:t SF:src/x.c FNDA:1,f end_of_record TN:u SF:src/x.c FN:9,f end_of_record");
    let b = text("TN:t SF:src//x.c FN:8,g FN:4,f FNDA:1,f end_of_record");
    let lines = explained(&[], &[&a, &between, &b], 11);
    assert_eq!(
        lines,
        [
            "  function f in the section of src/x.c under the test name t: start line 3 by t0:3, start line 4 by t2:4",
            "  help: the files are of different sources or compilers; --lossy keeps the later start line",
        ]
    );
}

#[test]
fn checksums_that_differ() {
    let a = text("SF:x DA:4,1,abc DA:5,1,def end_of_record");
    let b = text("SF:x DA:5,1,xyz DA:4,1 end_of_record");
    let lines = explained(&[], &[&a, &b], 12);
    assert_eq!(
        lines,
        [
            "  line 5 in the section of x: checksum 'def' by t0:3, checksum 'xyz' by t1:2",
            "  help: the files are of different sources; --lossy keeps the later checksum",
        ]
    );
}

#[test]
fn sums_past_the_greatest() {
    let a = text("SF:x BRDA:4,0,1,18446744073709551000 DA:1,1 end_of_record");
    let b = text("SF:x BRDA:4,0,1,600 DA:1,1 end_of_record");
    let c = text("SF:x DA:1,1 BRDA:4,0,1,16 end_of_record");
    for options in [&[][..], &["--lossy"]] {
        let lines = explained(options, &[&a, &b, &c], 13);
        assert_eq!(
            lines,
            [
                "  branch 4,0,1 in the section of x: the sum so far is 18446744073709551600, last added to at t1:2, and t2:3 adds 16",
                "  help: a count is damaged; leave the file out, as --keep-going does",
            ]
        );
    }
    let a = text("SF:x DA:7,18446744073709551615 end_of_record");
    let b = text("SF:x DA:7,1 end_of_record");
    let lines = explained(&[], &[&a, &b], 13);
    assert!(
        lines[0].starts_with("  line 7 in the section of x: the sum so far is"),
        "{lines:?}"
    );
}

/// The library meets the least key of a file first, by test name, path, kind and key; the lines tell of that one.
#[test]
fn the_conflict_that_is_told_is_the_one_that_was_met() {
    let a = text("TN:t SF:b FN:1,f DA:1,1,p end_of_record TN:s SF:c DA:1,1,q end_of_record");
    let b = text("TN:t SF:b FN:2,f DA:1,1,r end_of_record TN:s SF:c DA:1,1,s end_of_record");
    let lines = explained(&[], &[&a, &b], 12);
    let told = "  line 1 in the section of c under the test name s: checksum 'q' by t0:8, checksum 's' by t1:8";
    assert_eq!(lines[0], told);
}

/// In the second round and later the library sees what is joined, not the files.
#[test]
fn a_conflict_with_a_file_of_an_earlier_round() {
    let mut texts = vec![text("SF:x DA:1,1 end_of_record"); 150];
    texts[3] = text("SF:x FN:5,f end_of_record");
    texts[140] = text("SF:x FN:6,f end_of_record");
    let texts: Vec<&str> = texts.iter().map(String::as_str).collect();
    let lines = explained(&[], &texts, 11);
    assert!(
        lines[0].ends_with("start line 5 by t3:2, start line 6 by t140:2"),
        "{lines:?}"
    );
}

#[test]
fn one_test_name_and_mapped_paths_are_told_as_in_the_result() {
    let a = text("TN:t SF:/b/x FN:1,f end_of_record");
    let b = text("TN:u SF:/b/x FN:2,f end_of_record");
    let lines = explained(
        &["--test-name", "all", "--map-path", "/b=/s"],
        &[&a, &b],
        11,
    );
    let told = "  function f in the section of /s/x under the test name all: start line 1 by t0:3, start line 2 by t1:3";
    assert_eq!(lines[0], told);
}

#[test]
fn a_number_that_begins_with_plus() {
    let digits = format!("{DA}; a number has digits alone");
    points_at(&[], "DA:1,+5", 19, 5..7, &digits);
    let digits = "the line has the form LF:FOUND; a number has digits alone";
    points_at(&[], "LF:+", 19, 3..4, digits);
}

/// Lines are shown as the file has them.
#[test]
fn lines_with_other_names_and_paths_are_shown_as_they_are() {
    let options = ["--test-name", "all", "--map-path", "/b=/s"];
    let path = explained(&options, &[&text("SF:/b/x SF:/b/y")], 25);
    assert_eq!(path[..2], ["  2 | SF:/b/y", "    | ^^"]);
    let open =
        "  the section of /s/x under the test name all, which began on line 1, is still open";
    let name = explained(&options, &[&text("SF:/b/x TN:u")], 7);
    assert_eq!(name[..3], ["  2 | TN:u", "    | ^^", open]);
}

/// Neither can be read again.
#[test]
fn standard_input_and_a_fifo_are_explained_too() {
    let folder = Folder::with(&[("b", &text("SF:x FN:2,f end_of_record"))]);
    let input = text("SF:x FN:1,f end_of_record");
    let conflict = said(&folder.run_with(&["-", "b"], &input));
    assert!(
        conflict.contains("start line 1 by standard input:2, start line 2 by b:2"),
        "{conflict}"
    );
    let refused = said(&folder.run_with(&["b", "-"], "SF:x\nDA:1,z\n"));
    assert!(
        refused.contains("\n  2 | DA:1,z\n    |      ^\n"),
        "{refused}"
    );
    let made = Command::new("mkfifo").arg(folder.path("fifo")).status();
    assert!(made.unwrap().success());
    let fifo = folder.path("fifo");
    let writer = std::thread::spawn(move || fs::write(fifo, input));
    let conflict = said(&folder.run(&["fifo", "b"]));
    writer.join().unwrap().unwrap();
    assert!(
        conflict.contains("start line 1 by fifo:2, start line 2 by b:2"),
        "{conflict}"
    );
}
