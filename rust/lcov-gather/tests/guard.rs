//! The guard: what it refuses, which places it names, and that it is silent exactly where nothing is lost.

mod common;

use common::{printed, said, said_in_short, Folder, Random};
use lcov_gather::guard::Guard;
use lcov_gather::meaning::Meaning;
use lcov_gather::scan::scan;
use lcov_sys::{Refusal, WORDS, WORDS_PER_ENTRY};

const ADVICE: &str =
    "lcov-gather: refused, since counts or test names may be lost; --as-geninfo adds them up, --as-written takes the file as it is\n";

/// Lines parted by blanks, each with byte 10 after it.
fn text(lines: &str) -> String {
    lines.split(' ').map(|line| format!("{line}\n")).collect()
}

/// The command refuses the text, says these lines and leaves the output; with the option it takes the text.
fn refuses(lines: &str, expected: &[&str]) {
    let folder = Folder::with(&[("a", &text(lines)), ("out", "old")]);
    let output = folder.run(&["-o", "out", "a"]);
    assert_eq!(output.status.code(), Some(1), "{lines}");
    let expected: String = expected
        .iter()
        .map(|line| format!("lcov-gather: {line}\n"))
        .collect();
    assert_eq!(said(&output), expected + ADVICE, "{lines}");
    assert_eq!(folder.text("out"), "old");
    assert_eq!(folder.names(), ["a", "out"]);
    printed(&folder.run(&["--as-written", "a"]));
}

fn takes(lines: &str) {
    let folder = Folder::with(&[("a", &text(lines))]);
    let output = folder.run(&["a"]);
    printed(&output);
    assert_eq!(said(&output), "", "{lines}");
}

/// The sections are added before the guard speaks: start lines, checksums or sums that the library would never compare are no refusal of
/// their own, and neither is the number of entries.
#[test]
fn a_section_that_came_before_and_does_not_fit() {
    let greatest = "DA:1,18446744073709551615";
    let lines = |from: u32| -> String {
        let lines = from..from + 40_000;
        lines.map(|line| format!("DA:{line},1 ")).collect()
    };
    for (earlier, later) in [
        ("FN:1,f", "FN:2,f"),
        ("DA:1,1,x", "DA:1,1,y"),
        (greatest, greatest),
        (lines(0).trim_end(), lines(40_000).trim_end()),
    ] {
        let place = 2 + earlier.split(' ').count();
        let file = format!("SF:a {earlier} end_of_record SF:a {later} end_of_record");
        let expected = format!("a:{}: the section of a replaces the one at a:1", place + 1);
        let folder = Folder::with(&[
            ("a", &text(&file)),
            ("b", &text("SF:a FN:2,f end_of_record")),
        ]);
        let told = format!("lcov-gather: {expected}\n{ADVICE}");
        for words in [&["a"][..], &["b", "a"], &["--lossy", "a"]] {
            assert_eq!(said(&folder.run(words)), told, "{words:?}");
        }
        let checked = said(&folder.run(&["--check", "a"]));
        assert_eq!(checked, told + "lcov-gather: 1 of 1 files are refused\n");
    }
}

#[test]
fn a_section_that_came_before() {
    refuses(
        "TN:t SF:a//b DA:1,1 end_of_record TN:t SF:c DA:1,1 end_of_record TN:t SF:a/./b DA:2,1 end_of_record",
        &["a:10: the section of a/./b replaces the one at a:2"],
    );
    refuses(
        "DA:1,1 end_of_record FNDA:1,f end_of_record SF: BRDA:1,0,0,- end_of_record",
        &[
            "a:3: the section without a path replaces the one at a:1",
            "a:5: the section without a path replaces the one at a:3",
        ],
    );
    // The last TN names a section, and so does its SF, wherever it stands.
    refuses(
        "TN:s TN:t DA:1,1 SF:a end_of_record TN:t SF:a DA:2,1 end_of_record",
        &["a:7: the section of a replaces the one at a:4"],
    );
    takes("TN:t DA:1,1 SF:b end_of_record TN:t SF:a DA:2,1 end_of_record");
    takes("TN:t SF:a DA:1,1 end_of_record TN:u SF:a DA:1,1 end_of_record");
    takes("SF:a DA:1,1 end_of_record SF:./a DA:1,1 end_of_record SF:/a DA:1,1 end_of_record");
}

/// A terminal would act on them.
#[test]
fn control_bytes_are_escaped() {
    refuses(
        "SF:a\x1b[2J FNDA:1,f\x07 FN:1,f\x07 end_of_record SF:a\x1b[2J DA:1,1 end_of_record",
        &[
            "a:3: FN sets the count of f\\x07, given at a:2, to 0",
            "a:5: the section of a\\x1b[2J replaces the one at a:1",
        ],
    );
}

#[test]
fn a_line_or_branch_that_came_before() {
    refuses(
        "SF:a DA:01,1 DA:2,1 DA:001,0 DA:1,5,sum end_of_record",
        &[
            "a:4: DA:1 replaces the one at a:2",
            "a:5: DA:1 replaces the one at a:4",
        ],
    );
    refuses(
        "SF:a BRDA:1,0,0,1 BRDA:1,0,1,1 DA:7,1 BRDA:01,00,0,- DA:7,1 end_of_record",
        &[
            "a:5: BRDA:1,0,0 replaces the one at a:2",
            "a:6: DA:7 replaces the one at a:4",
        ],
    );
    takes("SF:a DA:2,1 DA:1,1 BRDA:1,0,0,1 BRDA:0,1,0,1 BRDA:0,0,1,1 end_of_record");
    takes("SF:a DA:1,1 end_of_record SF:b DA:1,1 end_of_record");
}

#[test]
fn a_function_that_was_called_before() {
    refuses(
        "SF:a FNDA:0,f FNDA:2,f FNDA:3,f FN:1,f FN:1,f FNDA:1,f FN:1,f end_of_record",
        &[
            "a:5: FN sets the count of f, given at a:3, to 0",
            "a:8: FN sets the count of f, given at a:7, to 0",
        ],
    );
    takes("SF:a FNDA:0,f FN:1,f FNDA:2,f FN:1,g end_of_record");
    takes("SF:a FNDA:1,f end_of_record SF:b FN:1,f end_of_record");
}

#[test]
fn a_section_without_its_test_name() {
    refuses(
        "TN:t SF:a DA:1,1 end_of_record SF:b DA:1,1 end_of_record DA:1,1 LF:1 end_of_record",
        &[
            "a:5: the section of b has no TN, and the TN at a:1 is not for it",
            "a:8: the section without a path has no TN, and the TN at a:1 is not for it",
        ],
    );
    // The section that had the name is dropped, and the next one has lost it all the same.
    refuses(
        "TN:t SF:a end_of_record SF:b DA:1,1 end_of_record",
        &["a:4: the section of b has no TN, and the TN at a:1 is not for it"],
    );
    takes("SF:a DA:1,1 end_of_record TN:t SF:b DA:1,1 end_of_record");
    takes("TN:t SF:a DA:1,1 end_of_record SF:b LF:1 end_of_record");
}

/// The name is the empty one either way; the section is refused all the same, and `--as-geninfo` takes it.
#[test]
fn a_section_without_tn_after_an_empty_one() {
    let lines = "TN: SF:a DA:1,1 end_of_record SF:b DA:1,1 end_of_record TN:t";
    refuses(
        lines,
        &["a:5: the section of b has no TN, and the TN at a:1 is not for it"],
    );
    refuses(
        "TN:t SF:a DA:1,1 end_of_record TN SF:b DA:1,1 end_of_record SF:c DA:1,1 end_of_record",
        &["a:9: the section of c has no TN, and the TN at a:5 is not for it"],
    );
    takes("TN: SF:a DA:1,1 end_of_record TN: SF:b DA:1,1 end_of_record");
    takes("TN: SF:a DA:1,1 end_of_record SF:b LF:1 end_of_record");
    let folder = Folder::with(&[("a", &text(lines))]);
    let expected =
        text("TN: SF:a DA:1,1 LF:1 LH:1 end_of_record TN: SF:b DA:1,1 LF:1 LH:1 end_of_record");
    for option in ["--as-geninfo", "--as-written", "--test-name="] {
        let output = folder.run(&[option, "a"]);
        assert_eq!(printed(&output), expected, "{option}");
        assert_eq!(said(&output), "", "{option}");
    }
}

#[test]
fn a_section_without_items_replaces_nothing() {
    takes("SF:a DA:1,1 end_of_record SF:a LF:1 end_of_record SF:a end_of_record end_of_record");
    takes("SF:a end_of_record SF:a DA:1,1 end_of_record");
}

#[test]
fn files_do_not_replace_each_other() {
    let lines = text("TN:t SF:a FN:1,f FNDA:1,f DA:1,1 end_of_record");
    let folder = Folder::with(&[
        ("a", &lines),
        ("b", &lines),
        ("c", &lines.replace("TN:t\n", "")),
    ]);
    assert_eq!(said(&folder.run(&["a", "b", "c"])), "");
}

#[test]
fn ten_places_are_told_and_the_number_of_the_others() {
    let repeated = |n: usize| text(&format!("SF:a DA:9,1{} end_of_record", " DA:9,1".repeat(n)));
    let folder = Folder::with(&[
        ("a", &repeated(10)),
        ("b", &repeated(7)),
        ("c", &repeated(1)),
    ]);
    let ten = said(&folder.run(&["a"]));
    assert_eq!(ten.lines().count(), 11, "{ten}");
    let told = said(&folder.run(&["b", "a", "c"]));
    let lines: Vec<&str> = told.lines().collect();
    assert_eq!(lines.len(), 12, "{told}");
    assert_eq!(lines[6], "lcov-gather: b:9: DA:9 replaces the one at b:8");
    assert_eq!(lines[9], "lcov-gather: a:5: DA:9 replaces the one at a:4");
    assert_eq!(lines[10], "lcov-gather: and 8 more");
    assert_eq!(lines[11], ADVICE.trim_end());
}

/// A refusal by the library is what is said, whether it comes before or after the replaced thing, in that file or another.
#[test]
fn the_library_refuses_first() {
    let twice = "SF:a DA:1,1 DA:1,1 end_of_record";
    let folder = Folder::with(&[
        ("twice", &text(twice)),
        (
            "digit",
            &text(&format!("{twice} SF:b DA:1,x end_of_record")),
        ),
        ("tag", &text(&format!("VER:1 {twice}"))),
        ("open", &text(&format!("{twice} SF:b DA:1,1 DA:1,1"))),
        ("inside", &text("SF:a DA:1,1 DA:1,1 TN:a end_of_record")),
        (
            "sum",
            &text("SF:a DA:1,1 DA:1,18446744073709551615 end_of_record"),
        ),
    ]);
    for (words, expected) in [
        (&["digit"][..], "digit:6: field 2: bad digit (refusal 5)"),
        (&["tag"], "tag:1: tag unknown (refusal 1)"),
        (
            &["open"],
            "open:8: the text ends inside a section (refusal 8)",
        ),
        (&["inside"], "inside:4: TN inside a section (refusal 7)"),
        (
            &["twice", "digit"],
            "digit:6: field 2: bad digit (refusal 5)",
        ),
        (
            &["sum", "twice"],
            "twice: the counts of a line or branch add up past 2^64 - 1 (refusal 13)",
        ),
    ] {
        let output = folder.run(words);
        assert_eq!(output.status.code(), Some(1), "{words:?}");
        assert_eq!(said_in_short(&output), format!("lcov-gather: {expected}\n"));
    }
}

#[test]
fn what_as_written_loses_is_told() {
    let folder = Folder::with(&[(
        "a",
        &text("SF:a BRDA:1,0,0,7 BRDA:1,0,0,- DA:1,3 DA:1,4 end_of_record"),
    )]);
    let output = folder.run(&["--as-written", "a"]);
    let expected = text("TN: SF:a BRDA:1,0,0,- BRF:1 BRH:0 DA:1,4 LF:1 LH:1 end_of_record");
    assert_eq!(printed(&output), expected);
    assert_eq!(
        said(&output),
        "lcov-gather: the DA lines of the files count 7 and those of the result 4, the BRDA lines 7 and 0, the FNDA lines 0 and 0\n"
    );
    let quiet = folder.run(&["--as-written", "--quiet", "a"]);
    assert_eq!(printed(&quiet), expected);
    assert_eq!(said(&quiet), "");
}

impl Random {
    fn line(&mut self) -> String {
        match self.below(8) {
            0 => format!("SF:{}", self.of(&["x", "x/.", "x//", "./x", "y", ""])),
            1 => {
                let numbers = self.of(&["1", "2", "1,3", "2,9"]);
                format!("FN:{numbers},{}", self.of(&["f", "g"]))
            }
            2 => format!(
                "FNDA:{},{}",
                self.of(&["0", "1", "2"]),
                self.of(&["f", "g"])
            ),
            3 | 4 => {
                let key = (self.of(&["1", "2", "3", "01"]), self.of(&["0", "1", "00"]));
                format!("BRDA:{},{},0,{}", key.0, key.1, self.of(&["-", "0", "2"]))
            }
            5 => "LF:1".to_owned(),
            _ => format!(
                "DA:{},{}",
                self.of(&["1", "2", "3", "4", "05", "5"]),
                self.of(&["0", "3"])
            ),
        }
    }

    fn text(&mut self) -> String {
        let mut text = String::new();
        for _ in 0..1 + self.below(3) {
            for _ in 0..self.below(2) {
                text += &format!("TN:{}\n", self.of(&["", "t", "u"]));
            }
            let mut has_path = false;
            for _ in 0..self.below(5) {
                let line = self.line();
                let is_path = line.starts_with("SF:");
                if !(is_path && has_path) {
                    text += &(line + "\n");
                }
                has_path |= is_path;
            }
            text += "end_of_record\n";
        }
        text
    }
}

/// Sections with items, DA lines, BRDA lines, and the sum of the FNDA lines.
fn measure(text: &str) -> [u64; 4] {
    let mut measured = [0; 4];
    for section in text.split_terminator("end_of_record\n") {
        let count = |tag: &str| section.lines().filter(|line| line.starts_with(tag)).count();
        let [lines, branches] = [count("DA:"), count("BRDA:")];
        let items = lines + branches + count("FN:") + count("FNDA:");
        let calls = section
            .lines()
            .filter_map(|line| line.strip_prefix("FNDA:"));
        let calls = calls.map(|body| body.split(',').next().unwrap().parse::<u64>().unwrap());
        let of_section = [
            u64::from(items > 0),
            lines as u64,
            branches as u64,
            calls.sum(),
        ];
        for (all, one) in measured.iter_mut().zip(of_section) {
            *all += one;
        }
    }
    measured
}

/// Whether a section with items has no TN after one with TN.
fn lacks_a_tn(text: &str) -> bool {
    let mut has_come = false;
    text.split_terminator("end_of_record\n").any(|section| {
        let has_own = section.lines().any(|line| line.starts_with("TN:"));
        let lacks = has_come && !has_own && measure(section)[0] > 0;
        has_come |= has_own;
        lacks
    })
}

fn read_by_library(text: &str) -> String {
    let (mut scratch, mut out) = (vec![0; 256 * WORDS_PER_ENTRY], vec![0; 4096]);
    let mut answer = [0; WORDS];
    let number = lcov_sys::read_text(text.as_bytes(), &mut scratch, &mut out, &mut answer);
    let len = Refusal::unless_answered(number, answer).unwrap();
    String::from_utf8(out[..len as usize].to_vec()).unwrap()
}

/// Nothing is found exactly where the library's report has all sections, lines, branches and calls of the text, and no section lacks its TN.
#[test]
fn silent_exactly_where_nothing_is_lost() {
    let mut random = Random(0x9e37_79b9_7f4a_7c15);
    let (mut silent, mut loud) = (0, 0);
    for _ in 0..100_000 {
        let text = random.text();
        let replaced = scan(text.as_bytes(), "a", Meaning::Guarded, Guard::default()).replaced;
        let is_whole = measure(&text) == measure(&read_by_library(&text)) && !lacks_a_tn(&text);
        assert_eq!(replaced.is_empty(), is_whole, "{text}");
        *(if is_whole { &mut silent } else { &mut loud }) += 1;
    }
    assert!(silent > 10_000 && loud > 10_000, "{silent} {loud}");
}
