//! Recorded bundles and what the program `gather` prints for them, for a run without Rust.
//!
//! The answers are the Rust's; where SPEC 9.1 added a number (9, 10, 13, 14, 16, 19, 23 and 25), and of end lines, they are the count's.

use super::expected::{in_words, Expected, NOT_WELL_FORMED};
use super::systematic::ascending;
use super::{bundles, Asked};
use crate::expected::{printing, Answer};
use crate::files::Files;
use crate::interface::{
    FIELD, INNER_WORDS, LINE, MARK_WORDS, NEEDED, OUTPUT_TOO_SHORT, TEXT, WORDS_PER_ENTRY,
};
use oracle::{Mode, Refusal};

/// What a program reads and writes at most.
const MAX_INPUT: usize = 65_536;
pub(super) const MAX_OUTPUT: usize = 65_536;

/// What is lent for a call whose question says so.
#[derive(Clone, Copy, Debug, PartialEq, Eq)]
pub struct Sizes {
    /// Of scratch.
    pub words: usize,
    /// Bytes of output.
    pub room: usize,
}

impl Sizes {
    /// Those of the program `gather`.
    pub const OF_PROGRAM: Sizes = Sizes {
        words: INNER_WORDS,
        room: MAX_OUTPUT,
    };

    /// What a call with these sizes prints or refuses, after its marks.
    pub(super) fn told(self, asked: Asked) -> Vec<u8> {
        let expected = Expected::of(asked).expect("recorded bundles are UTF-8");
        let entries = self.words / WORDS_PER_ENTRY;
        let told = expected.limited(asked, entries);
        let mut recorded = marks_printed(&expected.limited_marks(asked, entries));
        match printing(in_words(&told), self.room) {
            (Answer { number: 0, .. }, printed) => recorded.extend(printed),
            (refusal, _) => recorded.extend(refused_in_full(refusal)),
        }
        recorded
    }
}

/// A line for each lab's mark.
pub(super) fn marks_printed(marks: &[u64]) -> Vec<u8> {
    let line = |mark: &[u64]| {
        let words: Vec<String> = mark.iter().map(u64::to_string).collect();
        format!("{}\n", words.join(" "))
    };
    marks
        .chunks(MARK_WORDS)
        .map(line)
        .collect::<String>()
        .into_bytes()
}

/// The files of each: its name, what is asked, and what is answered.
pub fn files_of(recorded: impl Iterator<Item = (&'static str, Vec<u8>, Vec<u8>)>) -> Files {
    let files = recorded.flat_map(|(name, asked, answered)| {
        [
            (format!("{name}.in"), asked),
            (format!("{name}.out"), answered),
        ]
    });
    files.collect()
}

/// A file's name without its end, and the bundle in it.
#[derive(Clone)]
pub struct Recorded {
    pub name: &'static str,
    pub bundle: Vec<u8>,
}

impl Recorded {
    /// What the program `gather` prints.
    pub fn answer(&self) -> Vec<u8> {
        self.printed(Asked::Bundle(Mode::Checked, &self.bundle))
    }

    /// What the program `totals` prints.
    pub fn page(&self) -> Vec<u8> {
        self.printed(Asked::Totals(&self.bundle))
    }

    /// What a program of the same sizes would print that gathers a bundle with revisions.
    pub fn revised(&self) -> Vec<u8> {
        self.printed(Asked::Revisions(&self.bundle))
    }

    fn printed(&self, asked: Asked) -> Vec<u8> {
        if self.bundle.len() > MAX_INPUT {
            return refused(Refusal::numbered(NOT_WELL_FORMED));
        }
        let expected = Expected::of(asked).expect("recorded bundles are UTF-8");
        match expected.limited(asked, INNER_WORDS / WORDS_PER_ENTRY) {
            Ok(printed) if printed.len() > MAX_OUTPUT => {
                refused(Refusal::numbered(OUTPUT_TOO_SHORT))
            }
            Ok(printed) => printed,
            Err(refusal) => refused(refusal),
        }
    }
}

pub(super) fn refused(refusal: Refusal) -> Vec<u8> {
    format!("{refusal}\n").into_bytes()
}

/// The number of a refusal and all that it tells.
pub(super) fn refused_in_full(Answer { number, words }: Answer) -> Vec<u8> {
    let [text, line, field, needed] = [TEXT, LINE, FIELD, NEEDED].map(|place| words[place]);
    format!("refused {number} {text} {line} {field} {needed}\n").into_bytes()
}

pub(super) const FIRST: &str = "TN:a\nSF:m.c\nFN:3,f\nFNDA:2,f\nDA:3,2\nDA:4,0,c1\nend_of_record\n";
pub(super) const SECOND: &str =
    "TN:a\nSF:./m.c\nFNDA:1,g\nBRDA:4,0,0,-\nBRDA:4,0,1,7\nend_of_record\n";
pub(super) const THIRD: &str = "TN:a\nSF:.//m.c\nFN:3,g\nBRDA:4,0,0,2\nDA:4,1,c2\nend_of_record\n";
const MAX: &str = "BRDA:1,0,0,18446744073709551615\nDA:1,1\nend_of_record\n";
const LINE_MAX: &str = "BRDA:1,0,0,-\nDA:1,18446744073709551615\nend_of_record\n";

/// With equal, larger and smaller end lines, or none, in the later text.
const ENDS: &str = "TN:a\nSF:m.c\nFN:3,5,e\nFN:3,5,l\nFN:3,5,s\nFN:3,5,n\nFN:3,o\nFN:3,000000000000000000000000000005,7,z\nFNDA:1,7,z\nFN:4294967295,4294967295,\nend_of_record\n";
const LATER_ENDS: &str = "TN:a\nSF:m.c\nFN:3,5,e\nFN:3,6,l\nFN:3,4,s\nFN:3,n\nFN:3,5,o\nFNDA:2,7,z\nFNDA:1,\nFN:1,2,3,only\nend_of_record\n";

/// All after the first comma is the name.
const NO_ENDS: &str =
    "SF:a\nFN:1,,x\nFN:1,+2,f\nFN:1, 2,f\nFN:1,2x,f\nFN:1,4294967296x,f\nFN:1,2\nend_of_record\n";

pub fn all() -> Vec<Recorded> {
    let mut all = [of_texts([refusals(), answers(), ends()].concat()), limits()].concat();
    let mut add = |name, bundle| all.push(Recorded { name, bundle });
    add("overlapping", overlapping());
    add("text-past-the-end", bundles::encoded(b"TN:a\n", &[(1, 5)]));
    add(
        "output-65536",
        bundles::of(&[printed_as_long_as(MAX_OUTPUT)]),
    );
    add(
        "output-65537",
        bundles::of(&[printed_as_long_as(MAX_OUTPUT + 1)]),
    );
    all
}

/// Each limit from both sides, save for that of the output.
pub(super) fn limits() -> Vec<Recorded> {
    let joined = |entries| bundles::of(&[&ascending(entries)[..], FIRST.as_bytes()]);
    let limits = [
        ("none", bundles::of::<&str>(&[])),
        ("empty-input", Vec::new()),
        ("64-texts", bundles::of(&[FIRST; 64])),
        ("65-texts", bundles::of(&[FIRST; 65])),
        ("65536-bytes", of_length(MAX_INPUT)),
        ("65537-bytes", of_length(MAX_INPUT + 1)),
        ("256-entries", bundles::of(&[ascending(256)])),
        ("257-entries", bundles::of(&[ascending(257)])),
        ("256-joined", joined(252)),
        ("257-joined", joined(253)),
    ];
    let limits = limits.into_iter();
    limits
        .map(|(name, bundle)| Recorded { name, bundle })
        .collect()
}

pub(super) fn of_texts(named: Vec<Named>) -> Vec<Recorded> {
    let named = named.into_iter();
    named
        .map(|(name, texts)| Recorded {
            name,
            bundle: bundles::of(&texts),
        })
        .collect()
}

pub(super) type Named = (&'static str, Vec<&'static str>);

/// One for each refusal that a text can give, and for each of a merge.
pub(super) fn refusals() -> Vec<Named> {
    vec![
        ("refused-01", vec![FIRST, "TN:a\nXY:1\n"]),
        ("refused-02", vec![FIRST, "TN:a\nSF:b\nFN:5\n"]),
        ("refused-03", vec!["LF:1,2\n"]),
        ("refused-04", vec!["BRDA:1,0,0,\n"]),
        ("refused-05", vec![FIRST, FIRST, "DA:4294967295x,0\n"]),
        ("refused-06", vec!["DA:1,18446744073709551616\n"]),
        ("refused-07", vec![FIRST, "SF:b\nTN:a\n"]),
        ("refused-08", vec!["TN:a\nSF:b\n"]),
        (
            "refused-09",
            vec!["FNDA:18446744073709551615,f\nFNDA:1,f\n"],
        ),
        (
            "refused-11",
            vec![FIRST, "TN:a\nSF:m.c\nFN:4,f\nend_of_record\n"],
        ),
        (
            "refused-12",
            vec![FIRST, "TN:a\nSF:m.c\nDA:4,1,c2\nend_of_record\n"],
        ),
        (
            "refused-13-branch",
            vec![MAX, "DA:1,1\nend_of_record\n", MAX],
        ),
        ("refused-13-line", vec![LINE_MAX, MAX]),
        ("refused-19", vec![FIRST, "SF:b\nDA:1,1\nBRDA:1,0,0,+5\n"]),
        ("refused-19-alone", vec!["LF:+\n"]),
        ("refused-19-then-02", vec!["SF:a\nFN:+1\n"]),
        ("refused-05-then-19", vec!["SF:a\nDA:x,+1\n"]),
        ("refused-25", vec![FIRST, "SF:\nDA:1,1\nSF:a\n"]),
        ("refused-25-same", vec!["SF:a\nSF:a\nend_of_record\n"]),
        ("refused-23", vec![FIRST, "SF:b\nDA:1,1\nFN:5,4,f\n"]),
        ("refused-23-no-name", vec!["FN:5,4,\n"]),
        ("refused-23-then-07", vec!["FN:5,4,f\nTN:a\n"]),
        ("refused-06-end", vec![FIRST, "SF:b\nFN:1,4294967296,f\n"]),
        (
            "refused-11-ends",
            vec![ENDS, "TN:a\nSF:m.c\nFN:4,9,e\nend_of_record\n"],
        ),
    ]
}

/// What is read, and what is joined.
fn answers() -> Vec<Named> {
    vec![
        (
            "plus-in-texts",
            vec!["TN:+5\nSF:+a\nFN:1,+2,f\nFNDA:2,+2,f\nDA:1,2,+5\nend_of_record:+1\n"],
        ),
        (
            "one-path-each",
            vec!["SF:a\nDA:1,1\nend_of_record\nDA:1,1\nSF:b\nDA:2,1\nend_of_record\n"],
        ),
        (
            "calls-stop",
            vec!["FNDA:18446744073709551615,f\nend_of_record\n"; 2],
        ),
        (
            "case-l",
            vec!["TN:a\nSF:m.c\nFN:3,f\nFNDA:2,f\nDA:3,2\nDA:4,0\nend_of_record\n"; 2],
        ),
        ("joined", vec![FIRST, SECOND, THIRD]),
        ("joined-reversed", vec![THIRD, SECOND, FIRST]),
        ("named-twice", vec![FIRST, SECOND, FIRST]),
        (
            "nothing-in-them",
            vec!["", "TN:a\n", "SF:a\nend_of_record\n"],
        ),
    ]
}

/// End lines of functions.
fn ends() -> Vec<Named> {
    vec![
        ("no-ends", vec![NO_ENDS]),
        (
            "ends-in-one-text",
            vec!["SF:a\nFN:1,9,f\nFN:1,f\nFN:1,f2\nFN:2,2,f2\nFN:3,8,g\nFNDA:3,g\nend_of_record\n"],
        ),
        ("ends-joined", vec![ENDS, LATER_ENDS]),
        ("ends-joined-reversed", vec![LATER_ENDS, ENDS]),
    ]
}

/// Three texts of one stretch: all of it, its first half and its second.
fn overlapping() -> Vec<u8> {
    let bytes = [FIRST, SECOND].concat();
    let (first, second) = (FIRST.len(), SECOND.len());
    bundles::encoded(
        bytes.as_bytes(),
        &[(0, first + second), (0, first), (first, second)],
    )
}

/// A bundle that is so long because of bytes that no text names.
fn of_length(len: usize) -> Vec<u8> {
    let mut bytes = FIRST.as_bytes().to_vec();
    bytes.resize(len - bundles::head_len(2), b'x');
    bundles::encoded(&bytes, &[(0, FIRST.len()), (0, FIRST.len())])
}

/// A text whose report is so long: a function's name is printed twice where it has a start, and so the report is longer than the text.
pub(super) fn printed_as_long_as(len: usize) -> String {
    let text = |name: usize, path: usize| {
        format!(
            "SF:{}\nFN:1,{}\nend_of_record\n",
            "p".repeat(path),
            "n".repeat(name)
        )
    };
    let printed = |text: &str| {
        let report = oracle::read_text(text.as_bytes()).expect("a sound text");
        oracle::print_report(report).len()
    };
    let shortest = printed(&text(20_000, 0));
    let made = text(20_000, len - shortest);
    assert_eq!(printed(&made), len);
    made
}

#[cfg(test)]
mod tests {
    use super::*;
    use std::collections::HashSet;

    fn answer(name: &str) -> String {
        let all = all();
        let recorded = all.iter().find(|recorded| recorded.name == name).unwrap();
        String::from_utf8(recorded.answer()).unwrap()
    }

    #[test]
    fn every_refusal_of_the_program_is_recorded() {
        oracle::hush_overflow();
        let numbers: HashSet<u32> = all()
            .iter()
            .filter_map(|recorded| {
                let answer = String::from_utf8(recorded.answer()).unwrap();
                answer
                    .strip_prefix("refused ")?
                    .split(' ')
                    .next()?
                    .parse()
                    .ok()
            })
            .collect();
        assert_eq!(
            numbers,
            HashSet::from_iter((1..=14).chain([16, 19, 23, 25]))
        );
    }

    #[test]
    fn limits_are_met_from_both_sides() {
        oracle::hush_overflow();
        for (fits, does_not, number) in [
            ("65536-bytes", "65537-bytes", "16 0 0 0"),
            ("256-entries", "257-entries", "10 0 257 0"),
            ("256-joined", "257-joined", "10 1 0 0"),
            ("64-texts", "65-texts", "16 0 0 0"),
            ("output-65536", "output-65537", "14 0 0 0"),
        ] {
            assert!(!answer(fits).starts_with("refused"), "{fits}");
            assert_eq!(answer(does_not), format!("refused {number}\n"));
        }
    }

    #[test]
    fn end_lines_are_recorded() {
        let starts = |name: &str| {
            let answer = answer(name);
            let starts: Vec<&str> = answer
                .lines()
                .filter(|line| line.starts_with("FN:"))
                .collect();
            starts.join(" ")
        };
        assert_eq!(
            starts("ends-joined"),
            "FN:1,2,3,only FN:3,5,7,z FN:3,5,e FN:3,6,l FN:3,5,n FN:3,5,o FN:3,5,s FN:4294967295,4294967295,"
        );
        assert_eq!(starts("ends-joined"), starts("ends-joined-reversed"));
        assert_eq!(starts("ends-in-one-text"), "FN:1,f FN:2,2,f2 FN:3,8,g");
        assert_eq!(answer("refused-23"), "refused 23 1 3 0\n");
        assert_eq!(answer("refused-06-end"), "refused 6 1 2 2\n");
        assert_eq!(answer("refused-11-ends"), "refused 11 1 0 0\n");
    }

    #[test]
    fn names_are_distinct() {
        let all = all();
        let names: HashSet<&str> = all.iter().map(|recorded| recorded.name).collect();
        assert_eq!(names.len(), all.len());
    }
}
