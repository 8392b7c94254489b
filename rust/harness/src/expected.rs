//! What the port must answer: the Rust's answer to a line, 19 where a number has a plus sign, and the end line of an FN, in the words of the
//! C interface.

use crate::ends::{self, Read};
use crate::interface::{
    Words, EQUAL, FIELD, FIRST_NUMBER, GIVEN, GREATER, KIND, LEN, LESS, LINE, NEEDED,
    OUTPUT_TOO_SHORT, START, TEXT, WORDS, WRITTEN,
};
use crate::lines::trimmed;
use crate::plus::SIGNED_NUMBER;
use oracle::{Fault, Record, Refusal};
use std::borrow::Cow;
use std::cmp::Ordering;
use std::ffi::OsStr;
use std::os::unix::ffi::OsStrExt;
use std::path::Path;

/// A number and its words: 0 for an answer, or a refusal.
#[derive(Debug, Clone, Copy, PartialEq, Eq)]
pub struct Answer {
    pub number: u32,
    pub words: Words,
}

/// What an answer rests on.
#[derive(Debug, Clone, Copy, PartialEq, Eq)]
pub enum Basis {
    /// The Rust's answer.
    Rust,
    /// The Rust gives another answer, and a refusal was asked for: a number has a plus sign, a section a second SF, a run the same revision
    /// twice, a window no width, or a text no lab. The Rust is still asked about all that comes before.
    Refusal,
    /// An FN has an end line, which the Rust takes for a part of the name. It is asked about the same without end lines, and these are put in
    /// by what SPEC says of them.
    Ends,
    /// A filter by distinct starts keeps other functions than the Rust's. The Rust is asked for its own filter, and the reference that agrees
    /// with it there answers by distinct starts.
    Starts,
    /// A page of totals, which the Rust lacks. It is counted from the entries of the report that the Rust prints.
    Page,
    /// Lines of windows, which the Rust lacks. They are counted from the reports that the Rust has of each window's texts.
    Windows,
}

pub struct Expected {
    /// What reading the line answers.
    pub read: Answer,
    /// The record's line with byte 10 after it; None where the line is refused.
    pub printed: Option<Vec<u8>>,
    /// The line is not UTF-8, so the Rust could only be asked about one that stands in for it.
    pub outside: bool,
    pub basis: Basis,
}

impl Expected {
    pub fn of(line: &[u8]) -> Self {
        Expected::by(line, ends::read_line)
    }

    /// By what a reader tells of the line.
    pub fn by(line: &[u8], read_line: impl Fn(&[u8]) -> Result<Read, Fault>) -> Self {
        let outside = std::str::from_utf8(line).is_err();
        let asked = if outside {
            Cow::Owned(stub(line))
        } else {
            Cow::Borrowed(line)
        };
        let (read, printed) = match read_line(&asked) {
            Ok(told) => (read(&told, &asked), Some(printed(&told, line))),
            Err(Fault::Refused(refusal)) => (refused(refusal), None),
            Err(Fault::Outside) => unreachable!("a line that is UTF-8 can be asked"),
        };
        let basis = match read.number {
            _ if ends::has_end(&asked) => Basis::Ends,
            SIGNED_NUMBER => Basis::Refusal,
            _ => Basis::Rust,
        };
        Expected {
            read,
            printed,
            outside,
            basis,
        }
    }

    /// What printing the record writes, or the refusal.
    pub fn told(&self) -> Result<&[u8], Answer> {
        self.printed.as_deref().ok_or(self.read)
    }
}

/// SPEC 1.1 reads bytes, and one past 127 is in no tag, no digit and nothing that parts fields. So it may be any such byte:
/// numbers and places stay.
fn stub(line: &[u8]) -> Vec<u8> {
    line.iter()
        .map(|&byte| if byte < 128 { byte } else { b'x' })
        .collect()
}

// ---- reading

fn read(Read { record, end }: &Read, line: &[u8]) -> Answer {
    let mut words = [0; WORDS];
    words[KIND] = record.kind() as u64 + 1;
    let numbers = numbers(record).into_iter().chain(end.map(u64::from));
    for (place, number) in numbers.enumerate() {
        words[FIRST_NUMBER + place] = number;
    }
    words[GIVEN] = (end.is_some() || given(record)).into();
    if let Some(text) = text(record) {
        let start = start_of_text(text.len(), line);
        assert_eq!(text, &line[start..start + text.len()]);
        words[START] = start as u64;
        words[LEN] = text.len() as u64;
    }
    Answer { number: 0, words }
}

/// The Rust's numbers in the order of their fields; a taken count that is none counts as 0.
fn numbers(record: &Record) -> Vec<u64> {
    match *record {
        Record::TestName { .. } | Record::SourceFile { .. } | Record::EndOfRecord => vec![],
        Record::FunctionName { start_line, .. } => vec![start_line.into()],
        Record::FunctionData { count, .. } => vec![count],
        Record::FunctionsFound { found }
        | Record::BranchesFound { found }
        | Record::LinesFound { found } => vec![found.into()],
        Record::FunctionsHit { hit } | Record::BranchesHit { hit } | Record::LinesHit { hit } => {
            vec![hit.into()]
        }
        Record::BranchData {
            line,
            block,
            branch,
            taken,
        } => vec![line.into(), block.into(), branch.into(), taken.unwrap_or(0)],
        Record::LineData { line, count, .. } => vec![line.into(), count],
    }
}

fn given(record: &Record) -> bool {
    match record {
        Record::BranchData { taken, .. } => taken.is_some(),
        Record::LineData { checksum, .. } => checksum.is_some(),
        _ => false,
    }
}

fn text(record: &Record) -> Option<&[u8]> {
    match record {
        Record::TestName { name }
        | Record::FunctionName { name, .. }
        | Record::FunctionData { name, .. } => Some(name.as_bytes()),
        Record::SourceFile { path } => Some(path.as_os_str().as_bytes()),
        Record::LineData { checksum, .. } => checksum.as_ref().map(|text| text.as_bytes()),
        _ => None,
    }
}

/// The Rust hands out a copy. A text is always the last field, so it ends where the line does, bytes 10 and 13 dropped.
fn start_of_text(len: usize, line: &[u8]) -> usize {
    trimmed(line).len() - len
}

/// An answer that has one word: what was written, how many pairs there are, or whether one is held.
pub fn answered(first: u64) -> Answer {
    let mut words = [0; WORDS];
    words[WRITTEN] = first;
    Answer { number: 0, words }
}

pub fn refused(refusal: Refusal) -> Answer {
    let mut words = [0; WORDS];
    words[TEXT] = refusal.text as u64;
    words[LINE] = refusal.line as u64;
    words[FIELD] = refusal.field.into();
    Answer {
        number: refusal.number,
        words,
    }
}

// ---- printing

/// The text is taken from the line itself, which the record may only stand in for.
fn printed(Read { record, end }: &Read, line: &[u8]) -> Vec<u8> {
    let mut printed = ends::print_record(record, *end);
    if let Some(text) = text(record) {
        let start = start_of_text(text.len(), line);
        printed.truncate(printed.len() - text.len());
        printed.extend_from_slice(&line[start..start + text.len()]);
    }
    printed.push(b'\n');
    printed
}

/// The answer of a call that prints into an output of some length, and the bytes that the output then begins with.
pub fn printing(told: Result<&[u8], Answer>, room: usize) -> (Answer, &[u8]) {
    match told {
        Err(refusal) => (refusal, &[]),
        Ok(printed) if printed.len() <= room => (answered(printed.len() as u64), printed),
        Ok(printed) => (too_short(printed.len()), &[]),
    }
}

fn too_short(needed: usize) -> Answer {
    let mut words = [0; WORDS];
    words[NEEDED] = needed as u64;
    Answer {
        number: OUTPUT_TOO_SHORT,
        words,
    }
}

// ---- paths

/// Paths that are not UTF-8 are no keys of the Rust's; SPEC 4.2 orders them as Unix `Path` all the same.
pub fn path_order(a: &[u8], b: &[u8]) -> u32 {
    let order = oracle::compare_paths(a, b)
        .unwrap_or_else(|_| Path::new(OsStr::from_bytes(a)).cmp(Path::new(OsStr::from_bytes(b))));
    match order {
        Ordering::Less => LESS,
        Ordering::Equal => EQUAL,
        Ordering::Greater => GREATER,
    }
}

#[cfg(test)]
mod tests {
    use super::*;

    fn words(line: &[u8]) -> (u32, Words) {
        let read = Expected::of(line).read;
        (read.number, read.words)
    }

    #[test]
    fn the_words_of_each_kind() {
        assert_eq!(words(b"TN:a,b\n"), (0, [1, 0, 0, 0, 0, 0, 3, 3]));
        assert_eq!(words(b"SF:/m.c\r\n"), (0, [2, 0, 0, 0, 0, 0, 3, 4]));
        assert_eq!(words(b"FN:07,f"), (0, [3, 7, 0, 0, 0, 0, 6, 1]));
        assert_eq!(words(b"FN:07,08,f"), (0, [3, 7, 8, 0, 0, 1, 9, 1]));
        assert_eq!(words(b"FN:7,,f"), (0, [3, 7, 0, 0, 0, 0, 5, 2]));
        assert_eq!(words(b"FN:0,0,"), (0, [3, 0, 0, 0, 0, 1, 7, 0]));
        assert_eq!(words(b"FNDA:2,f,g"), (0, [4, 2, 0, 0, 0, 0, 7, 3]));
        assert_eq!(words(b"FNF:3"), (0, [5, 3, 0, 0, 0, 0, 0, 0]));
        assert_eq!(words(b"FNH:3"), (0, [6, 3, 0, 0, 0, 0, 0, 0]));
        assert_eq!(words(b"BRDA:1,2,3,4"), (0, [7, 1, 2, 3, 4, 1, 0, 0]));
        assert_eq!(words(b"BRDA:1,2,3,-"), (0, [7, 1, 2, 3, 0, 0, 0, 0]));
        assert_eq!(words(b"BRF:3"), (0, [8, 3, 0, 0, 0, 0, 0, 0]));
        assert_eq!(words(b"BRH:3"), (0, [9, 3, 0, 0, 0, 0, 0, 0]));
        assert_eq!(words(b"DA:1,2"), (0, [10, 1, 2, 0, 0, 0, 0, 0]));
        assert_eq!(words(b"DA:1,2,-"), (0, [10, 1, 2, 0, 0, 0, 0, 0]));
        assert_eq!(words(b"DA:1,2,c="), (0, [10, 1, 2, 0, 0, 1, 7, 2]));
        assert_eq!(words(b"DA:1,2,"), (0, [10, 1, 2, 0, 0, 1, 7, 0]));
        assert_eq!(words(b"LF:3"), (0, [11, 3, 0, 0, 0, 0, 0, 0]));
        assert_eq!(words(b"LH:3"), (0, [12, 3, 0, 0, 0, 0, 0, 0]));
        assert_eq!(words(b"end_of_record:1"), (0, [13, 0, 0, 0, 0, 0, 0, 0]));
    }

    #[test]
    fn the_words_of_a_refusal() {
        assert_eq!(words(b"BRDA:1,0,0,"), (4, [0, 1, 4, 0, 0, 0, 0, 0]));
        assert_eq!(words(b"LF:1,2"), (3, [0, 1, 0, 0, 0, 0, 0, 0]));
        assert_eq!(words(b"BRDA:1,0,0,+5"), (19, [0, 1, 4, 0, 0, 0, 0, 0]));
        assert_eq!(words(b"FN:7,6,f"), (23, [0, 1, 0, 0, 0, 0, 0, 0]));
        assert_eq!(words(b"FN:7,4294967296,f"), (6, [0, 1, 2, 0, 0, 0, 0, 0]));
    }

    #[test]
    fn plus_signs_and_end_lines_are_kept_apart() {
        let basis = |line: &[u8]| Expected::of(line).basis;
        for line in [&b"DA:+1,x"[..], b"FN:+1,\xff"] {
            assert_eq!(basis(line), Basis::Refusal);
        }
        for line in [&b"DA:x,+1"[..], b"TN:+1", b"DA:1,2", b"FN:1,2", b"FN:1,,f"] {
            assert_eq!(basis(line), Basis::Rust);
        }
        for line in [&b"FN:1,2,f"[..], b"FN:2,1,\xff", b"FN:+1,2,f"] {
            assert_eq!(basis(line), Basis::Ends);
        }
    }

    #[test]
    fn bytes_that_are_not_utf_8_are_stood_in_for() {
        let name = Expected::of(b"FN:07,\xff\xfe,\n");
        assert!(name.outside);
        assert_eq!(name.read.words, [3, 7, 0, 0, 0, 0, 6, 3]);
        assert_eq!(name.printed.unwrap(), b"FN:7,\xff\xfe,\n");
        let end = Expected::of(b"FN:07,8,\xff,\n");
        assert_eq!(end.printed.unwrap(), b"FN:7,8,\xff,\n");
        assert_eq!(words(b"FN:7\xff,f"), (5, [0, 1, 1, 0, 0, 0, 0, 0]));
        assert_eq!(words(b"TN\xff:a"), (1, [0, 1, 0, 0, 0, 0, 0, 0]));
    }

    #[test]
    fn an_empty_text_starts_where_the_line_ends() {
        let start = |line: &[u8]| Expected::of(line).read.words[START];
        assert_eq!(
            [
                start(b"TN"),
                start(b"SF:\n"),
                start(b"FN:1,"),
                start(b"DA:1,2,")
            ],
            [2, 3, 5, 7]
        );
    }

    #[test]
    fn paths_are_ordered_by_components() {
        assert_eq!(path_order(b"a/b", b"a-b"), LESS);
        assert_eq!(path_order(b"a//b", b"a/./b"), EQUAL);
        assert_eq!(path_order(b"\xff", b"a"), GREATER);
    }
}
