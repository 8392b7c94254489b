//! The list of `--revisions`: lines of a run, a revision and a path. Of each run the file with the highest revision is chosen, by the rule of the
//! library's call `lcov_gather_revisions`, among any number of files.

use crate::failure::Failure;
use crate::wrong::{refusal, Wrong};
use lcov_sys::{Fault, Refusal, WORDS};
use std::collections::hash_map::{Entry, HashMap};
use std::ffi::OsStr;
use std::ops::Range;
use std::os::unix::ffi::OsStrExt;
use std::path::{Path, PathBuf};

const FORM: &str = "a line is a run, a revision and a path, with a blank or tab between them";

/// The files that are chosen, in the order of the list, which has this text.
pub fn files(list: &Path, text: &[u8]) -> Result<Vec<PathBuf>, Failure> {
    let chosen = parse(text).and_then(chosen);
    chosen.map_err(|wrong| Failure::Wrong(list.to_owned(), wrong))
}

/// A line that names a file.
struct Line<'a> {
    /// From 1.
    number: u64,
    bytes: &'a [u8],
    run: u32,
    revision: u32,
    /// Where run and revision end.
    pair_end: usize,
    path: &'a [u8],
}

/// Lines that are empty or begin with `#` name none.
fn parse(text: &[u8]) -> Result<Vec<Line<'_>>, Wrong> {
    let lines = (1..).zip(text.split(|&byte| byte == b'\n'));
    let named = lines.filter(|(_, bytes)| !matches!(bytes, [] | [b'#', ..]));
    named
        .map(|(number, bytes)| Line::parse(number, bytes))
        .collect()
}

impl<'a> Line<'a> {
    fn parse(number: u64, bytes: &'a [u8]) -> Result<Self, Wrong> {
        let wrong = |part, what: &str| Wrong::in_line(number, bytes, part, what, FORM);
        let read_field = |name: &str, field: &Range<usize>| {
            let read = read(&bytes[field.clone()]);
            read.map_err(|what| wrong(field.clone(), &format!("{name}: {what}")))
        };
        let run = field_from(bytes, 0);
        let revision = field_from(bytes, run.end + 1);
        let line = Line {
            number,
            bytes,
            run: read_field("run", &run)?,
            revision: read_field("revision", &revision)?,
            pair_end: revision.end,
            path: bytes.get(revision.end + 1..).unwrap_or_default(),
        };
        match line.path {
            [] => Err(wrong(bytes.len()..bytes.len(), "the path is missing")),
            _ => Ok(line),
        }
    }
}

/// Up to the next blank or tab; at the end where the line is shorter.
fn field_from(bytes: &[u8], start: usize) -> Range<usize> {
    let start = start.min(bytes.len());
    let is_between = |byte: &u8| matches!(byte, b' ' | b'\t');
    let len = bytes[start..].iter().position(is_between);
    start..len.map_or(bytes.len(), |len| start + len)
}

/// A u32, as the library reads a number field.
fn read(field: &[u8]) -> Result<u32, &'static str> {
    let mut answer = [0; WORDS];
    let number = lcov_sys::read_number(field, u32::MAX.into(), &mut answer);
    let read = Refusal::unless_answered(number, answer).map_err(|refusal| refusal.meaning())?;
    Ok(u32::try_from(read).expect("at most the greatest u32"))
}

/// The paths of the highest revisions; the first line that repeats an earlier run and revision is wrong.
fn chosen(lines: Vec<Line>) -> Result<Vec<PathBuf>, Wrong> {
    let mut first = HashMap::new();
    let mut highest: HashMap<u32, u32> = HashMap::new();
    for line in &lines {
        match first.entry((line.run, line.revision)) {
            Entry::Occupied(earlier) => return Err(repeated(line, *earlier.get())),
            Entry::Vacant(place) => place.insert(line.number),
        };
        let revision = highest.entry(line.run).or_default();
        *revision = line.revision.max(*revision);
    }
    let chosen = lines
        .iter()
        .filter(|line| highest[&line.run] == line.revision);
    Ok(chosen
        .map(|line| PathBuf::from(OsStr::from_bytes(line.path)))
        .collect())
}

fn repeated(line: &Line, earlier: u64) -> Wrong {
    let what = refusal(Fault::RepeatedRevision);
    let Line { run, revision, .. } = line;
    let advice = format!("line {earlier} has run {run} with revision {revision} too");
    Wrong::in_line(line.number, line.bytes, 0..line.pair_end, &what, &advice)
}

#[cfg(test)]
mod tests {
    use super::*;

    fn paths(text: &str) -> Result<Vec<String>, String> {
        let chosen = parse(text.as_bytes()).and_then(chosen);
        let shown = |path: PathBuf| path.into_os_string().into_string().unwrap();
        chosen
            .map(|paths| paths.into_iter().map(shown).collect())
            .map_err(|wrong| wrong.to_string())
    }

    fn chosen_of(text: &str) -> String {
        paths(text).unwrap().join("|")
    }

    #[test]
    fn of_each_run_the_highest_in_the_order_of_the_list() {
        assert_eq!(chosen_of("9 1 a\n1 1 b\n"), "a|b");
        assert_eq!(chosen_of("7 1 a\n1 7 b\n"), "a|b");
        assert_eq!(chosen_of("1 1 a\n2 1 b\n1 2 c\n"), "b|c");
        assert_eq!(chosen_of("3 256 a\n3 255 b\n3 9 c"), "a");
        assert_eq!(chosen_of("0 0 a\n0 4294967295 b\n4294967295 0 c"), "b|c");
        assert_eq!(chosen_of(""), "");
    }

    #[test]
    fn a_line_has_a_path_with_anything_in_it() {
        assert_eq!(
            chosen_of("# 1 1 a\n\n1 1 a b \n\n2\t007\t#c\td\n"),
            "a b |#c\td"
        );
        assert_eq!(chosen_of("1 1  a"), " a");
        assert_eq!(chosen_of("1 1 a\r\n"), "a\r");
    }

    #[test]
    fn the_first_wrong_line_is_told() {
        for (line, expected) in [
            ("x 1 a", ":2: run: bad digit\n  2 | x 1 a\n    | ^\n  help: a line is a run, a revision and a path"),
            (" 1 1 a", ":2: run: number empty\n  2 |  1 1 a\n    | ^\n"),
            ("1  1 a", ":2: revision: number empty\n  2 | 1  1 a\n    |   ^\n"),
            ("1 -1 a", ":2: revision: bad digit\n  2 | 1 -1 a\n    |   ^^\n"),
            ("+1 1 a", ":2: run: number with a plus sign\n  2 | +1 1 a\n    | ^^\n"),
            ("1 4294967296 a", ":2: revision: number too large\n  2 | 1 4294967296 a\n    |   ^^^^^^^^^^\n"),
            ("1", ":2: revision: number empty\n  2 | 1\n    |  ^\n"),
            ("a.info", ":2: run: bad digit\n  2 | a.info\n    | ^^^^^^\n"),
            ("1 1", ":2: the path is missing\n  2 | 1 1\n    |    ^\n"),
            ("1 1 ", ":2: the path is missing\n  2 | 1 1 \n    |     ^\n"),
        ] {
            let told = paths(&format!("5 5 a\n{line}\nx")).unwrap_err();
            assert!(told.starts_with(expected), "{told}");
        }
    }

    #[test]
    fn both_lines_of_a_repeated_pair_are_told() {
        let what = "a run has the same revision twice (refusal 20)";
        let told = paths("1 1 a\n# b\n01 1 c\n1 2 d\n").unwrap_err();
        let expected = format!(
            ":3: {what}\n  3 | 01 1 c\n    | ^^^^\n  help: line 1 has run 1 with revision 1 too"
        );
        assert_eq!(told, expected);
        let told = paths("1 1 a\n2 1 a\n1 2 a\n2 1 a\n1 2 a\n").unwrap_err();
        assert!(told.starts_with(&format!(":4: {what}")), "{told}");
        assert!(
            told.ends_with("line 2 has run 2 with revision 1 too"),
            "{told}"
        );
    }
}
