//! A line of a file with carets under the part that a message is about, as compilers print it.

use crate::shown::shown;
use std::ops::Range;

/// So many bytes are shown before the part, of it, and after it.
const BEFORE: usize = 24;
const PART: usize = 48;
const AFTER: usize = 24;

/// Two lines, each with a byte 10 before it.
pub fn excerpt(number: u64, line: &[u8], part: Range<usize>) -> String {
    let before = ending(&line[..part.start]);
    let after = beginning(&line[part.end..], AFTER);
    let part = beginning(&line[part], PART);
    let margin = " ".repeat(number.to_string().len());
    let indent = " ".repeat(before.chars().count());
    let carets = "^".repeat(part.chars().count().max(1));
    format!("\n  {number} | {before}{part}{after}\n  {margin} | {indent}{carets}")
}

/// The first bytes, with a mark where there are more. No letter is cut.
fn beginning(bytes: &[u8], most: usize) -> String {
    if bytes.len() <= most {
        return shown(bytes);
    }
    let is_inside = |place: &usize| bytes[*place] & 0xc0 == 0x80;
    let cut = (most - 3..=most).rev().find(|place| !is_inside(place));
    shown(&bytes[..cut.unwrap_or(most)]) + "..."
}

/// The last bytes, with a mark where there are more.
fn ending(bytes: &[u8]) -> String {
    if bytes.len() <= BEFORE {
        return shown(bytes);
    }
    let cut = bytes.len() - BEFORE;
    let is_inside = |place: &usize| bytes[*place] & 0xc0 == 0x80;
    let whole = (cut..cut + 3).find(|place| !is_inside(place));
    "...".to_owned() + &shown(&bytes[whole.unwrap_or(cut)..])
}

#[cfg(test)]
mod tests {
    use super::*;

    #[test]
    fn carets_stand_under_the_part() {
        assert_eq!(
            excerpt(12, b"DA:1,2z", 5..7),
            "\n  12 | DA:1,2z\n     |      ^^"
        );
        assert_eq!(excerpt(3, b"DA:", 3..3), "\n  3 | DA:\n    |    ^");
        assert_eq!(excerpt(1, b"", 0..0), "\n  1 | \n    | ^");
        assert_eq!(excerpt(1, b"\t:x", 0..1), "\n  1 | \\x09:x\n    | ^^^^");
    }

    #[test]
    fn long_lines_are_cut_around_the_part() {
        let line = [&b"x".repeat(100)[..], b"PART", &b"y".repeat(100)].concat();
        let expected = format!(
            "\n  1 | ...{}PART{}...\n    | {}^^^^",
            "x".repeat(24),
            "y".repeat(24),
            " ".repeat(27)
        );
        assert_eq!(excerpt(1, &line, 100..104), expected);
        let long = excerpt(1, &b"z".repeat(200), 0..200);
        assert_eq!(long.lines().last().unwrap().matches('^').count(), 51);
    }

    #[test]
    fn no_letter_is_cut() {
        for start in 0..4 {
            let line = format!("{}{}", "x".repeat(start), "\u{4e2d}".repeat(200));
            let place = start + 300;
            let cut = excerpt(1, line.as_bytes(), place..place + 3);
            assert!(!cut.contains("\\x"), "{cut}");
        }
    }
}
