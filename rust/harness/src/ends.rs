//! FN with an end line. The Rust takes it for the beginning of the name; the port reads it, as was asked for.
//!
//! The Rust is asked about the line without its end line, and what is said of that line here is written from SPEC 2 alone.

use crate::lines::trimmed;
use crate::plus;
use oracle::{Fault, Record, Refusal};
use std::borrow::Cow;
use std::ops::Range;

pub const NUMBER_TOO_LARGE: u32 = 6;
pub const END_BEFORE_START: u32 = 23;

/// The field of an end line.
pub const END_FIELD: u32 = 2;

/// A line that is read: the Rust's record, and the end line, for which that has no place.
#[derive(Debug, PartialEq)]
pub struct Read {
    pub record: Record,
    pub end: Option<u32>,
}

impl Read {
    pub fn without_end(record: Record) -> Self {
        Read { record, end: None }
    }
}

/// The record of a line, or why there is none. The start line is refused as the Rust does, or with 19, before the end line is looked at.
pub fn read_line(line: &[u8]) -> Result<Read, Fault> {
    let Some(place) = place_of(line) else {
        return plus::read_line(line).map(Read::without_end);
    };
    let record = plus::read_line(&cut(line, &place))?;
    let Record::FunctionName { start_line, .. } = record else {
        unreachable!("FN without its end line is FN");
    };
    let end: u32 = value_of(&line[place]).ok_or(refused(NUMBER_TOO_LARGE, END_FIELD))?;
    if end < start_line {
        return Err(refused(END_BEFORE_START, 0));
    }
    let end = Some(end);
    Ok(Read { record, end })
}

/// A lone line is line 1.
fn refused(number: u32, field: u32) -> Fault {
    Fault::Refused(Refusal {
        number,
        text: 0,
        line: 1,
        field,
    })
}

/// Where the end line of an FN stands: digits alone, one or more, between the first two commas.
fn place_of(line: &[u8]) -> Option<Range<usize>> {
    let body = trimmed(line).strip_prefix(b"FN:")?;
    let mut fields = body.splitn(3, |&byte| byte == b',');
    let (start, end, _name) = (fields.next()?, fields.next()?, fields.next()?);
    let is_number = !end.is_empty() && end.iter().all(u8::is_ascii_digit);
    let place = b"FN:".len() + start.len() + 1;
    is_number.then_some(place..place + end.len())
}

pub fn has_end(line: &[u8]) -> bool {
    place_of(line).is_some()
}

/// The line without its end line and the comma behind it.
fn cut(line: &[u8], place: &Range<usize>) -> Vec<u8> {
    [&line[..place.start], &line[place.end + 1..]].concat()
}

fn value_of(digits: &[u8]) -> Option<u32> {
    std::str::from_utf8(digits).ok()?.parse().ok()
}

/// The record as a line, without byte 10.
pub fn print_record(record: &Record, end: Option<u32>) -> Vec<u8> {
    match (record, end) {
        (Record::FunctionName { name, start_line }, Some(end)) => {
            format!("FN:{start_line},{end},{name}").into_bytes()
        }
        _ => oracle::print_record(record),
    }
}

/// The text without its end lines; borrowed where it has none.
pub fn taken_out(text: &[u8]) -> Cow<'_, [u8]> {
    let lines = || text.split_inclusive(|&byte| byte == b'\n');
    if !lines().any(has_end) {
        return Cow::Borrowed(text);
    }
    let mut plain = Vec::with_capacity(text.len());
    for line in lines() {
        match place_of(line) {
            Some(place) => plain.extend(cut(line, &place)),
            None => plain.extend_from_slice(line),
        }
    }
    Cow::Owned(plain)
}

#[cfg(test)]
mod tests {
    use super::*;

    /// Start line, end line and name, or the number and the field of the refusal.
    fn told(line: &str) -> Result<(u32, Option<u32>, String), (u32, u32)> {
        match read_line(line.as_bytes()) {
            Ok(Read {
                record: Record::FunctionName { name, start_line },
                end,
            }) => Ok((start_line, end, name)),
            Err(Fault::Refused(refusal)) => {
                assert_eq!((refusal.text, refusal.line), (0, 1));
                Err((refusal.number, refusal.field))
            }
            other => panic!("{line}: {other:?}"),
        }
    }

    fn read(line: &str, start: u32, end: Option<u32>, name: &str) {
        assert_eq!(told(line), Ok((start, end, name.to_owned())), "{line}");
    }

    #[test]
    fn digits_alone_between_two_commas_are_an_end_line() {
        read("FN:1,2,f", 1, Some(2), "f");
        read("FN:1,2,", 1, Some(2), "");
        read("FN:1,2,\r\n", 1, Some(2), "");
        read("FN:1,2,3,f", 1, Some(2), "3,f");
        read("FN:5,5,f", 5, Some(5), "f");
        read("FN:0,4294967295,f", 0, Some(u32::MAX), "f");
        read(&format!("FN:1,{}2,f", "0".repeat(30)), 1, Some(2), "f");
    }

    #[test]
    fn all_else_is_a_name() {
        for name in [
            "2",
            ",x",
            "+2,f",
            " 2,f",
            "2x,f",
            "2\r,f",
            "4294967296x,f",
            "-,f",
            "２,f",
            "",
        ] {
            read(&format!("FN:1,{name}"), 1, None, name);
        }
        assert!(!has_end(b"FNDA:1,2,f") && !has_end(b"FN") && !has_end(b"XFN:1,2,f"));
    }

    #[test]
    fn an_end_line_is_refused_after_the_start_line() {
        assert_eq!(told("FN:1,4294967296,f"), Err((6, 2)));
        assert_eq!(told("FN:5,4,f"), Err((23, 0)));
        assert_eq!(told("FN:5,4,"), Err((23, 0)));
        assert_eq!(told("FN:4294967295,4294967294,f"), Err((23, 0)));
        assert_eq!(told("FN:+9,1,f"), Err((19, 1)));
        assert_eq!(told("FN:x,1,f"), Err((5, 1)));
        assert_eq!(told("FN:9999999999,1,f"), Err((6, 1)));
        assert_eq!(told("FN:,1,f"), Err((4, 1)));
        assert_eq!(told("FN:5"), Err((2, 2)));
    }

    #[test]
    fn a_record_is_printed_with_its_end_line() {
        let printed = |line: &str| {
            let Read { record, end } = read_line(line.as_bytes()).unwrap();
            String::from_utf8(print_record(&record, end)).unwrap()
        };
        assert_eq!(printed("FN:01,002,f,g\n"), "FN:1,2,f,g");
        assert_eq!(printed("FN:1,,x"), "FN:1,,x");
        assert_eq!(printed("DA:1,2"), "DA:1,2");
    }

    #[test]
    fn a_text_without_its_end_lines_has_as_many_lines() {
        let plain = |text: &str| String::from_utf8(taken_out(text.as_bytes()).into_owned());
        let text = "TN:FN:1,2,f\nFN:1,2,f\r\nFN:1,2,3,f\nFNDA:1,2,f\nFN:9,8,f";
        let expected = "TN:FN:1,2,f\nFN:1,f\r\nFN:1,3,f\nFNDA:1,2,f\nFN:9,f";
        assert_eq!(plain(text).unwrap(), expected);
        assert!(matches!(taken_out(b"FN:1,f\nFN:1,2\n"), Cow::Borrowed(_)));
    }
}
