//! How many numbers a tracefile has, and how many digits: what `--stats` tells. Each number is read by the library's call.

use crate::form::{tag_of, Form};
use crate::record::without_end;
use lcov_sys::WORDS;
use std::fmt;
use std::iter::Sum;

#[derive(Debug, Clone, Copy, Default, PartialEq, Eq)]
pub struct Numbers {
    pub numbers: u64,
    /// Of all of them, leading zeros included.
    pub digits: u64,
}

impl Numbers {
    /// Those of a text. A field that the library's call does not read, as `-` in BRDA, is no number.
    pub fn of(text: &[u8]) -> Self {
        let lines = text.split(|&byte| byte == b'\n');
        lines.flat_map(fields).map(Numbers::of_field).sum()
    }

    /// One or none, as the library's call tells.
    fn of_field((field, greatest): (&[u8], u64)) -> Self {
        let mut answer = [0; WORDS];
        match lcov_sys::read_number(field, greatest, &mut answer) {
            0 => Numbers {
                numbers: 1,
                digits: answer[1],
            },
            _ => Numbers::default(),
        }
    }
}

/// The number fields of a line, each with the greatest number that it may hold; none where the tag is unknown.
fn fields(line: &[u8]) -> impl Iterator<Item = (&[u8], u64)> {
    let line = without_end(line);
    let forms = Form::of(line)
        .into_iter()
        .flat_map(|form| form.fields_of(line));
    let body = line.get(tag_of(line).end + 1..).unwrap_or_default();
    let fields = body.split(|&byte| byte == b',').zip(forms);
    fields.filter_map(|(field, form)| Some((field, form.greatest()?)))
}

impl Sum for Numbers {
    fn sum<I: Iterator<Item = Numbers>>(all: I) -> Self {
        all.fold(Numbers::default(), |sum, next| Numbers {
            numbers: sum.numbers + next.numbers,
            digits: sum.digits + next.digits,
        })
    }
}

impl fmt::Display for Numbers {
    fn fmt(&self, f: &mut fmt::Formatter) -> fmt::Result {
        write!(f, "{} numbers, {} digits", self.numbers, self.digits)
    }
}

#[cfg(test)]
mod tests {
    use super::*;

    fn counted(text: &str) -> (u64, u64) {
        let Numbers { numbers, digits } = Numbers::of(text.as_bytes());
        (numbers, digits)
    }

    #[test]
    fn every_number_field_counts_with_its_zeros() {
        for (line, expected) in [
            ("TN:5", (0, 0)),
            ("SF:55", (0, 0)),
            ("FN:12,34", (1, 2)),
            ("FN:12,034,f", (2, 5)),
            ("FN:12,34,5,f", (2, 4)),
            ("FN:12,34x,5", (1, 2)),
            ("FN:12,+34,5", (1, 2)),
            ("FNDA:012,f", (1, 3)),
            ("FNF:1", (1, 1)),
            ("FNH:22", (1, 2)),
            ("BRDA:10,2,003,4", (4, 7)),
            ("BRDA:10,2,003,-", (3, 6)),
            ("BRF:1", (1, 1)),
            ("BRH:1", (1, 1)),
            ("DA:007,18446744073709551615,99", (2, 23)),
            ("DA:1,2", (2, 2)),
            ("LF:4294967295", (1, 10)),
            ("LH:0\r", (1, 1)),
            ("end_of_record:1", (0, 0)),
            ("end_of_record", (0, 0)),
        ] {
            assert_eq!(counted(line), expected, "{line}");
        }
        assert_eq!(counted(""), (0, 0));
        assert_eq!(counted("DA:1,22\nDA:3,44\r\nLF:5"), (5, 7));
    }

    #[test]
    fn what_the_call_does_not_read_is_no_number() {
        for (line, expected) in [
            ("DA:7,-3", (1, 1)),
            ("BRDA:1,e0,12,3", (3, 4)),
            ("FNL:0,10,20", (0, 0)),
            ("FNA:0,7,f", (0, 0)),
            ("DA:1,+2", (1, 1)),
            ("DA:4294967296,2", (1, 1)),
            ("FN:1,4294967296,f", (1, 1)),
            ("DA", (0, 0)),
            ("DA:", (0, 0)),
        ] {
            assert_eq!(counted(line), expected, "{line}");
        }
    }
}
