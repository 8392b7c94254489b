//! Number fields that begin with a plus sign. The Rust takes the sign; the port refuses the field with 19, as was asked for.

use crate::lines::{trimmed, LAYOUTS};
use oracle::{Fault, Record, Refusal};
use std::ops::Range;

pub const SIGNED_NUMBER: u32 = 19;

/// The record of a line, or why there is none: 19 where a plus sign is met first, and else what the Rust answers.
pub fn read_line(line: &[u8]) -> Result<Record, Fault> {
    match refusal(line) {
        Some(refusal) => Err(Fault::Refused(refusal)),
        None => oracle::read_line(line),
    }
}

/// Refusal 19, unless an earlier field is refused: the Rust tells that of the line with 0 in the place of the field.
fn refusal(line: &[u8]) -> Option<Refusal> {
    let (field, place) = first_signed(line)?;
    let unsigned = [&line[..place.start], b"0", &line[place.end..]].concat();
    if let Err(Fault::Refused(earlier)) = oracle::read_line(&unsigned) {
        if (1..field).contains(&earlier.field) {
            let whole = oracle::read_line(line).err();
            assert_eq!(whole, Some(Fault::Refused(earlier)));
            return None;
        }
    }
    Some(Refusal {
        number: SIGNED_NUMBER,
        text: 0,
        line: 1,
        field,
    })
}

/// The first number field that begins with a plus sign: its number from 1, and where it stands in the line.
fn first_signed(line: &[u8]) -> Option<(u32, Range<usize>)> {
    let line = trimmed(line);
    let colon = line.iter().position(|&byte| byte == b':')?;
    let tag = &line[..colon];
    let layout = LAYOUTS.iter().find(|layout| layout.tag.as_bytes() == tag)?;
    let mut start = colon + 1;
    for (number, form) in (1..).zip(layout.fields) {
        let rest = line.get(start..)?;
        let comma = rest.iter().position(|&byte| byte == b',');
        let end = start + comma.unwrap_or(rest.len());
        if !form.is_text() && rest.starts_with(b"+") {
            return Some((number, start..end));
        }
        start = end + 1;
    }
    None
}

#[cfg(test)]
mod tests {
    use super::*;

    /// The number and the field of the refusal; 0 and 0 where the line is read.
    fn told(line: &str) -> (u32, u32) {
        match read_line(line.as_bytes()) {
            Ok(_) => (0, 0),
            Err(Fault::Refused(refusal)) => {
                assert_eq!((refusal.text, refusal.line), (0, 1));
                (refusal.number, refusal.field)
            }
            Err(Fault::Outside) => panic!("{line} is UTF-8"),
        }
    }

    #[test]
    fn every_number_field_is_refused_for_its_sign() {
        for layout in &LAYOUTS {
            for (field, form) in (1..).zip(layout.fields) {
                let mut fields = vec!["1"; layout.fields.len()];
                fields[field as usize - 1] = "+1";
                let line = crate::lines::line_of(layout.tag, &fields);
                let expected = if form.is_text() {
                    (0, 0)
                } else {
                    (SIGNED_NUMBER, field)
                };
                assert_eq!(told(std::str::from_utf8(&line).unwrap()), expected);
            }
        }
    }

    #[test]
    fn only_the_first_byte_of_a_field_decides() {
        for line in ["LF:+", "LF:++1", "LF:+\r\n", "LF:+x", "LF:+4294967296"] {
            assert_eq!(told(line), (19, 1), "{line}");
        }
        assert_eq!(told("BRDA:1,0,0,+-"), (19, 4));
        assert_eq!(told("BRDA:1,0,0,-+"), (5, 4));
        assert_eq!(told("LF: +1"), (5, 1));
        assert_eq!(told("LF:"), (4, 1));
    }

    #[test]
    fn the_first_field_that_is_refused_is_told() {
        assert_eq!(told("DA:x,+1"), (5, 1));
        assert_eq!(told("DA:,+1"), (4, 1));
        assert_eq!(told("DA:4294967296,+1"), (6, 1));
        assert_eq!(told("DA:+1,x"), (19, 1));
        assert_eq!(told("DA:+1"), (19, 1));
        assert_eq!(told("FN:+1"), (19, 1));
        assert_eq!(told("BRDA:+1,x,,+"), (19, 1));
        assert_eq!(told("BRDA:1,+2"), (19, 2));
        assert_eq!(told("BRDA:1,2,3,+4,5"), (19, 4));
        assert_eq!(told("LF:+1,2"), (19, 1));
        assert_eq!(told("LF:1,+2"), (3, 0));
        assert_eq!(told("XX:+1"), (1, 0));
    }

    #[test]
    fn texts_may_begin_with_a_plus_sign() {
        for line in [
            "TN:+5",
            "SF:+a",
            "FN:1,+f",
            "FN:1,+2,f",
            "FNDA:1,+",
            "DA:1,2,+5",
            "end_of_record:+1",
            "end_of_record",
        ] {
            assert_eq!(told(line), (0, 0), "{line}");
        }
    }
}
