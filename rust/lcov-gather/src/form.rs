//! The form of a line: its tag, its fields, and where they stand in it.

use self::Field::{Count, Small, Text};
use crate::forms::is_negative;
use crate::record::begins_with_end;
use std::ops::Range;

/// A tag and its fields.
#[derive(Debug, Clone, Copy, PartialEq, Eq)]
pub struct Form {
    pub tag: &'static str,
    pub fields: &'static [Field],
}

#[derive(Debug, Clone, Copy, PartialEq, Eq)]
pub enum Field {
    /// A number of 32 bits.
    Small(&'static str),
    /// A number of 64 bits: how often something ran.
    Count(&'static str),
    /// All that follows.
    Text(&'static str),
}

impl Field {
    fn name(self) -> &'static str {
        match self {
            Field::Small(name) | Field::Count(name) | Field::Text(name) => name,
        }
    }

    /// None where it is no number.
    pub fn greatest(self) -> Option<u64> {
        match self {
            Field::Small(_) => Some(u32::MAX.into()),
            Field::Count(_) => Some(u64::MAX),
            Field::Text(_) => None,
        }
    }

    /// Whether it is digits of a number that fits, or below 0 where it counts. What may be missing may be empty.
    fn takes(self, part: &[u8]) -> bool {
        let digits = std::str::from_utf8(part).ok().filter(|_| is_digits(part));
        let number: Option<u64> = digits.and_then(|digits| digits.parse().ok());
        match self {
            END if part.is_empty() => true,
            Field::Count(_) if is_negative(part) => true,
            Field::Text(_) => true,
            _ => number.is_some() && number <= self.greatest(),
        }
    }

    pub fn greatest_in_words(self) -> Option<String> {
        let greatest = self.greatest()?;
        Some(format!("{} is at most {greatest}", self.name()))
    }
}

/// FN gives it or not.
const END: Field = Small("END");

/// In the order of SPEC 2.4.
pub const FORMS: [Form; 13] = [
    form("TN", &[Text("NAME")]),
    form("SF", &[Text("PATH")]),
    form("FN", &[Small("START"), END, Text("NAME")]),
    form("FNDA", &[Count("COUNT"), Text("NAME")]),
    form("FNF", &[Small("FOUND")]),
    form("FNH", &[Small("HIT")]),
    form(
        "BRDA",
        &[
            Small("LINE"),
            Small("BLOCK"),
            Small("BRANCH"),
            Count("TAKEN"),
        ],
    ),
    form("BRF", &[Small("FOUND")]),
    form("BRH", &[Small("HIT")]),
    form("DA", &[Small("LINE"), Count("COUNT"), Text("CHECKSUM")]),
    form("LF", &[Small("FOUND")]),
    form("LH", &[Small("HIT")]),
    form("end_of_record", &[]),
];

/// What lcov 2.3 writes in place of FN and FNDA. The library knows neither; `--as-geninfo` reads them.
pub const NEWER_FORMS: [Form; 2] = [
    form("FNL", &[Small("INDEX"), Small("START"), END]),
    form("FNA", &[Small("INDEX"), Count("COUNT"), Text("NAME")]),
];

const fn form(tag: &'static str, fields: &'static [Field]) -> Form {
    Form { tag, fields }
}

impl Form {
    /// That of the tag of a line.
    pub fn of(line: &[u8]) -> Option<Self> {
        let tag = &line[tag_of(line)];
        FORMS.into_iter().find(|form| form.tag.as_bytes() == tag)
    }

    /// The same of what lcov 2.3 writes.
    pub fn newer(line: &[u8]) -> Option<Self> {
        let tag = &line[tag_of(line)];
        let mut forms = NEWER_FORMS.into_iter();
        forms.find(|form| form.tag.as_bytes() == tag)
    }

    /// Where a line that is not of the form departs from it: at a field that is no such number, or past the last one.
    pub fn fault_in(&self, line: &[u8]) -> (Range<usize>, Option<Field>) {
        for (number, &field) in (1..).zip(self.fields) {
            let part = field_of(line, number);
            if !field.takes(&line[part.clone()]) {
                return (part, Some(field));
            }
        }
        let last = self.fields.len() as u64;
        (field_of(line, last + 1).start..line.len(), None)
    }

    /// The fields that a line of the form has or lacks: an end line only where the line gives one.
    pub fn fields_of(&self, line: &[u8]) -> impl Iterator<Item = Field> {
        let has_end = begins_with_end(&line[field_of(line, 2).start..]);
        let fields = self.fields.iter().copied();
        fields.filter(move |&field| field != END || has_end)
    }

    /// As `DA:LINE,COUNT[,CHECKSUM]`.
    pub fn words(&self) -> String {
        let mut words = self.tag.to_owned();
        for (place, field) in self.fields.iter().enumerate() {
            let name = field.name();
            match (place, name) {
                (0, _) => words += &format!(":{name}"),
                (_, "CHECKSUM" | "END") => words += &format!("[,{name}]"),
                _ => words += &format!(",{name}"),
            }
        }
        words
    }
}

/// The tag's place in a line that has no bytes 10 and 13 at its end.
pub fn tag_of(line: &[u8]) -> Range<usize> {
    let colon = line.iter().position(|&byte| byte == b':');
    0..colon.unwrap_or(line.len())
}

/// The place of a field, from 1, up to the next comma; the line's end where it is missing.
pub fn field_of(line: &[u8], number: u64) -> Range<usize> {
    let body = line.len().min(tag_of(line).end + 1);
    let mut start = body;
    let fields = line[body..].split(|&byte| byte == b',');
    for (place, field) in (1..).zip(fields) {
        if place == number {
            return start..start + field.len();
        }
        start += field.len() + 1;
    }
    line.len()..line.len()
}

pub fn is_digits(part: &[u8]) -> bool {
    !part.is_empty() && part.iter().all(u8::is_ascii_digit)
}

/// What a line has after its last field.
pub fn excess_of(line: &[u8]) -> Range<usize> {
    let fields = Form::of(line).map_or(0, |form| form.fields.len());
    field_of(line, fields as u64 + 1).start..line.len()
}

#[cfg(test)]
mod tests {
    use super::*;
    use lcov_sys::WORDS;

    fn refusal(line: &str) -> (u32, u64) {
        let mut answer = [0; WORDS];
        (lcov_sys::read_line(line.as_bytes(), &mut answer), answer[2])
    }

    /// The library takes each form with its fields, and refuses one field less (2) or more (3) where no text ends the line.
    #[test]
    fn the_forms_are_those_of_the_library() {
        for form in FORMS {
            let needed: Vec<&str> = form
                .fields
                .iter()
                .filter(|field| !matches!(field.name(), "CHECKSUM" | "END"))
                .map(|_| "1")
                .collect();
            let line = |fields: &[&str]| format!("{}:{}", form.tag, fields.join(","));
            assert_eq!(refusal(&line(&needed)).0, 0, "{form:?}");
            if let Some((_, fewer @ [_, ..])) = needed.split_last() {
                let missing = (2, needed.len() as u64);
                assert_eq!(refusal(&line(fewer)), missing, "{form:?}");
            }
            if let Some(Small(_) | Count(_)) = form.fields.last() {
                let more = [&needed[..], &["1"]].concat();
                assert_eq!(refusal(&line(&more)).0, 3, "{form:?}");
                let mut great = needed.clone();
                for (place, field) in form.fields.iter().enumerate() {
                    great[place] = match field {
                        Small(_) => "4294967295",
                        _ => "18446744073709551615",
                    };
                }
                assert_eq!(refusal(&line(&great)).0, 0, "{form:?}");
            }
        }
    }

    #[test]
    fn words_of_forms() {
        let words = |line: &str| Form::of(line.as_bytes()).map(|form| form.words());
        assert_eq!(words("DA:1").unwrap(), "DA:LINE,COUNT[,CHECKSUM]");
        assert_eq!(words("BRDA").unwrap(), "BRDA:LINE,BLOCK,BRANCH,TAKEN");
        assert_eq!(words("FN:1").unwrap(), "FN:START[,END],NAME");
        assert_eq!(words("end_of_record").unwrap(), "end_of_record");
        assert_eq!(words("da:1"), None);
    }

    #[test]
    fn where_a_newer_line_departs_from_its_form() {
        for (line, part, field) in [
            ("FNL:x,1", 4..5, Some("INDEX")),
            ("FNL:1,4294967296", 6..16, Some("START")),
            ("FNL:1,+2,3", 6..8, Some("START")),
            ("FNL:1", 5..5, Some("START")),
            ("FNL:1,2,x", 8..9, Some("END")),
            ("FNL:1,2,3,4,5", 10..13, None),
            ("FNL", 3..3, Some("INDEX")),
            ("FNA:1,-2x,f", 6..9, Some("COUNT")),
            ("FNA:1,-2", 8..8, None),
        ] {
            let form = Form::newer(line.as_bytes()).unwrap();
            let (wrong, of) = form.fault_in(line.as_bytes());
            assert_eq!((wrong, of.map(Field::name)), (part, field), "{line}");
        }
        assert_eq!(Form::newer(b"FN:1,f"), None);
    }

    #[test]
    fn the_end_line_is_a_field_where_it_is_given() {
        let names = |line: &str| {
            let fields = Form::of(line.as_bytes())
                .unwrap()
                .fields_of(line.as_bytes());
            fields.map(Field::name).collect::<Vec<_>>()
        };
        assert_eq!(names("FN:1,2,f"), ["START", "END", "NAME"]);
        for line in ["FN:1,f", "FN:1,2", "FN:1,2x,f", "FN:1", "FN"] {
            assert_eq!(names(line), ["START", "NAME"], "{line}");
        }
        assert_eq!(names("DA:1,2,3"), ["LINE", "COUNT", "CHECKSUM"]);
    }

    #[test]
    fn places_of_fields() {
        assert_eq!(field_of(b"DA:12,3,x", 1), 3..5);
        assert_eq!(field_of(b"DA:12,3,x", 2), 6..7);
        assert_eq!(field_of(b"DA:12", 2), 5..5);
        assert_eq!(field_of(b"DA", 1), 2..2);
        assert_eq!(field_of(b"DA:,", 2), 4..4);
        assert_eq!(excess_of(b"LF:1,2,3"), 5..8);
        assert_eq!(tag_of(b"abc"), 0..3);
    }
}
