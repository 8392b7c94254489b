//! The file of `--tags`: thirteen lines, each a default tag, a blank, and the house's tag.

use crate::explain::help;
use crate::failure::Failure;
use crate::record::without_end;
use crate::tags::Tags;
use crate::wrong::{refusal, Wrong};
use lcov_sys::{Fault, DEFAULT_TAG_NAMES, KINDS, TAG_SLOT};
use std::fs;
use std::ops::Range;
use std::path::Path;

pub fn load(path: &Path) -> Result<Tags, Failure> {
    let text = fs::read(path).map_err(|error| Failure::File(path.to_owned(), error))?;
    parse(&text).map_err(|wrong| Failure::Wrong(path.to_owned(), wrong))
}

/// A line of the file, and where the house's tag begins in it.
#[derive(Clone, Copy)]
struct Line<'a> {
    /// From 1.
    number: u64,
    bytes: &'a [u8],
    start: usize,
}

impl<'a> Line<'a> {
    fn new(number: u64, bytes: &'a [u8]) -> Self {
        let bytes = without_end(bytes);
        let blank = bytes.iter().position(|&byte| byte == b' ');
        Line {
            number,
            bytes,
            start: blank.map_or(bytes.len(), |blank| blank + 1),
        }
    }

    fn default_tag(&self) -> &'a [u8] {
        let tag = &self.bytes[..self.start];
        tag.strip_suffix(b" ").unwrap_or(tag)
    }

    fn tag(&self) -> &'a [u8] {
        &self.bytes[self.start..]
    }

    fn wrong(&self, part: Range<usize>, what: &str, advice: &str) -> Wrong {
        Wrong::in_line(self.number, self.bytes, part, what, advice)
    }

    /// Which kind it is for.
    fn kind(&self) -> Result<usize, Wrong> {
        let tag = self.default_tag();
        let kind = DEFAULT_TAG_NAMES
            .iter()
            .position(|name| name.as_bytes() == tag);
        kind.ok_or_else(|| {
            let names = DEFAULT_TAG_NAMES.join(", ");
            let advice = format!("a line is one of {names}, a blank, and the tag in its place");
            self.wrong(0..tag.len(), "the line begins with no default tag", &advice)
        })
    }

    /// Why the library would refuse a table that has the tag.
    fn check(&self) -> Result<(), Wrong> {
        let advice = match self.tag() {
            b"" => "the tag is missing after the blank".to_owned(),
            tag if tag.len() > TAG_SLOT => format!("a tag has at most {TAG_SLOT} bytes"),
            tag if tag.contains(&b':') => "no tag has a colon".to_owned(),
            tag if tag.contains(&b'\r') => "no tag has byte 13".to_owned(),
            _ => return Ok(()),
        };
        let what = refusal(Fault::MalformedTags);
        Err(self.wrong(self.start..self.bytes.len(), &what, &advice))
    }
}

fn parse(text: &[u8]) -> Result<Tags, Wrong> {
    let mut found: [Option<Line>; KINDS] = [None; KINDS];
    for (number, bytes) in (1..).zip(text.split_inclusive(|&byte| byte == b'\n')) {
        let line = Line::new(number, bytes);
        let kind = line.kind()?;
        if let Some(earlier) = found[kind] {
            let advice = format!("line {} has it too", earlier.number);
            let tag = 0..line.default_tag().len();
            return Err(line.wrong(tag, "a default tag comes again", &advice));
        }
        line.check()?;
        found[kind] = Some(line);
    }
    let lines = all(found)?;
    check_different(&lines)?;
    Ok(Tags::new(lines.map(|line| line.tag())))
}

/// Each kind has a line.
fn all(found: [Option<Line>; KINDS]) -> Result<[Line; KINDS], Wrong> {
    let lines: Vec<Line> = found.iter().copied().flatten().collect();
    lines.try_into().map_err(|_| {
        let kinds = DEFAULT_TAG_NAMES.into_iter().zip(found);
        let missing = kinds.filter(|(_, line)| line.is_none());
        let missing: Vec<&str> = missing.map(|(name, _)| name).collect();
        let advice = help("each default tag has a line, also where it stays as it is");
        Wrong {
            line: 0,
            what: format!("no line begins with {}{advice}", missing.join(", ")),
        }
    })
}

/// The first line whose tag an earlier one has.
fn check_different(lines: &[Line; KINDS]) -> Result<(), Wrong> {
    let mut lines = lines.to_vec();
    lines.sort_by_key(|line| line.number);
    for (place, line) in lines.iter().enumerate() {
        let earlier = lines[..place]
            .iter()
            .find(|earlier| earlier.tag() == line.tag());
        if let Some(earlier) = earlier {
            let advice = format!("line {} has the same tag", earlier.number);
            let part = line.start..line.bytes.len();
            return Err(line.wrong(part, &refusal(Fault::EqualTags), &advice));
        }
    }
    Ok(())
}

#[cfg(test)]
mod tests {
    use super::*;

    /// The lines of the default tags, each as its own, with one line in place of another.
    fn with(default: &str, line: &[u8]) -> Vec<u8> {
        let lines = DEFAULT_TAG_NAMES.map(|name| match name == default {
            true => line.to_vec(),
            false => format!("{name} {name}\n").into_bytes(),
        });
        lines.concat()
    }

    fn told(text: &[u8]) -> String {
        parse(text).expect_err("a wrong file").to_string()
    }

    #[test]
    fn the_tag_is_all_behind_the_first_blank() {
        for (line, tag) in [
            (&b"DA  x \n"[..], &b" x "[..]),
            (b"DA x\r\n", b"x"),
            (b"DA ,\n", b","),
            (b"DA \0\n", b"\0"),
            (b"DA \xff\xfe\n", b"\xff\xfe"),
            (b"DA 0123456789abcdef\n", b"0123456789abcdef"),
            (b"DA F\n", b"F"),
        ] {
            let tags = parse(&with("DA", line)).unwrap();
            assert_eq!(tags.write(b"DA:1,1\n"), [tag, b":1,1\n"].concat());
        }
    }

    #[test]
    fn lines_come_in_any_order_and_the_last_needs_no_end() {
        let mut lines: Vec<String> = DEFAULT_TAG_NAMES
            .map(|name| format!("{name} x{name}"))
            .to_vec();
        lines.reverse();
        let tags = parse(lines.join("\r\n").as_bytes()).unwrap();
        assert_eq!(
            tags.read(b"xTN:a\nxend_of_record\n"),
            b"TN:a\nend_of_record\n"
        );
    }

    #[test]
    fn the_first_wrong_line_is_told() {
        for (line, expected) in [
            (&b"da x\n"[..], ":10: the line begins with no default tag\n  10 | da x\n     | ^^\n"),
            (b"\n", ":10: the line begins with no default tag\n  10 | \n     | ^\n"),
            (b" DA x\n", ":10: the line begins with no default tag\n  10 |  DA x\n     | ^\n"),
            (b"TN x\n", ":10: a default tag comes again\n  10 | TN x\n     | ^^\n  help: line 1 has it too"),
            (b"DA\n", ":10: the table of tags is not well formed (refusal 21)\n  10 | DA\n     |   ^\n  help: the tag is missing"),
            (b"DA \r\n", ":10: the table of tags is not well formed (refusal 21)\n  10 | DA \n     |    ^\n  help: the tag is missing"),
            (b"DA a:b\n", ":10: the table of tags is not well formed (refusal 21)\n  10 | DA a:b\n     |    ^^^\n  help: no tag has a colon"),
            (b"DA a\rb\n", ":10: the table of tags is not well formed (refusal 21)\n  10 | DA a\\x0db\n     |    ^^^^^^\n  help: no tag has byte 13"),
            (b"DA 0123456789abcdefg\n", ":10: the table of tags is not well formed (refusal 21)\n  10 | DA 0123456789abcdefg\n     |    ^^^^^^^^^^^^^^^^^\n  help: a tag has at most 16 bytes"),
            (b"DA FN\n", ":10: two tags of the table are equal (refusal 22)\n  10 | DA FN\n     |    ^^\n  help: line 3 has the same tag"),
        ] {
            let told = told(&with("DA", line));
            assert!(told.starts_with(expected), "{told}");
        }
    }

    #[test]
    fn a_missing_line_is_named() {
        assert!(told(&with("DA", b"")).starts_with(": no line begins with DA\n"));
        let told = told(b"DA x\n");
        assert!(
            told.contains("TN, SF, FN, FNDA, FNF, FNH, BRDA, BRF, BRH, LF, LH, end_of_record\n"),
            "{told}"
        );
    }

    /// As the library does: all tags are tried before two are compared.
    #[test]
    fn a_tag_that_is_not_well_formed_is_told_before_equal_ones() {
        let text = with("DA", b"DA TN\n");
        let text = String::from_utf8(text).unwrap().replace("LH LH", "LH a:b");
        assert!(told(text.as_bytes()).starts_with(":12: the table of tags"));
    }

    #[test]
    fn equal_tags_are_compared_by_length_too() {
        let text = with("DA", b"DA TN\0\n");
        assert_eq!(parse(&text).unwrap().write(b"DA:1\n"), b"TN\0:1\n");
    }
}
