//! The house's tags (`--tags`): a file is read with the default tags in their place, and the result is written with them.
//!
//! Only the tag of a line is changed, so that lines keep their numbers and their fields.

use crate::record::without_end;
use lcov_sys::{DEFAULT_TAG_NAMES, KINDS, TAG_SLOT};
use memchr::{memchr, memchr2};

/// A default tag that is no house's tag gets this byte before it: the library then refuses the line with 1, as under a lent table.
const UNKNOWN: u8 = b'?';

/// A tag with zeros behind it, and its length, so that two are compared as numbers.
#[derive(Debug, Clone, Copy, PartialEq, Eq)]
struct Tag {
    bytes: u128,
    len: usize,
}

impl Tag {
    /// None where it does not fit a slot.
    fn of(tag: &[u8]) -> Option<Self> {
        let mut slot = [0; TAG_SLOT];
        slot.get_mut(..tag.len())?.copy_from_slice(tag);
        Some(Tag {
            bytes: u128::from_le_bytes(slot),
            len: tag.len(),
        })
    }
}

/// What stands in place of each tag; other tags stay.
#[derive(Debug)]
struct Translation(Vec<(Tag, Vec<u8>)>);

impl Translation {
    fn of<'a>(pairs: impl Iterator<Item = (&'a [u8], Vec<u8>)>) -> Self {
        Translation(
            pairs
                .filter_map(|(tag, other)| Some((Tag::of(tag)?, other)))
                .collect(),
        )
    }

    fn find(&self, tag: &[u8]) -> Option<&[u8]> {
        let tag = Tag::of(tag)?;
        let found = self.0.iter().find(|(known, _)| *known == tag);
        found.map(|(_, other)| &other[..])
    }

    /// The lines of a text with other tags.
    fn translated(&self, text: &[u8]) -> Vec<u8> {
        let mut changed = Vec::with_capacity(text.len() + text.len() / 8);
        let mut rest = text;
        while !rest.is_empty() {
            let (tag, len) = first_line(rest);
            changed.extend_from_slice(self.find(tag).unwrap_or(tag));
            changed.extend_from_slice(&rest[tag.len()..len]);
            rest = &rest[len..];
        }
        changed
    }
}

/// The tag of a text's first line, which is what stands before the first colon or else the line, and the length of the line.
fn first_line(text: &[u8]) -> (&[u8], usize) {
    let len_from =
        |start: usize| memchr(b'\n', &text[start..]).map_or(text.len(), |end| start + end + 1);
    match memchr2(b':', b'\n', text) {
        Some(colon) if text[colon] == b':' => (&text[..colon], len_from(colon)),
        found => (
            without_end(&text[..found.unwrap_or(text.len())]),
            len_from(found.unwrap_or(text.len())),
        ),
    }
}

/// A tag for each kind of record.
#[derive(Debug)]
pub struct Tags {
    read: Translation,
    written: Translation,
}

impl Tags {
    /// No two tags are equal, each has 1 to 16 bytes, and none has byte 10, byte 13 or a colon.
    pub fn new(house: [&[u8]; KINDS]) -> Self {
        let default = DEFAULT_TAG_NAMES.map(str::as_bytes);
        let mut pairs: Vec<(&[u8], &[u8])> = house.into_iter().zip(default).collect();
        // What most lines have is found first.
        pairs.sort_by_key(|&(_, default)| !matches!(default, b"DA" | b"BRDA"));
        let known = pairs.iter().map(|(own, default)| (*own, default.to_vec()));
        let unknown = default.into_iter().filter(|tag| !house.contains(tag));
        let unknown = unknown.map(|tag| (tag, [&[UNKNOWN], tag].concat()));
        Tags {
            read: Translation::of(known.chain(unknown)),
            written: Translation::of(pairs.iter().map(|(own, default)| (*default, own.to_vec()))),
        }
    }

    /// A text of the house with the default tags.
    pub fn read(&self, text: &[u8]) -> Vec<u8> {
        self.read.translated(text)
    }

    /// A text that the library printed, with the house's tags.
    pub fn write(&self, text: &[u8]) -> Vec<u8> {
        self.written.translated(text)
    }
}

#[cfg(test)]
mod tests {
    use super::*;

    /// The default tags with some others in their place.
    fn tags(others: &[(&str, &'static [u8])]) -> Tags {
        let house = DEFAULT_TAG_NAMES.map(|name| {
            let other = others.iter().find(|(tag, _)| *tag == name);
            other.map_or(name.as_bytes(), |(_, other)| other)
        });
        Tags::new(house)
    }

    #[test]
    fn the_tag_of_each_line_is_replaced_and_nothing_else() {
        let house = tags(&[
            ("DA", b"line"),
            ("end_of_record", b"end"),
            ("SF", b"source"),
        ]);
        let text = b"TN:line:DA\nsource:line:1\r\nline:1,1\nline:2,1,DA\n\nlineDA:1\nend\r\nline";
        let read = b"TN:line:DA\nSF:line:1\r\nDA:1,1\nDA:2,1,DA\n\nlineDA:1\nend_of_record\r\nDA";
        assert_eq!(house.read(text), read);
        assert_eq!(
            house.write(b"TN:\nSF:DA:1\nDA:1,2\nend_of_record\n"),
            b"TN:\nsource:DA:1\nline:1,2\nend\n"
        );
        assert_eq!(house.read(b""), b"");
    }

    #[test]
    fn a_default_tag_that_the_house_lacks_becomes_unknown() {
        let house = tags(&[("DA", b"line"), ("LF", b"LH"), ("LH", b"LF")]);
        let read = house.read(b"DA:1,1\nDA\r\nLF:1\nLH:2\nDAx:1\nBRDA:1,0,0,-\n");
        assert_eq!(read, b"?DA:1,1\n?DA\r\nLH:1\nLF:2\nDAx:1\nBRDA:1,0,0,-\n");
        let mut answer = [0; lcov_sys::WORDS];
        for tag in DEFAULT_TAG_NAMES {
            let unknown = format!("?{tag}");
            assert_eq!(
                lcov_sys::read_line(unknown.as_bytes(), &mut answer),
                1,
                "{tag}"
            );
        }
    }

    #[test]
    fn tags_are_compared_by_their_length_and_all_bytes() {
        let house = tags(&[
            ("TN", b"F"),
            ("SF", b"FN,"),
            ("FNF", b"A"),
            ("FNH", b"A\0"),
            ("DA", b"0123456789abcdef"),
            ("LF", b" "),
            ("LH", b"\xff\xfe"),
        ]);
        let text = b"F:F\nFN,:x\nA:1\nA\0:2\n0123456789abcdef:3,4\n0123456789abcdefg:5\n :6\n\xff\xfe:7\nA\0\0:8\n:9\n";
        let read =
            b"TN:F\nSF:x\nFNF:1\nFNH:2\nDA:3,4\n0123456789abcdefg:5\nLF:6\nLH:7\nA\0\0:8\n:9\n";
        assert_eq!(house.read(text), read);
    }

    #[test]
    fn what_is_written_is_read_back() {
        let house = tags(&[
            ("TN", b"SF"),
            ("SF", b"TN"),
            ("DA", b"BRDA"),
            ("BRDA", b"DA"),
        ]);
        let text = b"TN:a\nSF:b\nBRDA:1,0,0,-\nDA:1,2\nend_of_record\n";
        let written = house.write(text);
        assert_eq!(
            written,
            b"SF:a\nTN:b\nDA:1,0,0,-\nBRDA:1,2\nend_of_record\n"
        );
        assert_eq!(house.read(&written), text);
    }
}
