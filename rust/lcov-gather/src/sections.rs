//! The sections of what the library wrote.

use crate::piece::{Origin, Text};

const END: &[u8] = b"\nend_of_record\n";

/// Each as it is printed (SPEC 6.1): TN, SF, records, end_of_record. No other line begins with those letters.
pub fn printed_sections(report: &[u8]) -> impl Iterator<Item = &[u8]> {
    let mut rest = report;
    let finder = memchr::memmem::Finder::new(END);
    std::iter::from_fn(move || {
        let len = finder.find(rest).map_or(rest.len(), |at| at + END.len());
        let (section, later) = rest.split_at(len);
        rest = later;
        (len > 0).then_some(section)
    })
}

/// One of them as a text that was gathered before.
pub fn joined_text(section: &[u8], lines: usize) -> Text<'_> {
    let (test, path) = key_of(section);
    Text {
        origin: Origin::Joined,
        test: Some(test),
        path,
        body: body_of(section),
        runs: (b"", &[]),
        entries: lines,
    }
}

/// Test name and path.
pub fn key_of(section: &[u8]) -> (&[u8], &[u8]) {
    let (test, body) = first_line(section);
    (after(b"TN:", test), after(b"SF:", first_line(body).0))
}

/// What follows the TN line.
pub fn body_of(section: &[u8]) -> &[u8] {
    first_line(section).1
}

/// The second line of a printed section is its SF.
pub fn path_of(section: &[u8]) -> &[u8] {
    key_of(section).1
}

fn first_line(text: &[u8]) -> (&[u8], &[u8]) {
    match memchr::memchr(b'\n', text) {
        Some(end) => (&text[..end], &text[end + 1..]),
        None => (text, &[]),
    }
}

fn after<'a>(tag: &[u8], line: &'a [u8]) -> &'a [u8] {
    line.strip_prefix(tag).unwrap_or(&[])
}

#[cfg(test)]
mod tests {
    use super::*;

    #[test]
    fn sections_with_their_keys() {
        let sections = [
            "TN:\nSF:end_of_record\nFN:1,end_of_record\nend_of_record\n",
            "TN:t\nSF:\nDA:1,1\nend_of_record\n",
            "TN:SF:u\nSF:/a/b\nend_of_record\n",
        ];
        let report = sections.concat();
        let found: Vec<&[u8]> = printed_sections(report.as_bytes()).collect();
        assert_eq!(found, sections.map(str::as_bytes));
        let keys: Vec<_> = found.iter().map(|section| key_of(section)).collect();
        let expected: [(&[u8], &[u8]); 3] =
            [(b"", b"end_of_record"), (b"t", b""), (b"SF:u", b"/a/b")];
        assert_eq!(keys, expected);
        assert_eq!(path_of(found[2]), b"/a/b");
        assert_eq!(printed_sections(b"").count(), 0);
    }

    #[test]
    fn a_section_is_a_text_of_its_own() {
        let section = "TN:t\nSF:x\nDA:1,1\nend_of_record\n";
        let text = joined_text(section.as_bytes(), 4);
        let mut bytes = Vec::new();
        text.write(&mut bytes);
        assert_eq!(bytes, section.as_bytes());
        assert_eq!((text.test, text.path), (Some(&b"t"[..]), &b"x"[..]));
    }
}
