//! Questions and answers in other tags.

use super::tables::Tags;
use crate::lines::trimmed;
use crate::reports::bundles::{self, Sent};
use lcov_sys::DEFAULT_TAG_NAMES;

/// Too long for a tag, so that no table has it.
const UNKNOWN: &[u8] = b"a tag of no table";

/// What stands in place of a tag.
pub trait Change {
    fn tag<'a>(&'a self, tag: &'a [u8]) -> &'a [u8];

    /// A line by itself, with its end. A text in it may have byte 10.
    fn line(&self, line: &[u8]) -> Vec<u8> {
        let bare = trimmed(line);
        let colon = bare.iter().position(|&byte| byte == b':');
        let (tag, rest) = line.split_at(colon.unwrap_or(bare.len()));
        [self.tag(tag), rest].concat()
    }

    fn text(&self, text: &[u8]) -> Vec<u8> {
        let lines = text.split_inclusive(|&byte| byte == b'\n');
        lines.flat_map(|line| self.line(line)).collect()
    }

    /// Its texts one after another, since they may overlap. One that is not well formed stays.
    fn bundle(&self, bundle: &[u8]) -> Vec<u8> {
        let Some(texts) = bundles::decoded(bundle) else {
            return bundle.to_vec();
        };
        let texts: Vec<Vec<u8>> = texts.into_iter().map(|text| self.text(text)).collect();
        bundles::of(&texts)
    }

    /// So with revisions; runs and revisions stay.
    fn revisions(&self, bundle: &[u8]) -> Vec<u8> {
        let Some(sent) = bundles::decoded_revisions(bundle) else {
            return bundle.to_vec();
        };
        let changed = sent.into_iter().map(|sent| Sent {
            text: self.text(sent.text),
            run: sent.run,
            revision: sent.revision,
        });
        bundles::of_revisions(&changed.collect::<Vec<_>>())
    }
}

/// From default tags to those of a table.
pub struct Outwards<'a>(pub Tags<'a>);

impl Change for Outwards<'_> {
    fn tag<'a>(&'a self, tag: &'a [u8]) -> &'a [u8] {
        kind_of(&DEFAULT_TAG_NAMES.map(str::as_bytes), tag).map_or(tag, |kind| self.0[kind])
    }
}

/// From the tags of a table to default ones. A default tag that the table lacks is unknown.
pub struct Inwards<'a>(pub Tags<'a>);

impl Change for Inwards<'_> {
    fn tag<'a>(&'a self, tag: &'a [u8]) -> &'a [u8] {
        let default = DEFAULT_TAG_NAMES.map(str::as_bytes);
        match (kind_of(&self.0, tag), kind_of(&default, tag)) {
            (Some(kind), _) => default[kind],
            (None, Some(_)) => UNKNOWN,
            (None, None) => tag,
        }
    }
}

fn kind_of(tags: &Tags, tag: &[u8]) -> Option<usize> {
    tags.iter().position(|known| *known == tag)
}

#[cfg(test)]
mod tests {
    use super::*;
    use crate::tagged::tables::HOUSE;

    #[test]
    fn tags_of_lines_texts_and_bundles() {
        let text = b"TN:DA:1\r\nSF\nDA:1,1\nx:1\n\nend_of_record";
        let house = b"test:DA:1\r\nfile\nline:1,1\nx:1\n\nend";
        assert_eq!(Outwards(HOUSE).text(text), house);
        assert_eq!(Inwards(HOUSE).text(house), text);
        assert_eq!(Inwards(HOUSE).text(b"DA:1\n"), b"a tag of no table:1\n");
        let overlapping = bundles::encoded(text, &[(0, 9), (0, 12)]);
        let expected = bundles::of(&[&b"test:DA:1\r\n"[..], b"test:DA:1\r\nfile\n"]);
        assert_eq!(Outwards(HOUSE).bundle(&overlapping), expected);
        assert_eq!(Outwards(HOUSE).bundle(b"DA:1"), b"DA:1");
        let revised = |text: &'static [u8]| {
            bundles::of_revisions(&[Sent {
                run: 7,
                revision: 9,
                text,
            }])
        };
        assert_eq!(Outwards(HOUSE).revisions(&revised(text)), revised(house));
        assert_eq!(Outwards(HOUSE).revisions(b"DA:1"), b"DA:1");
    }

    #[test]
    fn a_line_by_itself_may_have_byte_10() {
        assert_eq!(Outwards(HOUSE).line(b"TN:a\nDA:1\n"), b"test:a\nDA:1\n");
        assert_eq!(Outwards(HOUSE).line(b"DA\n\r\n"), b"line\n\r\n");
        assert_eq!(Outwards(HOUSE).line(b"DA\n:1"), b"DA\n:1");
    }
}
