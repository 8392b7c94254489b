//! Tables of tags.

use crate::{KINDS, TAGS_LEN, TAG_SLOT};

/// The tags that a call without a table reads and prints, in the order of a table.
pub const DEFAULT_TAG_NAMES: [&str; KINDS] = [
    "TN",
    "SF",
    "FN",
    "FNDA",
    "FNF",
    "FNH",
    "BRDA",
    "BRF",
    "BRH",
    "DA",
    "LF",
    "LH",
    "end_of_record",
];

/// Their table.
pub const DEFAULT_TAGS: [u8; TAGS_LEN] = default_tags();

/// A table of tags, in the order of [`DEFAULT_TAG_NAMES`]; none where one is empty or longer than [`TAG_SLOT`]. What else is wrong in it the
/// calls refuse: byte 10, byte 13 or `:` in a tag (21), or two equal tags (22).
pub const fn make_tags(tags: [&[u8]; KINDS]) -> Option<[u8; TAGS_LEN]> {
    let mut table = [0; TAGS_LEN];
    let mut kind = 0;
    while kind < KINDS {
        let len = tags[kind].len();
        if len == 0 || len > TAG_SLOT {
            return None;
        }
        table[kind] = len as u8;
        let mut at = 0;
        while at < len {
            table[KINDS + TAG_SLOT * kind + at] = tags[kind][at];
            at += 1;
        }
        kind += 1;
    }
    Some(table)
}

const fn default_tags() -> [u8; TAGS_LEN] {
    let mut tags: [&[u8]; KINDS] = [b""; KINDS];
    let mut kind = 0;
    while kind < KINDS {
        tags[kind] = DEFAULT_TAG_NAMES[kind].as_bytes();
        kind += 1;
    }
    match make_tags(tags) {
        Some(table) => table,
        None => panic!("a default tag does not fit its slot"),
    }
}

#[cfg(test)]
mod tests {
    use super::*;

    const HEADER: &str = include_str!("../../../include/lcov.h");

    /// The bytes of LCOV_DEFAULT_TAGS.
    fn in_the_header() -> Vec<u8> {
        let (_, after) = HEADER.split_once("#define LCOV_DEFAULT_TAGS").unwrap();
        let (listed, _) = after.split_once('}').unwrap();
        let items = listed.split(|letter: char| letter == ',' || letter.is_whitespace());
        let items = items.filter(|item| !matches!(*item, "" | "\\" | "{"));
        let byte = |item: &str| match item.as_bytes() {
            [b'\'', letter, b'\''] => *letter,
            _ => item.parse().unwrap(),
        };
        items.map(byte).collect()
    }

    #[test]
    fn the_default_table_is_that_of_the_header() {
        assert_eq!(DEFAULT_TAGS.to_vec(), in_the_header());
    }

    #[test]
    fn tags_stand_in_their_slots_behind_the_lengths() {
        let mut tags: [&[u8]; KINDS] = DEFAULT_TAG_NAMES.map(str::as_bytes);
        tags[1] = b"\0,:\xff";
        tags[12] = b"0123456789abcdef";
        let table = make_tags(tags).unwrap();
        assert_eq!(table[..KINDS], [2, 4, 2, 4, 3, 3, 4, 3, 3, 2, 2, 2, 16]);
        assert_eq!(&table[13..31], b"TN\0\0\0\0\0\0\0\0\0\0\0\0\0\0\0,");
        assert_eq!(&table[29..45], b"\0,:\xff\0\0\0\0\0\0\0\0\0\0\0\0");
        assert_eq!(&table[205..], b"0123456789abcdef");
    }

    #[test]
    fn what_does_not_fit_a_slot_makes_no_table() {
        for kind in 0..KINDS {
            for wrong in [&b""[..], b"0123456789abcdefg"] {
                let mut tags = DEFAULT_TAG_NAMES.map(str::as_bytes);
                tags[kind] = wrong;
                assert_eq!(make_tags(tags), None);
            }
        }
    }
}
