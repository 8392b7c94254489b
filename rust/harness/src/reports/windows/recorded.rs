//! Recorded windows over bundles and what the call answers for them: the harness asks the port for it.

use crate::files::Files;
use crate::interface::WORDS_PER_ENTRY;
use crate::reports::bundles;
use crate::reports::recorded::{self, files_of, Sizes, FIRST};
use crate::reports::systematic::ascending;
use crate::reports::Asked;

/// The folder in tests/.
pub const FOLDER: &str = "windows";

/// What the call is asked.
#[derive(Debug, PartialEq, Eq)]
pub struct Question {
    pub width: u32,
    pub sizes: Sizes,
    pub bundle: Vec<u8>,
}

/// So many numbers stand before the bundle.
const NUMBERS: usize = 3;

impl Question {
    /// With the sizes of the program `gather`.
    fn usual(width: u32, bundle: Vec<u8>) -> Self {
        Question {
            width,
            sizes: Sizes::OF_PROGRAM,
            bundle,
        }
    }

    /// Width, words of scratch and bytes of output, as the numbers of a bundle, then the bundle.
    fn encoded(&self) -> Vec<u8> {
        let mut bytes = Vec::new();
        for number in [self.width as usize, self.sizes.words, self.sizes.room] {
            bundles::put(&mut bytes, number);
        }
        bytes.extend_from_slice(&self.bundle);
        bytes
    }

    pub fn decoded(bytes: &[u8]) -> Option<Self> {
        let [width, words, room] = [0, 1, 2].map(|place| bundles::number(bytes, place));
        Some(Question {
            width: width?,
            sizes: Sizes {
                words: words? as usize,
                room: room? as usize,
            },
            bundle: bytes.get(NUMBERS * bundles::WORD..)?.to_vec(),
        })
    }

    fn answer(&self) -> Vec<u8> {
        self.sizes.told(Asked::Windows(self.width, &self.bundle))
    }
}

pub struct Recorded {
    /// The files' without its end.
    pub name: &'static str,
    pub asked: Question,
}

pub fn files() -> Files {
    let all = all().into_iter();
    files_of(all.map(|Recorded { name, asked }| (name, asked.encoded(), asked.answer())))
}

const LINE: &str = "SF:a\nDA:1,1\nend_of_record\n";
const OTHER_LINE: &str = "SF:a\nDA:2,0\nend_of_record\n";
const OTHER_SECTION: &str = "SF:b\nDA:1,1\nend_of_record\n";
const THIRD_SECTION: &str = "SF:c\nDA:1,1\nend_of_record\n";
const CHECKSUM: &str = "DA:1,1,p\nend_of_record\n";
const OTHER_CHECKSUM: &str = "DA:1,1,q\nend_of_record\n";
const UNREADABLE: &str = "x\n";

/// Name, width and texts.
type Row = (&'static str, u32, Vec<&'static str>);

pub fn all() -> Vec<Recorded> {
    let rows = [lines(), refused_windows(), refusals()].concat();
    let mut all: Vec<Recorded> = rows
        .into_iter()
        .map(|(name, width, texts)| Recorded {
            name,
            asked: Question::usual(width, bundles::of(&texts)),
        })
        .collect();
    all.extend(limits());
    all.extend(other_sizes());
    let one_number = 1u32.to_le_bytes();
    for (name, asked) in [
        ("empty-input", Question::usual(1, Vec::new())),
        ("malformed-first", Question::usual(0, one_number.to_vec())),
        ("overlapping", Question::usual(2, overlapping())),
    ] {
        all.push(Recorded { name, asked });
    }
    all
}

fn lines() -> Vec<Row> {
    vec![
        ("lines-moved", 2, vec![LINE, LINE, OTHER_LINE, OTHER_LINE]),
        (
            "two-sections",
            16,
            vec![
                "SF:a\nFN:1,f\nFNDA:1,f\nBRDA:1,0,0,1\nDA:1,1\nend_of_record\n",
                OTHER_SECTION,
            ],
        ),
        ("no-lines", 1, vec!["", LINE]),
        ("no-texts", 1, vec![]),
        (
            "hit-by-the-other",
            2,
            vec!["SF:a\nDA:2,7\nend_of_record\n", OTHER_LINE, OTHER_LINE],
        ),
        (
            "spelled-twice",
            2,
            vec![
                "SF:a//b\nDA:1,0\nend_of_record\n",
                "SF:a/b\nDA:1,1\nend_of_record\n",
                "SF:a-b\nDA:1,1\nend_of_record\n",
            ],
        ),
        (
            "untrue-totals",
            1,
            vec!["SF:a\nLF:7\nLH:7\nDA:1,0\nend_of_record\n"],
        ),
        ("latest-alone", 1, vec![LINE, "", OTHER_LINE]),
    ]
}

/// Where a window is refused, and where the width alone is.
fn refused_windows() -> Vec<Row> {
    let checksums = vec![LINE, CHECKSUM, LINE, OTHER_CHECKSUM];
    vec![
        ("no-width", 0, vec![]),
        ("too-wide", 17, vec![UNREADABLE]),
        ("widest-number", u32::MAX, vec![LINE]),
        ("whole-indexes", 1, vec![LINE, LINE, UNREADABLE]),
        ("first-window", 3, checksums.clone()),
        ("narrow-window", 2, checksums),
        (
            "first-of-two",
            2,
            vec![LINE, CHECKSUM, OTHER_CHECKSUM, UNREADABLE],
        ),
        (
            "starts-differ",
            2,
            vec!["FN:3,f\nend_of_record\n", "FN:4,f\nend_of_record\n"],
        ),
    ]
}

/// Each refusal of a text and of a merge, where the window has neither all texts nor the last alone.
fn refusals() -> Vec<Row> {
    let refusals = recorded::refusals().into_iter();
    refusals
        .map(|(name, texts)| {
            (
                name,
                3,
                [&[OTHER_SECTION, THIRD_SECTION], &texts[..]].concat(),
            )
        })
        .collect()
}

/// Each limit from both sides.
fn limits() -> impl Iterator<Item = Recorded> {
    let joined = |entries| bundles::of(&[&ascending(entries)[..], FIRST.as_bytes()]);
    let eighteen: Vec<String> = (1..=18)
        .map(|line| format!("SF:a\nDA:{line},1\nend_of_record\n"))
        .collect();
    [
        ("64-texts", 16, bundles::of(&[FIRST; 64])),
        ("65-texts", 16, bundles::of(&[FIRST; 65])),
        ("widest", 16, bundles::of(&eighteen)),
        ("256-entries", 1, bundles::of(&[ascending(256)])),
        ("257-entries", 1, bundles::of(&[ascending(257)])),
        ("256-joined", 2, joined(252)),
        ("257-joined", 2, joined(253)),
        ("257-apart", 1, joined(253)),
    ]
    .into_iter()
    .map(|(name, width, bundle)| Recorded {
        name,
        asked: Question::usual(width, bundle),
    })
}

/// Scratch for four entries and for 1,001, and outputs that hold the lines or not.
fn other_sizes() -> impl Iterator<Item = Recorded> {
    let usual = Sizes::OF_PROGRAM;
    let for_entries = |entries| Sizes {
        words: entries * WORDS_PER_ENTRY,
        ..usual
    };
    let sections = bundles::of(&[LINE, OTHER_SECTION, THIRD_SECTION]);
    let with_room = |room| Sizes { room, ..usual };
    let twice = bundles::of(&[LINE; 2]);
    [
        ("own-limit", 2, for_entries(4), sections.clone()),
        ("wider-limit", 3, for_entries(4), sections),
        ("no-room", 1, with_room(7), twice.clone()),
        ("room", 1, with_room(8), twice),
        (
            "thousand-lines",
            1,
            for_entries(1001),
            bundles::of(&[ascending(1001)]),
        ),
    ]
    .into_iter()
    .map(|(name, width, sizes, bundle)| Recorded {
        name,
        asked: Question {
            width,
            sizes,
            bundle,
        },
    })
}

/// Texts that share bytes: both sections, the first, and the second.
fn overlapping() -> Vec<u8> {
    let bytes = [LINE, OTHER_SECTION].concat();
    let (first, second) = (LINE.len(), OTHER_SECTION.len());
    bundles::encoded(
        bytes.as_bytes(),
        &[(0, first + second), (0, first), (first, second)],
    )
}

#[cfg(test)]
mod tests {
    use super::*;
    use std::collections::{HashMap, HashSet};

    fn answers() -> HashMap<&'static str, String> {
        oracle::hush_overflow();
        let answers = all().into_iter().map(|recorded| {
            let answer = String::from_utf8(recorded.asked.answer()).unwrap();
            (recorded.name, answer)
        });
        answers.collect()
    }

    #[test]
    fn a_question_is_read_again() {
        for Recorded { name, asked } in all() {
            assert_eq!(Question::decoded(&asked.encoded()), Some(asked), "{name}");
        }
        assert_eq!(Question::decoded(&[0; 11]), None);
    }

    #[test]
    fn every_refusal_of_the_call_is_recorded() {
        let answers = answers();
        assert_eq!(answers.len(), all().len(), "names are distinct");
        let number = |answer: &String| {
            let refused = answer.strip_prefix("refused ")?;
            refused.split(' ').next()?.parse().ok()
        };
        let numbers: HashSet<u32> = answers.values().filter_map(number).collect();
        let expected = (1..=14).chain([16, 19, 23, 24, 25]);
        assert_eq!(numbers, HashSet::from_iter(expected));
    }

    /// Those of docs/DECISIONS.md, and others.
    #[test]
    fn answers_that_a_reader_can_tell() {
        let answers = answers();
        for (name, expected) in [
            ("lines-moved", "1/1\n1/1\n1/2\n0/1\n"),
            ("two-sections", "1/1\n2/2\n"),
            ("no-lines", "0/0\n1/1\n"),
            ("own-limit", "1/1\n2/2\n2/2\n"),
            ("wider-limit", "refused 10 2 0 0 0\n"),
            ("no-texts", ""),
            ("no-width", "refused 24 0 0 0 0\n"),
            ("too-wide", "refused 24 0 0 0 0\n"),
            ("widest-number", "refused 24 0 0 0 0\n"),
            ("malformed-first", "refused 16 0 0 0 0\n"),
            ("empty-input", "refused 16 0 0 0 0\n"),
            ("whole-indexes", "refused 1 2 1 0 0\n"),
            ("first-window", "refused 12 3 0 0 0\n"),
            ("narrow-window", "1/1\n2/2\n2/2\n2/2\n"),
            ("first-of-two", "refused 12 2 0 0 0\n"),
            ("starts-differ", "refused 11 1 0 0 0\n"),
            ("no-room", "refused 14 0 0 0 8\n"),
            ("room", "1/1\n1/1\n"),
            ("hit-by-the-other", "1/1\n1/1\n0/1\n"),
            ("spelled-twice", "0/1\n1/1\n2/2\n"),
            ("untrue-totals", "0/1\n"),
            ("latest-alone", "1/1\n0/0\n0/1\n"),
            ("overlapping", "2/2\n2/2\n2/2\n"),
            ("thousand-lines", "1000/1000\n"),
            ("refused-11", "refused 11 3 0 0 0\n"),
            ("refused-13-branch", "refused 13 4 0 0 0\n"),
            ("257-entries", "refused 10 0 257 0 0\n"),
            ("257-joined", "refused 10 1 0 0 0\n"),
            ("65-texts", "refused 16 0 0 0 0\n"),
        ] {
            assert_eq!(answers[name], expected, "{name}");
        }
        for fits in ["64-texts", "256-entries", "256-joined", "257-apart"] {
            assert!(!answers[fits].starts_with("refused"), "{fits}");
        }
        assert!(answers["widest"].ends_with("\n15/15\n16/16\n16/16\n16/16\n"));
    }
}
