//! Recorded bundles with revisions and what the call answers for them with the sizes of the program `gather`: the harness asks the port for it.

use crate::reports::bundles::{self, Sent};
use crate::reports::recorded::{self, printed_as_long_as, Recorded, FIRST, MAX_OUTPUT, SECOND};
use crate::reports::systematic::ascending;

/// The folder in tests/.
pub const FOLDER: &str = "revisions";

/// Run, revision and text.
type Row = (u32, u32, &'static str);

const SPELLED: &str = "SF:a//b\nDA:1,1\nend_of_record\n";
const SPELLED_OTHERWISE: &str = "SF:a/b\nDA:1,2\nend_of_record\n";
const UNREADABLE: &str = "x\n";

pub fn all() -> Vec<Recorded> {
    let rows = [choices(), repeats()].concat();
    let mut all: Vec<Recorded> = rows
        .into_iter()
        .map(|(name, rows)| Recorded {
            name,
            bundle: of(&rows),
        })
        .collect();
    all.extend(refusals());
    all.extend(limits());
    let last_past_the_end = [[0, 5, 1, 2], [1, 5, 1, 1]];
    for (name, bundle) in [
        ("empty-input", Vec::new()),
        ("none", of(&[])),
        (
            "rest-past-the-end",
            bundles::encoded_revisions(b"TN:a\n", &last_past_the_end),
        ),
        (
            "past-the-end-and-repeated",
            bundles::encoded_revisions(b"TN:a\n", &[[0, 5, 1, 2], [1, 5, 1, 2]]),
        ),
        ("without-revisions", bundles::of(&[FIRST])),
    ] {
        all.push(Recorded { name, bundle });
    }
    all
}

fn of(rows: &[Row]) -> Vec<u8> {
    let sent = |&(run, revision, text)| Sent {
        run,
        revision,
        text,
    };
    bundles::of_revisions(&rows.iter().map(sent).collect::<Vec<_>>())
}

/// Which texts are gathered.
fn choices() -> Vec<(&'static str, Vec<Row>)> {
    vec![
        ("replaced", vec![(1, 1, SPELLED), (1, 2, SPELLED_OTHERWISE)]),
        (
            "replaced-before",
            vec![(1, 2, SPELLED), (1, 1, SPELLED_OTHERWISE)],
        ),
        (
            "rest-unreadable",
            vec![
                (1, 1, UNREADABLE),
                (2, 5, FIRST),
                (1, 9, SECOND),
                (2, 0, UNREADABLE),
            ],
        ),
        (
            "order-of-the-bundle",
            vec![(9, 1, SPELLED), (1, 1, SPELLED_OTHERWISE)],
        ),
        ("runs-apart", vec![(7, 1, FIRST), (1, 7, FIRST)]),
        (
            "whole-numbers",
            vec![
                (3, 256, FIRST),
                (3, 255, UNREADABLE),
                (256, u32::MAX, SECOND),
                (256, 0, UNREADABLE),
            ],
        ),
        (
            "fault-of-the-last",
            vec![(1, 1, "x"), (2, 1, FIRST), (1, 2, UNREADABLE)],
        ),
        (
            "rest-spelled-otherwise",
            vec![
                (1, 1, "SF:a/./b\nDA:1,1\nend_of_record\n"),
                (1, 2, SPELLED_OTHERWISE),
            ],
        ),
    ]
}

/// A run has the same revision twice, whatever the texts hold.
fn repeats() -> Vec<(&'static str, Vec<Row>)> {
    vec![
        (
            "repeated-below",
            vec![(1, 1, UNREADABLE), (1, 1, UNREADABLE), (1, 2, FIRST)],
        ),
        (
            "repeated-highest",
            vec![(1, 1, FIRST), (1, 2, FIRST), (1, 2, FIRST)],
        ),
        (
            "repeated-twice",
            vec![
                (1, 1, FIRST),
                (2, 1, FIRST),
                (1, 2, FIRST),
                (2, 1, FIRST),
                (1, 2, FIRST),
            ],
        ),
        (
            "repeated-after-fault",
            vec![(3, 1, UNREADABLE), (3, 1, UNREADABLE)],
        ),
    ]
}

/// Each refusal of a text and of a merge: before each text that is gathered stands one that is not read, so that the index counts both.
fn refusals() -> impl Iterator<Item = Recorded> {
    recorded::refusals().into_iter().map(|(name, texts)| {
        let rows: Vec<Row> = texts
            .into_iter()
            .zip(1..)
            .flat_map(|(text, run)| [(run, 1, UNREADABLE), (run, 2, text)])
            .collect();
        Recorded {
            name,
            bundle: of(&rows),
        }
    })
}

/// Each limit from both sides: what is not read does not count, save that it is a text of the bundle.
fn limits() -> impl Iterator<Item = Recorded> {
    let after_many = |revision, text: Vec<u8>| Sent {
        run: 1,
        revision,
        text,
    };
    let entries = |many| {
        bundles::of_revisions(&[
            after_many(1, ascending(300)),
            after_many(2, ascending(many)),
        ])
    };
    let output = |len| {
        let text = printed_as_long_as(len).into_bytes();
        bundles::of_revisions(&[after_many(1, FIRST.into()), after_many(2, text)])
    };
    let texts = |many: u32| {
        let rows: Vec<Row> = (0..many).map(|text| (text % 40, text, FIRST)).collect();
        of(&rows)
    };
    [
        ("64-texts", texts(64)),
        ("65-texts", texts(65)),
        ("256-entries", entries(256)),
        ("257-entries", entries(257)),
        ("output-65536", output(MAX_OUTPUT)),
        ("output-65537", output(MAX_OUTPUT + 1)),
    ]
    .into_iter()
    .map(|(name, bundle)| Recorded { name, bundle })
}

#[cfg(test)]
mod tests {
    use super::*;
    use std::collections::{HashMap, HashSet};

    fn answers() -> HashMap<&'static str, String> {
        oracle::hush_overflow();
        let answers = all().into_iter().map(|recorded| {
            let answer = String::from_utf8(recorded.revised()).unwrap();
            (recorded.name, answer)
        });
        answers.collect()
    }

    #[test]
    fn every_refusal_of_the_call_is_recorded() {
        let answers = answers();
        assert_eq!(answers.len(), all().len(), "names are distinct");
        let number = |answer: &String| {
            let refused = answer.strip_prefix("refused ")?;
            refused.split(' ').next()?.parse().ok()
        };
        let numbers: HashSet<u32> = answers.values().filter_map(number).collect();
        let expected = (1..=14).chain([16, 19, 20, 23, 25]);
        assert_eq!(numbers, HashSet::from_iter(expected));
    }

    #[test]
    fn answers_that_a_reader_can_tell() {
        let answers = answers();
        for (name, expected) in [
            (
                "replaced",
                "TN:\nSF:a/b\nDA:1,2\nLF:1\nLH:1\nend_of_record\n",
            ),
            (
                "replaced-before",
                "TN:\nSF:a//b\nDA:1,1\nLF:1\nLH:1\nend_of_record\n",
            ),
            (
                "order-of-the-bundle",
                "TN:\nSF:a//b\nDA:1,3\nLF:1\nLH:1\nend_of_record\n",
            ),
            (
                "rest-spelled-otherwise",
                "TN:\nSF:a/b\nDA:1,2\nLF:1\nLH:1\nend_of_record\n",
            ),
            ("none", ""),
            ("fault-of-the-last", "refused 1 2 1 0\n"),
            ("repeated-below", "refused 20 1 0 0\n"),
            ("repeated-highest", "refused 20 2 0 0\n"),
            ("repeated-twice", "refused 20 3 0 0\n"),
            ("repeated-after-fault", "refused 20 1 0 0\n"),
            ("rest-past-the-end", "refused 16 0 0 0\n"),
            ("past-the-end-and-repeated", "refused 16 0 0 0\n"),
            ("without-revisions", "refused 16 0 0 0\n"),
            ("empty-input", "refused 16 0 0 0\n"),
            ("65-texts", "refused 16 0 0 0\n"),
            ("257-entries", "refused 10 1 257 0\n"),
            ("output-65537", "refused 14 0 0 0\n"),
            ("refused-11", "refused 11 3 0 0\n"),
        ] {
            assert_eq!(answers[name], expected, "{name}");
        }
        for fits in ["64-texts", "256-entries", "output-65536", "rest-unreadable"] {
            assert!(!answers[fits].starts_with("refused"), "{fits}");
        }
    }
}
