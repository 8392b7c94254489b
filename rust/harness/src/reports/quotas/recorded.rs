//! Recorded bundles with labs and quotas and what the call answers for them: the harness asks the port for it.

use super::Question;
use crate::files::Files;
use crate::interface::{LABS, WORDS_PER_ENTRY};
use crate::reports::bundles;
use crate::reports::recorded::{self, files_of, Sizes, FIRST};
use crate::reports::systematic::ascending;
use crate::reports::Asked;

/// The folder in tests/.
pub const FOLDER: &str = "quotas";

#[derive(Debug, PartialEq, Eq)]
pub struct Recorded {
    pub question: Question,
    pub sizes: Sizes,
}

/// So many numbers stand before the quotas.
const NUMBERS: usize = 4;

impl Recorded {
    /// Words of scratch, bytes of output, how many quotas and how many lab numbers there are, and the quotas, as the numbers of a bundle; then the
    /// lab numbers, and the bundle.
    fn encoded(&self) -> Vec<u8> {
        let Question {
            bundle,
            labs,
            quotas,
        } = &self.question;
        let sizes = [self.sizes.words, self.sizes.room, quotas.len(), labs.len()];
        let quotas = quotas.iter().map(|&quota| quota as usize);
        let mut bytes = Vec::new();
        for number in sizes.into_iter().chain(quotas) {
            bundles::put(&mut bytes, number);
        }
        bytes.extend_from_slice(labs);
        bytes.extend_from_slice(bundle);
        bytes
    }

    pub fn decoded(bytes: &[u8]) -> Option<Self> {
        let number = |place| bundles::number(bytes, place);
        let size = |place| number(place).map(|number| number as usize);
        let (quotas, labs) = (size(2)?, size(3)?);
        let rest = bytes.get((NUMBERS + quotas) * bundles::WORD..)?;
        Some(Recorded {
            question: Question {
                bundle: rest.get(labs..)?.to_vec(),
                labs: rest.get(..labs)?.to_vec(),
                quotas: (NUMBERS..NUMBERS + quotas).map_while(number).collect(),
            },
            sizes: Sizes {
                words: size(0)?,
                room: size(1)?,
            },
        })
    }

    fn answer(&self) -> Vec<u8> {
        self.sizes.told(Asked::Quotas(self.question.asked()))
    }
}

pub fn files() -> Files {
    let all = all().into_iter();
    files_of(all.map(|(name, recorded)| (name, recorded.encoded(), recorded.answer())))
}

type Named = (&'static str, Recorded);

const LINE: &str = "SF:a\nDA:1,1\nend_of_record\n";
const OTHER_SECTION: &str = "SF:b\nDA:1,1\nend_of_record\n";
const THREE_ENTRIES: &str = "SF:b\nDA:1,1\nDA:2,1\nend_of_record\n";
const SPELLED: &str = "SF:a//b\nDA:1,1\nend_of_record\n";
const SPELLED_OTHERWISE: &str = "SF:a/b\nDA:1,1\nend_of_record\n";
const START: &str = "FN:3,f\nend_of_record\n";
const OTHER_START: &str = "FN:4,f\nend_of_record\n";
const UNREADABLE: &str = "x\n";

/// All quotas are this.
const AMPLE: [u32; LABS] = [9; LABS];
const NONE: [u32; LABS] = [0; LABS];

/// The quotas of the first labs; the others have none.
fn first<const LEN: usize>(quotas: [u32; LEN]) -> [u32; LABS] {
    let mut all = NONE;
    all[..LEN].copy_from_slice(&quotas);
    all
}

/// Name, lab numbers, quotas and texts.
type Row = (&'static str, Vec<u8>, [u32; LABS], Vec<&'static str>);

pub fn all() -> Vec<(&'static str, Recorded)> {
    let rows = [marks(), joint(), no_labs(), refusals()].concat();
    let mut all: Vec<Named> = rows
        .into_iter()
        .map(|(name, labs, quotas, texts)| (name, usual(bundles::of(&texts), &labs, &quotas)))
        .collect();
    all.extend(limits());
    all.extend(other_sizes());
    let one_line = || bundles::of(&[LINE]);
    all.extend([
        ("empty-input", usual(Vec::new(), &[], &AMPLE)),
        ("malformed-first", usual(vec![1], &[9], &AMPLE)),
        ("seven-quotas", usual(one_line(), &[1], &AMPLE[..7])),
        ("nine-quotas", usual(one_line(), &[1], &[9; 9])),
        ("overlapping", usual(overlapping(), &[1, 2, 3], &AMPLE)),
    ]);
    all
}

/// With the sizes of the program `gather`.
fn usual(bundle: Vec<u8>, labs: &[u8], quotas: &[u32]) -> Recorded {
    Recorded {
        question: Question {
            bundle,
            labs: labs.to_vec(),
            quotas: quotas.to_vec(),
        },
        sizes: Sizes::OF_PROGRAM,
    }
}

fn marks() -> Vec<Row> {
    vec![
        ("no-texts", vec![], NONE, vec![]),
        ("quotas-used", vec![1, 2], first([2, 1]), vec![LINE, LINE]),
        (
            "own-indexes",
            vec![1, 2, 2, 2],
            AMPLE,
            vec![LINE, LINE, LINE, UNREADABLE],
        ),
        ("none-in", vec![1], NONE, vec![LINE]),
        ("last-lab", vec![8], AMPLE, vec![LINE]),
        (
            "joined-entries",
            vec![1, 1, 2, 2],
            first([2, 3]),
            vec![LINE, LINE, LINE, OTHER_SECTION],
        ),
        ("empty-texts", vec![1, 2], NONE, vec!["", "TN:a\n"]),
        (
            "functions-and-branches",
            vec![1],
            first([4]),
            vec!["SF:a\nFN:1,f\nBRDA:1,0,0,-\nDA:1,0\nend_of_record\n"],
        ),
        (
            "largest-quota",
            vec![1, 2],
            first([u32::MAX, 0]),
            vec![LINE, LINE],
        ),
        (
            "all-refused",
            vec![3, 1],
            AMPLE,
            vec!["LF:1,2\n", UNREADABLE],
        ),
    ]
}

/// What the labs that are let in give together.
fn joint() -> Vec<Row> {
    vec![
        (
            "bundle-order",
            vec![2, 1],
            [2; LABS],
            vec![SPELLED, SPELLED_OTHERWISE],
        ),
        (
            "labs-differ",
            vec![1, 2, 3],
            first([2, 0, 2]),
            vec![START, LINE, OTHER_START],
        ),
        (
            "left-out-unspelled",
            vec![1, 2],
            first([0, 2]),
            vec![SPELLED, SPELLED_OTHERWISE],
        ),
        (
            "left-out-agrees",
            vec![1, 2, 1],
            first([2, 1]),
            vec![START, OTHER_START, START],
        ),
        (
            "lab-differs",
            vec![2, 1, 2],
            AMPLE,
            vec![START, START, OTHER_START],
        ),
    ]
}

/// Lab numbers that are none, or not one for each text.
fn no_labs() -> Vec<Row> {
    vec![
        ("no-such-lab", vec![9], AMPLE, vec![UNREADABLE]),
        ("lab-zero", vec![0], AMPLE, vec![LINE]),
        ("one-too-many", vec![1], AMPLE, vec![]),
        ("one-too-few", vec![1], AMPLE, vec![LINE, LINE]),
    ]
}

/// Each refusal of a text and of a merge: that of lab 5 in its mark, after a text of lab 1. A refusal of a merge comes again between labs.
fn refusals() -> Vec<Row> {
    let ample = [u32::MAX; LABS];
    let of_one_lab = recorded::refusals().into_iter().map(|(name, texts)| {
        let labs = [&[1], &vec![5; texts.len()][..]].concat();
        (name, labs, ample, [&[OTHER_SECTION], &texts[..]].concat())
    });
    let between = recorded::refusals()
        .into_iter()
        .filter_map(|(name, texts)| {
            let name = between_labs(name)?;
            let labs = [&[2], &(5..).take(texts.len()).collect::<Vec<u8>>()[..]].concat();
            Some((name, labs, ample, [&[OTHER_SECTION], &texts[..]].concat()))
        });
    of_one_lab.chain(between).collect()
}

fn between_labs(name: &str) -> Option<&'static str> {
    match name {
        "refused-11" => Some("between-labs-11"),
        "refused-12" => Some("between-labs-12"),
        "refused-13-branch" => Some("between-labs-13-branch"),
        "refused-13-line" => Some("between-labs-13-line"),
        _ => None,
    }
}

/// Each limit from both sides.
fn limits() -> Vec<Named> {
    let ample = [u32::MAX; LABS];
    let eighths = |texts: usize| -> Vec<u8> { (0..texts).map(|text| text as u8 % 8 + 1).collect() };
    let texts = |many| usual(bundles::of(&vec![FIRST; many]), &eighths(many), &ample);
    let joined = |entries, labs: &[u8]| {
        let bundle = bundles::of(&[&ascending(entries)[..], FIRST.as_bytes()]);
        usual(bundle, labs, &ample)
    };
    vec![
        ("64-texts", texts(64)),
        ("65-texts", texts(65)),
        ("256-joined", joined(252, &[1, 1])),
        ("257-joined", joined(253, &[1, 1])),
        ("256-together", joined(252, &[1, 2])),
        ("257-together", joined(253, &[1, 2])),
    ]
}

/// Scratch for two entries, and outputs that hold the report or not.
fn other_sizes() -> Vec<Named> {
    let sized = |words, room, labs: &[u8], texts: &[&str]| Recorded {
        sizes: Sizes { words, room },
        ..usual(bundles::of(texts), labs, &AMPLE)
    };
    let Sizes { words, room } = Sizes::OF_PROGRAM;
    let two_entries = 2 * WORDS_PER_ENTRY;
    vec![
        (
            "entry-limit",
            sized(two_entries, room, &[1, 2], &[LINE, THREE_ENTRIES]),
        ),
        (
            "limit-together",
            sized(two_entries, room, &[1, 2], &[LINE, OTHER_SECTION]),
        ),
        ("no-room", sized(words, 0, &[1], &[LINE])),
        ("one-byte-short", sized(words, 39, &[1], &[LINE])),
        ("room", sized(words, 40, &[1], &[LINE])),
        (
            "no-room-for-one",
            sized(words, 40, &[1, 2], &[LINE, UNREADABLE]),
        ),
    ]
}

/// Texts of three labs that share bytes: both sections, the first, and the second.
fn overlapping() -> Vec<u8> {
    let bytes = [LINE, OTHER_SECTION].concat();
    let (first, second) = (LINE.len(), OTHER_SECTION.len());
    bundles::encoded(
        bytes.as_bytes(),
        &[(0, first + second), (0, first), (first, second)],
    )
}

#[cfg(test)]
mod tests {
    use super::*;
    use std::collections::{HashMap, HashSet};

    fn answers() -> HashMap<&'static str, String> {
        oracle::hush_overflow();
        let answers = all().into_iter().map(|(name, recorded)| {
            let answer = String::from_utf8(recorded.answer()).unwrap();
            (name, answer)
        });
        answers.collect()
    }

    #[test]
    fn a_question_is_read_again() {
        for (name, recorded) in all() {
            let read = Recorded::decoded(&recorded.encoded());
            assert_eq!(read, Some(recorded), "{name}");
        }
        assert_eq!(Recorded::decoded(&[0; 15]), None);
    }

    /// Of marks where the word is 2, of answers where it is refused.
    fn numbers(answers: &HashMap<&str, String>, word: &str) -> HashSet<u32> {
        let lines = answers.values().flat_map(|answer| answer.lines());
        let number = |line: &str| {
            let refused = line.strip_prefix(word)?.strip_prefix(' ')?;
            refused.split(' ').next()?.parse().ok()
        };
        lines.filter_map(number).collect()
    }

    #[test]
    fn every_refusal_of_the_call_is_recorded() {
        let answers = answers();
        assert_eq!(answers.len(), all().len(), "names are distinct");
        let of_answers = [10, 11, 12, 13, 14, 16, 29];
        assert_eq!(numbers(&answers, "refused"), HashSet::from_iter(of_answers));
        let of_marks = (1..=13).chain([19, 23, 25]);
        assert_eq!(numbers(&answers, "2"), HashSet::from_iter(of_marks));
    }

    const IN_WITH_NONE: &str = "0 0 0 0 0\n";

    /// The marks of the first labs, where the others have no texts, and then what the call answers.
    fn answer(marks: &[&str], then: &str) -> String {
        let first: String = marks.iter().map(|mark| format!("{mark}\n")).collect();
        first + &IN_WITH_NONE.repeat(LABS - marks.len()) + then
    }

    /// The report of one line.
    fn report(path: &str, count: u32) -> String {
        format!("TN:\nSF:{path}\nDA:1,{count}\nLF:1\nLH:1\nend_of_record\n")
    }

    /// Those of docs/DECISIONS.md, and others.
    #[test]
    fn answers_that_a_reader_can_tell() {
        let answers = answers();
        let in_with_two = "0 2 0 0 0";
        for (name, marks, then) in [
            ("no-texts", &[][..], String::new()),
            ("quotas-used", &[in_with_two, "1 2 0 0 0"], report("a", 1)),
            ("entry-limit", &[in_with_two, "2 10 0 3 0"], report("a", 1)),
            ("own-indexes", &[in_with_two, "2 1 2 1 0"], report("a", 1)),
            ("bundle-order", &[in_with_two; 2], report("a//b", 2)),
            (
                "labs-differ",
                &[in_with_two, "1 2 0 0 0", in_with_two],
                "refused 11 2 0 0 0\n".to_owned(),
            ),
            (
                "no-room",
                &[in_with_two],
                "refused 14 0 0 0 40\n".to_owned(),
            ),
            (
                "one-byte-short",
                &[in_with_two],
                "refused 14 0 0 0 40\n".to_owned(),
            ),
            ("room", &[in_with_two], report("a", 1)),
            (
                "no-room-for-one",
                &[in_with_two, "2 1 0 1 0"],
                report("a", 1),
            ),
            ("none-in", &["1 2 0 0 0"], String::new()),
            (
                "limit-together",
                &[in_with_two; 2],
                "refused 10 1 0 0 0\n".to_owned(),
            ),
            (
                "lab-differs",
                &[in_with_two, "2 11 1 0 0"],
                report_of_start(),
            ),
            (
                "left-out-unspelled",
                &["1 2 0 0 0", in_with_two],
                report("a/b", 1),
            ),
            (
                "all-refused",
                &["2 1 0 1 0", IN_WITH_NONE.trim(), "2 3 0 1 0"],
                String::new(),
            ),
        ] {
            assert_eq!(answers[name], answer(marks, &then), "{name}");
        }
        for name in ["no-such-lab", "lab-zero", "one-too-many", "one-too-few"] {
            assert_eq!(answers[name], "refused 29 0 0 0 0\n", "{name}");
        }
        for name in ["seven-quotas", "nine-quotas"] {
            assert_eq!(answers[name], "refused 29 0 0 0 0\n", "{name}");
        }
        for name in ["malformed-first", "empty-input", "65-texts"] {
            assert_eq!(answers[name], "refused 16 0 0 0 0\n", "{name}");
        }
    }

    fn report_of_start() -> String {
        "TN:\nSF:\nFN:3,f\nFNDA:0,f\nFNF:1\nFNH:0\nend_of_record\n".to_owned()
    }

    #[test]
    fn limits_are_met_from_both_sides() {
        let answers = answers();
        for (fits, does_not, told) in [
            ("256-joined", "257-joined", "2 10 1 0 0\n"),
            ("256-together", "257-together", "refused 10 1 0 0 0\n"),
        ] {
            assert!(!answers[fits].contains(told), "{fits}");
            assert!(answers[does_not].contains(told), "{does_not}");
        }
        assert!(answers["64-texts"].ends_with("end_of_record\n"));
    }
}
