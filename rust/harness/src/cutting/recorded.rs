//! Recorded cases in which the two ways print other bytes: a path is spelled otherwise, or functions differ. What is recorded is told by the Rust and,
//! of end lines, by the reference; the harness asks the port for it.

use super::{Printed, Question};
use crate::files::Files;
use crate::interface::Starts;
use crate::ranges::List;
use crate::reports::expected::Expected;
use crate::reports::{bundles, Asked};

/// The folder in tests/.
pub const FOLDER: &str = "cutting";

struct Case {
    name: &'static str,
    texts: [&'static str; 2],
    /// The only range of lines that stay.
    lines: [u32; 2],
}

const CASES: [Case; 3] = [
    // the first text's section is emptied, and its spelling goes with it
    Case {
        name: "spelling",
        texts: [
            "SF:a//b\nDA:9,1\nend_of_record\n",
            "SF:a/b\nDA:1,1\nend_of_record\n",
        ],
        lines: [1, 1],
    },
    // f ends before g where both are in one section
    Case {
        name: "reckoned-end",
        texts: [
            "SF:a\nFN:1,f\nend_of_record\n",
            "SF:a\nFN:2,g\nend_of_record\n",
        ],
        lines: [2, 2],
    },
    // the larger end is joined, and the first text's own end is not held
    Case {
        name: "given-ends",
        texts: [
            "SF:a\nFN:1,1,f\nFNDA:1,f\nend_of_record\n",
            "SF:a\nFN:1,9,f\nFNDA:2,f\nend_of_record\n",
        ],
        lines: [5, 5],
    },
];

pub struct Recorded {
    texts: [Vec<u8>; 2],
    lines: [u32; 2],
    pub cut_first: Vec<u8>,
    pub add_first: Vec<u8>,
}

/// What is recorded of a case: the texts, the lines as the command takes them, and what both ways print.
const ENDS: [&str; 5] = [
    "1.info",
    "2.info",
    "lines",
    "cut-first.info",
    "add-first.info",
];

impl Recorded {
    fn of(case: &Case) -> Self {
        let mut recorded = Recorded {
            texts: case.texts.map(|text| text.as_bytes().to_vec()),
            lines: case.lines,
            cut_first: Vec::new(),
            add_first: Vec::new(),
        };
        [recorded.cut_first, recorded.add_first] = recorded.told(Starts::All);
        recorded
    }

    pub fn bundle(&self) -> Vec<u8> {
        bundles::of(&self.texts)
    }

    pub fn list(&self) -> List {
        List {
            pairs: vec![self.lines],
            used: 1,
        }
    }

    /// What both ways print by the Rust and the reference.
    fn told(&self, starts: Starts) -> [Vec<u8>; 2] {
        let question = Question {
            bundle: &self.bundle(),
            list: &self.list(),
            starts,
        };
        let ways = [question.cut_first(told), question.add_first(told)];
        ways.map(|way| way.expect("texts that are accepted"))
    }

    fn files(self, name: &str) -> impl Iterator<Item = (String, Vec<u8>)> {
        let [start, end] = self.lines;
        let lines = format!("{start}-{end}\n").into_bytes();
        let [first, second] = self.texts;
        let files = [first, second, lines, self.cut_first, self.add_first];
        let names = ENDS.map(|end| format!("{name}.{end}"));
        names.into_iter().zip(files)
    }

    /// None where a file is missing or its lines can't be read.
    fn read(name: &str, files: &Files) -> Option<Self> {
        let [first, second, lines, cut_first, add_first] =
            ENDS.map(|end| files.get(&format!("{name}.{end}")).cloned());
        let lines = String::from_utf8(lines?).ok()?;
        let (start, end) = lines.trim_end().split_once('-')?;
        Some(Recorded {
            texts: [first?, second?],
            lines: [start.parse().ok()?, end.parse().ok()?],
            cut_first: cut_first?,
            add_first: add_first?,
        })
    }
}

fn told(asked: Asked) -> Printed {
    let expected = Expected::of(asked).expect("recorded texts are UTF-8");
    expected.told.map_err(|refusal| refusal.number)
}

/// What is to be recorded.
pub fn files() -> Files {
    CASES
        .iter()
        .flat_map(|case| Recorded::of(case).files(case.name))
        .collect()
}

/// All cases as they were recorded; None where one is not.
pub fn read(files: &Files) -> Option<Vec<Recorded>> {
    CASES
        .iter()
        .map(|case| Recorded::read(case.name, files))
        .collect()
}

#[cfg(test)]
mod tests {
    use super::*;
    use crate::cutting::kept::{functions, is_same, sections};
    use crate::expected::path_order;
    use crate::interface::EQUAL;

    fn recorded(name: &str) -> Recorded {
        let case = CASES.iter().find(|case| case.name == name);
        Recorded::of(case.expect("a case"))
    }

    #[test]
    fn both_filters_tell_the_same_bytes_and_the_ways_other_ones() {
        for case in &CASES {
            let recorded = Recorded::of(case);
            let [cut_first, add_first] = recorded.told(Starts::Distinct);
            assert_eq!(recorded.cut_first, cut_first, "{}", case.name);
            assert_eq!(recorded.add_first, add_first, "{}", case.name);
            assert_ne!(cut_first, add_first, "{}", case.name);
        }
    }

    #[test]
    fn lines_and_branches_are_the_same() {
        for case in &CASES {
            let recorded = Recorded::of(case);
            let [cut, added] = [&recorded.cut_first, &recorded.add_first].map(|way| sections(way));
            let same = is_same(&cut, &added, |a, b| path_order(a, b) == EQUAL);
            assert!(same, "{}", case.name);
        }
    }

    #[test]
    fn the_spelling_alone_differs() {
        let Recorded {
            cut_first,
            add_first,
            ..
        } = recorded("spelling");
        let cut_first = String::from_utf8(cut_first).unwrap();
        assert_eq!(cut_first.replace("a/b", "a//b").as_bytes(), add_first);
    }

    #[test]
    fn functions_differ() {
        for (name, cut_first, add_first) in [
            (
                "reckoned-end",
                "FN:1,f FN:2,g FNDA:0,f FNDA:0,g",
                "FN:2,g FNDA:0,g",
            ),
            ("given-ends", "FN:1,9,f FNDA:2,f", "FN:1,9,f FNDA:3,f"),
        ] {
            let recorded = recorded(name);
            let [cut, added] = [&recorded.cut_first, &recorded.add_first].map(|way| {
                let functions = functions(way).join(&b' ');
                String::from_utf8(functions).unwrap()
            });
            assert_eq!((cut.as_str(), added.as_str()), (cut_first, add_first));
        }
    }

    #[test]
    fn what_is_recorded_is_read_again() {
        let all = files();
        let read_again = read(&all).expect("all files");
        let again: Files = CASES
            .iter()
            .zip(read_again)
            .flat_map(|(case, recorded)| recorded.files(case.name))
            .collect();
        assert_eq!(again, all);
        for name in all.keys() {
            let mut fewer = all.clone();
            fewer.remove(name);
            assert!(read(&fewer).is_none(), "{name}");
        }
    }
}
