//! Recorded bundles and what the program `totals` prints for them, for a run without Rust. It has the sizes of `gather`.

use super::recorded::{self, Named, Recorded, FIRST, MAX_OUTPUT, SECOND, THIRD};
use super::{bundles, page};

/// The folder in tests/.
pub const FOLDER: &str = "totals";

pub fn all() -> Vec<Recorded> {
    let texts = [recorded::refusals(), shares(), entries(), names()].concat();
    let mut all = [recorded::of_texts(texts), recorded::limits()].concat();
    let mut add = |name, bundle| all.push(Recorded { name, bundle });
    add("largest-share-below-1000", bundles::of(&[all_but_one(255)]));
    add("long-report", bundles::of(&[long_report()]));
    add("page-65536", page_as_long_as(MAX_OUTPUT));
    add("page-65537", page_as_long_as(MAX_OUTPUT + 1));
    all
}

/// What the port is asked: the recorded bundles, and one with the largest share below 1000 that any has.
pub fn asked(visit: &mut dyn FnMut(&[u8])) {
    all().iter().for_each(|recorded| visit(&recorded.bundle));
    visit(&bundles::of(&[all_but_one(1000)]));
}

fn shares() -> Vec<Named> {
    let three = "TN:a\nSF:three\nDA:1,1\nDA:2,0\nDA:3,0\nend_of_record\n";
    let one = "TN:a\nSF:one\nDA:1,1\nend_of_record\n";
    vec![
        ("share-0", vec!["SF:a\nDA:1,0\nend_of_record\n"]),
        ("share-1000", vec![one]),
        (
            "share-none",
            vec!["SF:a\nFN:1,f\nBRDA:1,0,0,1\nend_of_record\n"],
        ),
        ("share-of-sums-not-mean", vec![three, one]),
        (
            "share-rounded-down",
            vec!["SF:a\nDA:1,1\nDA:2,1\nDA:3,0\nend_of_record\n"],
        ),
        (
            "nothing-in-them",
            vec!["", "TN:a\n", "SF:a\nend_of_record\n"],
        ),
    ]
}

/// What is found and what is hit.
fn entries() -> Vec<Named> {
    vec![
        (
            "case-l",
            vec!["TN:a\nSF:m.c\nFN:3,f\nFNDA:2,f\nDA:3,2\nDA:4,0\nend_of_record\n"; 2],
        ),
        (
            "untrue-totals",
            vec!["SF:a\nFNF:7\nFNH:7\nBRF:7\nBRH:7\nLF:7\nLH:7\nDA:1,0\nend_of_record\n"],
        ),
        (
            "calls-without-start",
            vec!["SF:a\nFNDA:1,g\nFNDA:0,h\nend_of_record\n"],
        ),
        (
            "taken-none",
            vec!["SF:a\nBRDA:1,0,0,-\nBRDA:1,0,1,0\nBRDA:1,0,2,1\nend_of_record\n"],
        ),
        (
            "hit-by-one-text",
            vec![
                "SF:a\nFN:1,f\nBRDA:1,0,0,-\nDA:1,0\nend_of_record\n",
                "SF:a\nFNDA:1,f\nBRDA:1,0,0,2\nDA:1,3\nDA:2,0\nend_of_record\n",
            ],
        ),
        (
            "calls-stop",
            vec!["FNDA:18446744073709551615,f\nend_of_record\n"; 2],
        ),
        (
            "end-lines",
            vec!["SF:a\nFN:1,9,f\nFNDA:1,f\nDA:1,1\nend_of_record\n"],
        ),
        ("joined", vec![FIRST, SECOND, THIRD]),
    ]
}

fn names() -> Vec<Named> {
    vec![
        (
            "names-empty",
            vec![
                "DA:1,1\nend_of_record\n",
                "SF:x\nDA:1,1\nend_of_record\nTN:t\nDA:1,1\nend_of_record\n",
            ],
        ),
        (
            "names-with-blanks",
            vec!["TN:a b\nSF: c  d.c\nDA:1,1\nend_of_record\n"],
        ),
        (
            "path-spelled-twice",
            vec![
                "SF:a//b\nDA:1,1\nend_of_record\n",
                "SF:a/b\nDA:2,0\nend_of_record\n",
            ],
        ),
        (
            "key-order",
            vec![
                "TN:b\nSF:a\nDA:1,1\nend_of_record\nTN:ab\nSF:a-b\nDA:1,1\nend_of_record\n",
                "TN:ab\nSF:a/b\nDA:1,1\nend_of_record\nTN:B\nSF:z\nDA:1,1\nend_of_record\n",
            ],
        ),
    ]
}

/// So many lines, all of them hit but one.
fn all_but_one(lines: usize) -> String {
    let hit: String = (1..lines).map(|line| format!("DA:{line},1\n")).collect();
    format!("SF:a\n{hit}DA:{lines},0\nend_of_record\n")
}

/// The report has the name twice, and so is longer than the program could print.
fn long_report() -> String {
    format!("SF:a\nFN:1,{}\nend_of_record\n", "n".repeat(40_000))
}

/// Two texts that overlap, so that both have a long test name; the path of a section that only the first has makes up the length.
fn page_as_long_as(len: usize) -> Vec<u8> {
    let bundle = |path: usize| {
        let shared = format!(
            "TN:TN:{}\nSF:a\nDA:1,1\nend_of_record\n",
            "x".repeat(32_000)
        );
        let own = format!("SF:{}\nDA:1,1\nend_of_record\n", "p".repeat(path));
        let bytes = [&shared[..], &own].concat();
        let texts = [(0, bytes.len()), (3, shared.len() - 3)];
        bundles::encoded(bytes.as_bytes(), &texts)
    };
    let page_of = |bundle: &[u8]| {
        let texts = bundles::decoded(bundle).expect("a bundle that was made");
        let report = oracle::gather(oracle::Mode::Checked, &texts).expect("sound texts");
        page::of(&report).len()
    };
    let shortest = page_of(&bundle(1));
    let made = bundle(1 + len - shortest);
    assert_eq!(page_of(&made), len);
    made
}

#[cfg(test)]
mod tests {
    use super::*;
    use std::collections::{HashMap, HashSet};

    fn pages() -> HashMap<&'static str, String> {
        oracle::hush_overflow();
        let pages = all().into_iter().map(|recorded| {
            let page = String::from_utf8(recorded.page()).unwrap();
            (recorded.name, page)
        });
        pages.collect()
    }

    #[test]
    fn every_refusal_of_the_program_is_recorded() {
        let pages = pages();
        assert_eq!(pages.len(), all().len(), "names are distinct");
        let number = |page: &String| {
            page.strip_prefix("refused ")?
                .split(' ')
                .next()?
                .parse()
                .ok()
        };
        let numbers: HashSet<u32> = pages.values().filter_map(number).collect();
        let expected = (1..=14).chain([16, 19, 23, 25]);
        assert_eq!(numbers, HashSet::from_iter(expected));
    }

    #[test]
    fn limits_are_met_from_both_sides() {
        let pages = pages();
        for (fits, does_not, number) in [
            ("65536-bytes", "65537-bytes", "16 0 0 0"),
            ("256-entries", "257-entries", "10 0 257 0"),
            ("256-joined", "257-joined", "10 1 0 0"),
            ("64-texts", "65-texts", "16 0 0 0"),
            ("page-65536", "page-65537", "14 0 0 0"),
        ] {
            assert!(!pages[fits].starts_with("refused"), "{fits}");
            assert_eq!(pages[does_not], format!("refused {number}\n"));
        }
        assert_eq!(pages["page-65536"].len(), MAX_OUTPUT);
    }

    #[test]
    fn pages_that_a_reader_can_count() {
        let pages = pages();
        for (name, expected) in [
            ("case-l", "1/1 0/0 1/2 500 a m.c\n1/1 0/0 1/2 500\n"),
            ("none", "0/0 0/0 0/0 -\n"),
            ("nothing-in-them", "0/0 0/0 0/0 -\n"),
            ("share-none", "0/1 1/1 0/0 -  a\n0/1 1/1 0/0 -\n"),
            ("untrue-totals", "0/0 0/0 0/1 0  a\n0/0 0/0 0/1 0\n"),
            ("calls-without-start", "1/2 0/0 0/0 -  a\n1/2 0/0 0/0 -\n"),
            ("taken-none", "0/0 1/3 0/0 -  a\n0/0 1/3 0/0 -\n"),
            ("hit-by-one-text", "1/1 1/1 1/2 500  a\n1/1 1/1 1/2 500\n"),
            (
                "path-spelled-twice",
                "0/0 0/0 1/2 500  a//b\n0/0 0/0 1/2 500\n",
            ),
            (
                "largest-share-below-1000",
                "0/0 0/0 254/255 996  a\n0/0 0/0 254/255 996\n",
            ),
            ("long-report", "0/1 0/0 0/0 -  a\n0/1 0/0 0/0 -\n"),
            (
                "share-of-sums-not-mean",
                "0/0 0/0 1/1 1000 a one\n0/0 0/0 1/3 333 a three\n0/0 0/0 2/4 500\n",
            ),
            (
                "names-empty",
                "0/0 0/0 1/1 1000  \n0/0 0/0 1/1 1000  x\n0/0 0/0 1/1 1000 t \n0/0 0/0 3/3 1000\n",
            ),
            (
                "names-with-blanks",
                "0/0 0/0 1/1 1000 a b  c  d.c\n0/0 0/0 1/1 1000\n",
            ),
        ] {
            assert_eq!(pages[name], expected, "{name}");
        }
    }
}
