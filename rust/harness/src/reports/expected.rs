//! What a reading, a filter, a gather or a page of totals must answer: the Rust's answer, and where SPEC 9.1 added a number, the count's. Where an FN has an
//! end line, the Rust answers to the texts without end lines, and the count has these. Of a filter by distinct starts, which the Rust lacks,
//! the count answers; by all starts, the count and the Rust agree on the same text and list. A page of totals, which the Rust lacks too, is
//! counted from the report that both print. Of a bundle with revisions, a third thing that the Rust lacks, the texts are chosen here, and the Rust and the
//! count gather these alone. So they gather the texts of each window, a fourth, and the lines of what they hold are counted. So they gather the texts of each
//! lab, a fifth, which gives the marks, and of the labs that are let in.

use super::chosen::Chosen;
use super::quotas::{self, MALFORMED_LABS};
use super::reference::{
    self, Entries, Sections, SECOND_PATH, SUM_OF_CALLS, SUM_OF_RUNS, TOO_MANY_ENTRIES,
};
use super::revisions::{self, REPEATED_REVISION};
use super::windows::{self, WIDTH_OUTSIDE};
use super::{bundles, page, Asked};
use crate::ends::{self, END_BEFORE_START, END_FIELD, NUMBER_TOO_LARGE};
use crate::expected::{refused, Answer, Basis};
use crate::interface::{Filter, Quotas};
use crate::plus::SIGNED_NUMBER;
use crate::ranges::expected::told;
use oracle::{Fault, Mode, Refusal};
use std::borrow::Cow;

/// The bytes to be written, or a refusal.
pub type Told = Result<Vec<u8>, Refusal>;

pub const NOT_WELL_FORMED: u32 = 16;
pub use crate::ranges::expected::NOT_WELL_FORMED as RANGES_NOT_WELL_FORMED;

pub struct Expected {
    /// With scratch for any number of entries, and output for any number of bytes.
    pub told: Told,
    /// The words that are written to the marks, with so much scratch: of a gather with quotas alone.
    pub marks: Vec<u64>,
    /// The most entries that there were at a time.
    pub entries: usize,
    pub basis: Basis,
}

impl Expected {
    /// None where a text that is read is not UTF-8: the Rust can't be asked.
    pub fn of(asked: Asked) -> Option<Self> {
        if let Asked::Quotas(quotas) = asked {
            return Expected::of_labs(quotas);
        }
        let gathers = match gathers_of(asked, usize::MAX) {
            Ok(gathers) => gathers,
            Err(refusal) => return Some(Expected::of_no_text(refusal)),
        };
        let mut expected = Expected {
            told: Ok(Vec::new()),
            marks: Vec::new(),
            entries: 0,
            // of windows over no texts; each gather tells its own
            basis: Basis::Windows,
        };
        for chosen in &gathers {
            expected.go_on(Expected::of_gather(asked, chosen)?);
            if expected.told.is_err() {
                break;
            }
        }
        Some(expected)
    }

    /// Each lab by itself, then all that are let in.
    fn of_labs(asked: Quotas) -> Option<Self> {
        let labs = match quotas::labs(asked) {
            Ok(labs) => labs,
            Err(refusal) => return Some(Expected::of_no_text(refusal)),
        };
        let mut entries = 0;
        for lab in &labs {
            let by_itself = Asked::Bundle(Mode::Checked, asked.bundle);
            entries = entries.max(Expected::of_gather(by_itself, lab)?.entries);
        }
        let marks = quotas::marks(asked, usize::MAX).expect("each text has a lab");
        let let_in = quotas::let_in(asked, &marks);
        let joint = Expected::of_gather(Asked::Quotas(asked), &let_in)?;
        Some(Expected {
            marks: marks.concat(),
            entries: entries.max(joint.entries),
            ..joint
        })
    }

    fn of_no_text(refusal: Refusal) -> Self {
        Expected {
            told: Err(refusal),
            marks: Vec::new(),
            entries: 0,
            basis: match refusal.number {
                REPEATED_REVISION | WIDTH_OUTSIDE | MALFORMED_LABS => Basis::Refusal,
                _ => Basis::Rust,
            },
        }
    }

    fn of_gather(asked: Asked, chosen: &Chosen) -> Option<Self> {
        let texts = &chosen.texts;
        if texts.iter().any(|text| std::str::from_utf8(text).is_err()) {
            return None;
        }
        let mut entries = Entries::limited(usize::MAX);
        let counted = kept(asked, texts, &mut entries);
        let (told, basis) = settled(asked, texts, counted);
        Some(Expected {
            told: told.map_err(|refusal| in_whole(chosen, refusal)),
            marks: Vec::new(),
            entries: entries.most,
            basis,
        })
    }

    /// What the next gather tells is written behind it, or refuses all.
    fn go_on(&mut self, next: Expected) {
        match (&mut self.told, next.told) {
            (Ok(written), Ok(told)) => written.extend(told),
            (told, refused) => *told = refused,
        }
        self.entries = self.entries.max(next.entries);
        self.basis = next.basis;
    }

    /// With scratch for so many entries.
    pub fn limited(&self, asked: Asked, limit: usize) -> Told {
        if limit >= self.entries {
            return self.told.clone();
        }
        let mut written = Vec::new();
        for chosen in gathers_of(asked, limit).expect("entries were read") {
            let counted = kept(asked, &chosen.texts, &mut Entries::limited(limit));
            let sections = counted.map_err(|refusal| in_whole(&chosen, refusal))?;
            written.extend(finished(asked, sections));
        }
        Ok(written)
    }

    /// The same of the marks.
    pub fn limited_marks(&self, asked: Asked, limit: usize) -> Vec<u64> {
        match asked {
            Asked::Quotas(quotas) if limit < self.entries => {
                let marks = quotas::marks(quotas, limit);
                marks.expect("entries were read").concat()
            }
            _ => self.marks.clone(),
        }
    }
}

/// The texts of each gather whose report is used, with scratch for so many entries: several of windows, one of all else. Or a refusal before any
/// text is read.
fn gathers_of(asked: Asked<'_>, limit: usize) -> Result<Vec<Chosen<'_>>, Refusal> {
    match asked {
        Asked::Filter(filter) if filter.list.held().is_none() => {
            Err(Refusal::numbered(RANGES_NOT_WELL_FORMED))
        }
        Asked::Text(_) | Asked::Filter(_) => Ok(vec![Chosen::all(vec![asked.bytes()])]),
        Asked::Bundle(_, bundle) | Asked::Totals(bundle) => {
            let texts = bundles::decoded(bundle).ok_or(Refusal::numbered(NOT_WELL_FORMED))?;
            Ok(vec![Chosen::all(texts)])
        }
        Asked::Revisions(bundle) => Ok(vec![revisions::chosen(bundle)?]),
        Asked::Windows(width, bundle) => windows::of(width, bundle),
        Asked::Quotas(quotas) => {
            let marks = quotas::marks(quotas, limit)?;
            Ok(vec![quotas::let_in(quotas, &marks)])
        }
    }
}

/// A refusal of the texts that are read, with the text's place in the whole bundle.
fn in_whole(chosen: &Chosen, refusal: Refusal) -> Refusal {
    Refusal {
        text: chosen.in_whole(refusal.text),
        ..refusal
    }
}

/// What the count keeps before the filter.
fn kept(asked: Asked, texts: &[&[u8]], entries: &mut Entries) -> reference::Told {
    match asked {
        Asked::Text(_) | Asked::Filter(_) => reference::read(asked.bytes(), entries),
        Asked::Bundle(mode, _) => reference::gather(mode, texts, entries),
        Asked::Totals(_) | Asked::Revisions(_) | Asked::Windows(..) | Asked::Quotas(_) => {
            reference::gather(Mode::Checked, texts, entries)
        }
    }
}

/// Filtered where that is asked, and printed, or the page of what is printed, or the line of a window.
fn finished(asked: Asked, mut sections: Sections) -> Vec<u8> {
    if let Asked::Windows(..) = asked {
        return windows::line(reference::hit_and_found(&sections));
    }
    if let Asked::Filter(Filter { starts, list, .. }) = asked {
        let end_of = reference::end_by(starts);
        reference::filter(&mut sections, &list.pairs[..list.used], end_of);
    }
    let printed = reference::printed(sections);
    match asked {
        Asked::Totals(_) => page::of(&printed),
        _ => printed,
    }
}

/// What the port must answer, where the count is this.
fn settled(asked: Asked, texts: &[&[u8]], counted: reference::Told) -> (Told, Basis) {
    let plain: Vec<Cow<[u8]>> = texts.iter().map(|text| ends::taken_out(text)).collect();
    let has_ends = plain.iter().any(|text| matches!(text, Cow::Owned(_)));
    let plain: Vec<&[u8]> = plain.iter().map(AsRef::as_ref).collect();
    let is_asked_for = matches!(&counted, Err(refusal) if is_taken_by_the_rust(texts, refusal));
    let basis = match (has_ends, is_asked_for) {
        (true, _) => Basis::Ends,
        (_, true) => Basis::Refusal,
        _ => Basis::Rust,
    };
    match counted {
        Err(refusal) if is_asked_for => {
            assert_taken_before(asked, &plain, refusal);
            (Err(refusal), basis)
        }
        counted => {
            let there = asked.of_the_rust();
            let rust = rust(there, &plain);
            let without = counted.clone().map(reference::without_ends);
            assert_agreed(without.map(|sections| finished(there, sections)), rust);
            let told = counted.clone().map(|sections| finished(asked, sections));
            let basis = match asked {
                Asked::Totals(_) if told.is_ok() => Basis::Page,
                Asked::Windows(..) if told.is_ok() => Basis::Windows,
                _ if is_by_starts(asked, counted, &told) => Basis::Starts,
                _ => basis,
            };
            (told, basis)
        }
    }
}

/// Whether a filter keeps other functions than by all starts.
fn is_by_starts(asked: Asked, counted: reference::Told, told: &Told) -> bool {
    let by_all = |sections| finished(asked.of_the_rust(), sections);
    matches!(asked, Asked::Filter(_)) && counted.map(by_all) != *told
}

fn rust(asked: Asked, texts: &[&[u8]]) -> Result<Vec<u8>, Fault> {
    match asked {
        Asked::Text(_) => oracle::read_text(texts[0]).map(oracle::print_report),
        Asked::Filter(Filter { list, .. }) => {
            oracle::filter(texts[0], &told(&list.pairs[..list.used]))
        }
        Asked::Bundle(mode, _) => oracle::gather(mode, texts),
        Asked::Totals(_) | Asked::Revisions(_) | Asked::Windows(..) | Asked::Quotas(_) => {
            unreachable!("the Rust has no such call")
        }
    }
}

/// The Rust decides. Where a sum of it passes its type, and only there, the count gives the number that SPEC 9.1 added.
fn assert_agreed(counted: Told, rust: Result<Vec<u8>, Fault>) {
    match rust {
        Err(Fault::Outside) => {
            let added = counted.as_ref().err().map(|refusal| refusal.number);
            assert!(matches!(added, Some(SUM_OF_CALLS | SUM_OF_RUNS)));
        }
        Err(Fault::Refused(refusal)) => {
            assert_eq!(counted, Err(refusal), "the count is not the Rust's");
        }
        Ok(printed) => assert!(counted == Ok(printed), "the count is not the Rust's"),
    }
}

/// The Rust takes the texts before the refused one, and the lines before the refused one.
fn assert_taken_before(asked: Asked, texts: &[&[u8]], refusal: Refusal) {
    let lines = reference::lines(texts[refusal.text]);
    let mut before = Vec::new();
    for line in lines.take(refusal.line - 1) {
        before.extend_from_slice(line);
        before.push(b'\n');
    }
    before.extend_from_slice(b"end_of_record\n");
    assert!(
        oracle::read_text(&before).is_ok(),
        "the Rust refuses an earlier line"
    );
    if let Asked::Bundle(mode, _) = asked.of_the_rust() {
        let earlier = oracle::gather(mode, &texts[..refusal.text]);
        assert!(earlier.is_ok(), "the Rust refuses an earlier text");
    }
}

/// Whether a refusal was asked for where the Rust gives none.
fn is_asked_for(number: u32) -> bool {
    matches!(number, SIGNED_NUMBER | END_BEFORE_START | SECOND_PATH)
}

/// Whether the Rust takes the refused line, or takes it without its end line.
fn is_taken_by_the_rust(texts: &[&[u8]], refusal: &Refusal) -> bool {
    let is_end_too_large = || {
        let line = reference::lines(texts[refusal.text]).nth(refusal.line - 1);
        line.is_some_and(ends::has_end)
    };
    match (refusal.number, refusal.field) {
        (NUMBER_TOO_LARGE, END_FIELD) => is_end_too_large(),
        (number, _) => is_asked_for(number),
    }
}

/// In the words of the C interface.
pub fn in_words(told: &Told) -> Result<&[u8], Answer> {
    told.as_deref().map_err(|refusal| refused(*refusal))
}

/// Whether a number is one that the mode can give.
pub fn may_refuse(asked: Asked, number: u32) -> bool {
    let of_any = matches!(number, 1..=TOO_MANY_ENTRIES | 14) || is_asked_for(number);
    of_any
        || match asked {
            Asked::Text(_) => false,
            Asked::Filter(..) => number == RANGES_NOT_WELL_FORMED,
            Asked::Bundle(Mode::Checked, _) | Asked::Totals(_) => {
                matches!(number, 11..=13 | NOT_WELL_FORMED)
            }
            Asked::Revisions(_) => matches!(number, 11..=13 | NOT_WELL_FORMED | REPEATED_REVISION),
            Asked::Windows(..) => matches!(number, 11..=13 | NOT_WELL_FORMED | WIDTH_OUTSIDE),
            Asked::Quotas(_) => matches!(number, 11..=13 | NOT_WELL_FORMED | MALFORMED_LABS),
            Asked::Bundle(Mode::Lossy, _) => matches!(number, 13 | NOT_WELL_FORMED),
        }
}

#[cfg(test)]
mod tests {
    use super::*;
    use crate::interface::Starts;
    use crate::ranges::List;

    const MAX: &[u8] = b"FNDA:18446744073709551615,f\nDA:1,18446744073709551615\nend_of_record\n";

    fn number(told: &Told) -> u32 {
        told.as_ref().map_or_else(|refusal| refusal.number, |_| 0)
    }

    fn gathered(mode: Mode, texts: &[&[u8]]) -> Expected {
        let bundle = bundles::of(texts);
        Expected::of(Asked::Bundle(mode, &bundle)).unwrap()
    }

    #[test]
    fn a_sum_past_its_type_has_the_added_number() {
        oracle::hush_overflow();
        let calls = b"FNDA:18446744073709551615,f\nFNDA:1,f\nend_of_record\n";
        assert_eq!(number(&Expected::of(Asked::Text(calls)).unwrap().told), 9);
        assert_eq!(number(&gathered(Mode::Checked, &[MAX]).told), 0);
        let twice = gathered(Mode::Lossy, &[MAX, MAX]).told.unwrap_err();
        assert_eq!((twice.number, twice.text, twice.line), (13, 1, 0));
    }

    #[test]
    fn entries_are_counted_with_the_open_section() {
        let text = b"SF:a\nDA:1,1\nDA:2,1\nend_of_record\nSF:b\nend_of_record\n";
        let asked = Asked::Text(text);
        let expected = Expected::of(asked).unwrap();
        assert_eq!(expected.entries, 4);
        let refused = expected.limited(asked, 3).unwrap_err();
        assert_eq!((refused.number, refused.line), (10, 5));
        assert!(expected.limited(asked, 4).is_ok());
    }

    #[test]
    fn in_a_merge_the_refusal_has_no_line() {
        let texts: [&[u8]; 2] = [b"DA:1,1\nend_of_record", b"DA:2,1\nend_of_record\n"];
        let bundle = bundles::of(&texts);
        let asked = Asked::Bundle(Mode::Checked, &bundle);
        let expected = Expected::of(asked).unwrap();
        assert_eq!(expected.entries, 3);
        let refused = expected.limited(asked, 2).unwrap_err();
        assert_eq!((refused.number, refused.text, refused.line), (10, 1, 0));
    }

    /// What the answer to a text rests on; number, line and field of a refusal.
    fn of_text(text: &str) -> (Basis, Option<(u32, usize, u32)>) {
        let expected = Expected::of(Asked::Text(text.as_bytes())).unwrap();
        let refusal = expected.told.err();
        let place = refusal.map(|refusal| (refusal.number, refusal.line, refusal.field));
        (expected.basis, place)
    }

    #[test]
    fn a_second_path_is_kept_apart() {
        for (text, told) in [
            (
                "SF:\nDA:1,1\nSF:a\nend_of_record\n",
                (Basis::Refusal, Some((25, 3, 0))),
            ),
            ("SF:a\nSF:a\n", (Basis::Refusal, Some((25, 2, 0)))),
            ("SF:a\nTN:b\nSF:a\n", (Basis::Rust, Some((7, 2, 0)))),
            (
                "SF:a\nend_of_record\nSF:b\nend_of_record\n",
                (Basis::Rust, None),
            ),
        ] {
            assert_eq!(of_text(text), told, "{text}");
        }
        let second = gathered(Mode::Lossy, &[MAX, b"SF:a\nSF:b\n"]);
        let refused = second.told.unwrap_err();
        assert_eq!((refused.number, refused.text, refused.line), (25, 1, 2));
    }

    #[test]
    fn a_plus_sign_is_kept_apart() {
        for (text, told) in [
            ("SF:a\nBRDA:1,0,0,+5\n", (Basis::Refusal, Some((19, 2, 4)))),
            ("LF:+\nXX\n", (Basis::Refusal, Some((19, 1, 1)))),
            ("SF:a\nDA:x,+1\n", (Basis::Rust, Some((5, 2, 1)))),
            ("SF:a\nTN:b\nDA:+1,1\n", (Basis::Rust, Some((7, 2, 0)))),
            ("TN:+5\nFN:1,+f\nend_of_record:+1\n", (Basis::Rust, None)),
        ] {
            assert_eq!(of_text(text), told, "{text}");
        }
        let plus = gathered(Mode::Checked, &[MAX, b"SF:a\nDA:+1,1\n"]);
        let refused = plus.told.unwrap_err();
        assert_eq!((refused.number, refused.text, refused.line), (19, 1, 2));
    }

    #[test]
    fn an_end_line_is_kept_apart() {
        for (text, told) in [
            ("SF:a\nFN:1,2,f\nend_of_record\n", (Basis::Ends, None)),
            ("SF:a\nFN:5,4,f\n", (Basis::Ends, Some((23, 2, 0)))),
            ("FN:5,4,f\nTN:a\n", (Basis::Ends, Some((23, 1, 0)))),
            ("FN:1,4294967296,f\n", (Basis::Ends, Some((6, 1, 2)))),
            ("FN:1,2,f\nTN:a\n", (Basis::Ends, Some((7, 2, 0)))),
            ("FN:+1,0,f\n", (Basis::Ends, Some((19, 1, 1)))),
            ("FN:1,2,f\n", (Basis::Ends, Some((8, 2, 0)))),
            ("FN:1,,f\nFN:1,+2,f\nend_of_record\n", (Basis::Rust, None)),
        ] {
            assert_eq!(of_text(text), told, "{text}");
        }
        let refused = gathered(Mode::Lossy, &[MAX, b"SF:a\nFN:2,1,f\n"]).told;
        let refused = refused.unwrap_err();
        assert_eq!((refused.number, refused.text, refused.line), (23, 1, 2));
    }

    /// The FN lines that are told.
    fn starts(expected: Option<Expected>) -> String {
        let printed = expected.unwrap().told.unwrap();
        let printed = String::from_utf8(printed).unwrap();
        let starts: Vec<&str> = printed
            .lines()
            .filter(|line| line.starts_with("FN:"))
            .collect();
        starts.join(" ")
    }

    /// A text of one section; blanks stand for line ends.
    fn text_of(lines: &str) -> String {
        format!("{}\nend_of_record\n", lines.replace(' ', "\n"))
    }

    #[test]
    fn the_later_fn_of_a_text_gives_the_end_line() {
        for (lines, expected) in [
            ("FN:1,9,f FN:1,f", "FN:1,f"),
            ("FN:1,9,f FN:2,5,f", "FN:2,5,f"),
            ("FN:1,f FN:1,9,f", "FN:1,9,f"),
            ("FN:1,9,f FNDA:3,f", "FN:1,9,f"),
            ("FNDA:3,f FN:1,9,f", "FN:1,9,f"),
            ("FN:1,2,3,f FNDA:1,3,f", "FN:1,2,3,f"),
            ("FN:2,9,a FN:1,1,b FN:1,7,a", "FN:1,7,a FN:1,1,b"),
        ] {
            let text = text_of(lines);
            let told = starts(Expected::of(Asked::Text(text.as_bytes())));
            assert_eq!(told, expected, "{lines}");
        }
    }

    #[test]
    fn end_lines_are_joined() {
        for (texts, checked, lossy) in [
            (&["FN:1,9,f", "FN:1,5,f"][..], "FN:1,9,f", "FN:1,5,f"),
            (&["FN:1,5,f", "FN:1,9,f"], "FN:1,9,f", "FN:1,9,f"),
            (&["FN:1,9,f", "FN:1,f"], "FN:1,9,f", "FN:1,f"),
            (&["FN:1,f", "FN:1,9,f"], "FN:1,9,f", "FN:1,9,f"),
            (&["FN:1,9,f", "FNDA:1,f"], "FN:1,9,f", "FN:1,9,f"),
            (&["FNDA:1,f", "FN:1,9,f"], "FN:1,9,f", "FN:1,9,f"),
            (&["FN:1,3,f", "FN:1,f", "FN:1,2,f"], "FN:1,3,f", "FN:1,2,f"),
        ] {
            let texts: Vec<String> = texts.iter().map(|lines| text_of(lines)).collect();
            let texts: Vec<&[u8]> = texts.iter().map(String::as_bytes).collect();
            let told = |mode| starts(Some(gathered(mode, &texts)));
            assert_eq!(
                (told(Mode::Checked), told(Mode::Lossy)),
                (checked.into(), lossy.into())
            );
        }
        let differ = [text_of("FN:1,9,f"), text_of("FN:2,9,f")];
        let differ = [differ[0].as_bytes(), differ[1].as_bytes()];
        assert_eq!(number(&gathered(Mode::Checked, &differ).told), 11);
        assert_eq!(starts(Some(gathered(Mode::Lossy, &differ))), "FN:2,9,f");
    }

    fn filter<'a>(starts: Starts, text: &'a str, list: &'a List) -> Asked<'a> {
        let text = text.as_bytes();
        Asked::Filter(Filter { starts, text, list })
    }

    #[test]
    fn the_filter_uses_the_end_line() {
        for (lines, range, expected) in [
            ("FN:3,f FN:5,6,g", [7, 7], ""),
            ("FN:3,20,f FN:9,g", [9, 9], "FN:3,20,f FN:9,g"),
            ("FN:3,20,f FN:9,g", [4, 4], "FN:3,20,f"),
            ("FN:3,4,f", [5, 9], ""),
            ("FN:3,3,f FN:3,3,g", [3, 3], "FN:3,3,f FN:3,3,g"),
            ("FN:3,f FN:3,g", [3, 3], "FN:3,g"),
            ("FN:5,9,f FN:7,g FN:8,h", [8, 8], "FN:5,9,f FN:8,h"),
        ] {
            let list = List {
                pairs: vec![range],
                used: 1,
            };
            let text = text_of(lines);
            let asked = filter(Starts::All, &text, &list);
            assert_eq!(starts(Expected::of(asked)), expected, "{lines}");
        }
    }

    /// What stays by all starts, and by distinct ones.
    #[test]
    fn the_filter_by_distinct_starts() {
        let three = "FN:3,f FN:3,g FN:3,h";
        for (lines, range, all, distinct) in [
            ("FN:3,f FN:3,g", [3, 3], "FN:3,g", "FN:3,f FN:3,g"),
            ("FN:3,f FN:3,g FN:3,h FN:7,i", [6, 6], "FN:3,h", three),
            ("FN:3,f FN:3,g FN:3,h FN:7,i", [7, 7], "FN:7,i", "FN:7,i"),
            ("FN:3,f FN:3,g FN:3,h FN:7,i", [2, 2], "", ""),
            // a function with an end line of its own ends those before it, and not itself
            ("FN:3,f FN:3,9,g FN:5,6,h", [7, 7], "FN:3,9,g", "FN:3,9,g"),
            ("FN:3,f FN:3,3,g", [9, 9], "", "FN:3,f"),
            ("FN:3,3,f FN:3,g", [9, 9], "FN:3,g", "FN:3,g"),
            // without a start there is nothing to end
            ("FN:3,f FNDA:1,g", [9, 9], "FN:3,f", "FN:3,f"),
            (
                "FN:0,f FN:0,g FN:1,h",
                [0, 0],
                "FN:0,f FN:0,g",
                "FN:0,f FN:0,g",
            ),
            ("FN:0,f FN:0,g", [1, 1], "FN:0,g", "FN:0,f FN:0,g"),
            (
                "FN:4294967295,f FN:4294967295,g",
                [u32::MAX, u32::MAX],
                "FN:4294967295,g",
                "FN:4294967295,f FN:4294967295,g",
            ),
        ] {
            let list = List {
                pairs: vec![range],
                used: 1,
            };
            let text = text_of(lines);
            let told = Starts::BOTH.map(|by| starts(Expected::of(filter(by, &text, &list))));
            assert_eq!(told, [all, distinct], "{lines}");
        }
    }

    /// Starts of another section end nothing.
    #[test]
    fn starts_are_those_of_one_section() {
        let text = "SF:a\nFN:3,f\nend_of_record\nSF:b\nFN:5,g\nend_of_record\n";
        let list = List {
            pairs: vec![[6, 6]],
            used: 1,
        };
        for by in Starts::BOTH {
            let expected = Expected::of(filter(by, text, &list));
            assert_eq!(starts(expected), "FN:3,f FN:5,g");
        }
    }

    #[test]
    fn other_functions_by_distinct_starts_are_kept_apart() {
        let basis = |by, lines: &str| {
            let list = List {
                pairs: vec![[3, 3]],
                used: 1,
            };
            let text = text_of(lines);
            Expected::of(filter(by, &text, &list)).unwrap().basis
        };
        for (lines, bases) in [
            ("FN:3,f FN:3,g", [Basis::Rust, Basis::Starts]),
            ("FN:3,f FN:4,g", [Basis::Rust; 2]),
            ("FN:4,f FN:4,g", [Basis::Rust; 2]),
            ("FN:3,3,f FN:3,g", [Basis::Ends; 2]),
            ("FN:3,f FN:3,3,g", [Basis::Ends, Basis::Starts]),
            ("DA:+1,1", [Basis::Refusal; 2]),
        ] {
            assert_eq!(Starts::BOTH.map(|by| basis(by, lines)), bases, "{lines}");
        }
    }

    #[test]
    fn what_is_not_well_formed_or_not_utf_8() {
        let refused = Expected::of(Asked::Bundle(Mode::Lossy, b"")).unwrap();
        assert_eq!(number(&refused.told), 16);
        assert!(Expected::of(Asked::Text(b"TN:\xff")).is_none());
    }
}
