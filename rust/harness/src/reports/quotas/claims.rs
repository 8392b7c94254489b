//! What SPEC 10.9 claims of two gathers with quotas, asked of the port: where the texts of other labs change, a lab's mark stays, and in another order
//! of the texts the same labs are let in.

use super::{let_in, Mark, Question, REFUSED};
use crate::compare::shown;
use crate::guarded::Left;
use crate::interface::{Gatherer, MARKS, MARK_WORDS, MAX_ENTRIES, WORDS};
use crate::reports::compare::{answered_by, words_for, Comparison, Lengths, Scratch};
use crate::reports::reference::{self, Entries};
use crate::reports::Asked;
use crate::tally::rows;
use oracle::report::section::Key;
use std::collections::BTreeMap;
use std::ffi::OsString;
use std::fmt;

/// How often each claim was tried.
#[derive(Default)]
pub struct Tally {
    /// Marks that stayed, by their first word.
    own: [u64; 3],
    orders: u64,
    /// Those in which each path has one spelling, so that the bytes are the same too.
    spelled_once: u64,
    /// Of these, those that are accepted.
    accepted: u64,
}

impl fmt::Display for Tally {
    fn fmt(&self, f: &mut fmt::Formatter) -> fmt::Result {
        let [let_in, above, refused] = self.own;
        rows(
            f,
            &[
                ("other labs changed, let in", let_in),
                ("  above their quota", above),
                ("  refused", refused),
                ("texts in another order", self.orders),
                ("  each path spelled once", self.spelled_once),
                ("  of these accepted", self.accepted),
            ],
        )
    }
}

impl<P: Gatherer> Comparison<P> {
    /// The lab has the same texts and the same quota in both: so it has the same mark.
    pub fn own_mark(&mut self, lab: usize, one: &Question, other: &Question) {
        let lengths = self.some_lengths(one, other);
        let [first, second] = [one, other].map(|question| self.answered(question, lengths));
        let own = |left: &Left| marks_of(left).get(lab - 1).copied();
        if let Some(mark) = own(&first) {
            self.tally.quotas.claims.own[mark[0].min(REFUSED) as usize] += 1;
        }
        if own(&first).is_none() || own(&first) != own(&second) {
            let wanted = format!("lab {lab} as in {}: {:?}", shown_in(one), own(&first));
            self.differ(Asked::Quotas(other.asked()), lengths, wanted, &second);
        }
    }

    /// Both have the same texts, each with its lab number and in any order. The same labs are let in, with the same entries; and where each path has one
    /// spelling in what is let in, both are accepted with the same bytes, or both are refused.
    pub fn any_order(&mut self, one: &Question, other: &Question) {
        let lengths = self.some_lengths(one, other);
        let [first, second] = [one, other].map(|question| self.answered(question, lengths));
        let marks = marks_of(&first);
        let is_same = is_alike(&marks, &marks_of(&second));
        let is_spelled_once = is_same && is_spelled_once(one, &marks);
        let [wrote, wrote_too] = [&first, &second].map(|left| answered_by(left).ok());
        let claims = &mut self.tally.quotas.claims;
        claims.orders += 1;
        claims.spelled_once += u64::from(is_spelled_once);
        claims.accepted += u64::from(is_spelled_once && wrote.is_some());
        if !is_same || (is_spelled_once && wrote != wrote_too) {
            let marks = first.marks.shown_words();
            let wanted = format!("as in {}: {marks}, {wrote:?}", shown_in(one));
            self.differ(Asked::Quotas(other.asked()), lengths, wanted, &second);
        }
    }

    /// The same for both: scratch for all entries or for few, and output for all bytes or for few.
    fn some_lengths(&mut self, one: &Question, other: &Question) -> Lengths {
        let most = one.bundle.len().max(other.bundle.len());
        let entries = match self.rng.one_in(3) {
            true => self.rng.below(12),
            false => most.min(MAX_ENTRIES),
        };
        let room = match self.rng.one_in(6) {
            true => self.rng.below(200),
            false => 64 * most,
        };
        Lengths {
            scratch: Scratch::Words(words_for(entries)),
            room,
            marks: MARKS,
            words: WORDS,
        }
    }

    fn answered(&mut self, question: &Question, lengths: Lengths) -> Left {
        let asked = Asked::Quotas(question.asked());
        let left = self.asked_with(asked, lengths);
        self.tally.count_number(asked, left.number);
        left
    }
}

fn shown_in(
    Question {
        bundle,
        labs,
        quotas,
    }: &Question,
) -> String {
    format!("{} of labs {labs:?} with quotas {quotas:?}", shown(bundle))
}

/// As a call wrote them; none where it wrote none.
fn marks_of(left: &Left) -> Vec<Mark> {
    let marks = left.marks.written().chunks(MARK_WORDS);
    let mark = |words: &[u64]| words.try_into().expect("marks of a few words each");
    marks.map(mark).collect()
}

/// Entries are told of labs that are not refused; the place of a refusal depends on the order.
fn is_alike(one: &[Mark], other: &[Mark]) -> bool {
    let alike = |(one, other): (&Mark, &Mark)| match (one[0], other[0]) {
        (REFUSED, REFUSED) => true,
        _ => one == other,
    };
    !one.is_empty() && one.len() == other.len() && one.iter().zip(other).all(alike)
}

/// Whether each section's path is spelled with the same bytes in all texts that are let in. Texts that are not UTF-8 are not looked at.
fn is_spelled_once(question: &Question, marks: &[Mark]) -> bool {
    let let_in = let_in(question.asked(), marks);
    let mut spelled: BTreeMap<Key, OsString> = BTreeMap::new();
    let_in.texts.iter().all(|text| {
        let is_text = std::str::from_utf8(text).is_ok();
        let read = is_text.then(|| reference::read(text, &mut Entries::limited(usize::MAX)));
        let sections = read.and_then(Result::ok);
        sections.is_some_and(|sections| {
            sections.into_keys().all(|key| {
                let path = key.source_file.as_os_str().to_owned();
                spelled.entry(key).or_insert_with(|| path.clone()) == &path
            })
        })
    })
}

#[cfg(test)]
mod tests {
    use super::*;
    use crate::interface::LABS;
    use crate::reports::bundles;
    use crate::reports::quotas::LET_IN;
    use crate::reports::stand_in::StandIn;
    use crate::stand_in::Wrong;

    fn question(sent: &[(u8, &str)]) -> Question {
        let texts: Vec<&str> = sent.iter().map(|&(_, text)| text).collect();
        Question {
            bundle: bundles::of(&texts),
            labs: sent.iter().map(|&(lab, _)| lab).collect(),
            quotas: vec![9; LABS],
        }
    }

    const LINE: &str = "SF:a/b\nDA:1,1\nend_of_record\n";
    const TWO_LINES: &str = "SF:c\nDA:1,1\nDA:2,1\nend_of_record\n";
    const OTHERWISE: &str = "SF:a//b\nDA:1,1\nend_of_record\n";

    #[test]
    fn another_mark_of_a_lab_is_seen() {
        let one = question(&[(2, LINE), (1, TWO_LINES), (2, "x\n")]);
        let other = question(&[(1, "x\n"), (1, LINE), (2, LINE), (2, "x\n")]);
        for (lab, wrong, differences) in [
            (2, Wrong::Nothing, 0),
            (2, Wrong::MarkPlaceInWhole, 1),
            (1, Wrong::Nothing, 1),
        ] {
            let mut comparison = Comparison::new(StandIn(wrong), 1);
            comparison.own_mark(lab, &one, &other);
            let count = comparison.differences.count;
            assert_eq!(count, differences, "{lab} {wrong:?}");
        }
    }

    #[test]
    fn other_labs_or_bytes_in_another_order_are_seen() {
        let one = question(&[(2, LINE), (1, TWO_LINES), (2, TWO_LINES)]);
        let other = question(&[(2, TWO_LINES), (2, LINE), (1, TWO_LINES)]);
        for (wrong, differences) in [
            (Wrong::Nothing, 0),
            (Wrong::EntriesOfLast, 1),
            (Wrong::FirstTextLost, 1),
        ] {
            let mut comparison = Comparison::new(StandIn(wrong), 1);
            comparison.any_order(&one, &other);
            assert_eq!(comparison.differences.count, differences, "{wrong:?}");
        }
    }

    #[test]
    fn a_path_may_be_spelled_twice() {
        let marks = vec![[LET_IN, 2, 0, 0, 0]; LABS];
        for (second, once) in [(LINE, true), (OTHERWISE, false), (TWO_LINES, true)] {
            let question = question(&[(1, LINE), (2, second)]);
            assert_eq!(is_spelled_once(&question, &marks), once, "{second}");
        }
        let mut left_out = marks;
        left_out[1][0] = REFUSED;
        let question = question(&[(1, LINE), (2, OTHERWISE)]);
        assert!(is_spelled_once(&question, &left_out));
    }
}
