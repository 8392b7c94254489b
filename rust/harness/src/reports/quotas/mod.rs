//! A quota for each lab (SPEC 7.7): which texts each lab has, its mark, and the texts of the labs that are let in. What the port must answer is told
//! of these texts alone, as of a bundle that has no others.

pub mod claims;
pub mod random;
pub mod recorded;
pub mod systematic;

#[cfg(test)]
pub mod stand_in;

use super::bundles;
use super::chosen::Chosen;
use super::expected::NOT_WELL_FORMED;
use super::reference::{self, Entries};
use crate::expected::{refused, Answer};
use crate::interface::{Quotas, FIELD, LABS, LINE, MARK_WORDS, TEXT};
use crate::tally::rows;
use oracle::{Mode, Refusal};
use std::fmt;

pub const MALFORMED_LABS: u32 = 29;

pub type Mark = [u64; MARK_WORDS];

// The first word of a mark.
pub const LET_IN: u64 = 0;
pub const ABOVE_QUOTA: u64 = 1;
pub const REFUSED: u64 = 2;

/// A question that owns what it is about.
#[derive(Clone, Debug, PartialEq, Eq)]
pub struct Question {
    pub bundle: Vec<u8>,
    pub labs: Vec<u8>,
    pub quotas: Vec<u32>,
}

impl Question {
    pub fn asked(&self) -> Quotas<'_> {
        Quotas {
            bundle: &self.bundle,
            labs: &self.labs,
            quotas: &self.quotas,
        }
    }
}

/// All texts, where each has a lab.
fn texts(asked: Quotas<'_>) -> Result<Vec<&[u8]>, Refusal> {
    let texts = bundles::decoded(asked.bundle).ok_or(Refusal::numbered(NOT_WELL_FORMED))?;
    let is_lab = |lab: &u8| (1..=LABS).contains(&usize::from(*lab));
    let are_labs = asked.labs.len() == texts.len() && asked.labs.iter().all(is_lab);
    match are_labs && asked.quotas.len() == LABS {
        true => Ok(texts),
        false => Err(Refusal::numbered(MALFORMED_LABS)),
    }
}

/// The texts of each lab, counted by themselves.
pub fn labs(asked: Quotas<'_>) -> Result<Vec<Chosen<'_>>, Refusal> {
    let texts = texts(asked)?;
    let of_lab = |lab: usize| {
        let sent = texts.iter().zip(asked.labs);
        let own = sent.filter(|(_, number)| usize::from(**number) == lab);
        Chosen::all(own.map(|(text, _)| *text).collect())
    };
    Ok((1..=LABS).map(of_lab).collect())
}

/// The mark of each lab, with scratch for so many entries.
pub fn marks(asked: Quotas, limit: usize) -> Result<Vec<Mark>, Refusal> {
    let labs = labs(asked)?.into_iter().zip(asked.quotas);
    let mark_of = |(lab, quota): (Chosen, &u32)| {
        let entries = &mut Entries::limited(limit);
        let gathered = reference::gather(Mode::Checked, &lab.texts, entries);
        let entries = gathered.map(|sections| reference::entries_of(&sections) as u64);
        mark(*quota, entries.map_err(refused))
    };
    Ok(labs.map(mark_of).collect())
}

/// The mark of a lab by its quota and the entries that it has, or the refusal of its gather.
pub fn mark(quota: u32, entries: Result<u64, Answer>) -> Mark {
    match entries {
        Ok(entries) if entries <= quota.into() => [LET_IN, entries, 0, 0, 0],
        Ok(entries) => [ABOVE_QUOTA, entries, 0, 0, 0],
        Err(Answer { number, words }) => {
            let [text, line, field] = [TEXT, LINE, FIELD].map(|place| words[place]);
            [REFUSED, number.into(), text, line, field]
        }
    }
}

/// The texts of the labs that are let in by these marks.
pub fn let_in<'a>(asked: Quotas<'a>, marks: &[Mark]) -> Chosen<'a> {
    let texts = texts(asked).expect("marks come where each text has a lab");
    let is_in = |place: &usize| marks[usize::from(asked.labs[*place]) - 1][0] == LET_IN;
    Chosen::of(&texts, (0..texts.len()).filter(is_in))
}

/// What was told of labs.
#[derive(Default)]
pub struct Tally {
    /// Labs that have texts, by the first word of their mark.
    labs: [u64; 3],
    /// Recorded answers that came again.
    pub recorded: u64,
    pub claims: claims::Tally,
}

impl Tally {
    /// Those of a question that has these marks.
    pub fn count(&mut self, asked: Quotas, marks: &[u64]) {
        for (lab, mark) in (1..).zip(marks.chunks(MARK_WORDS)) {
            if asked.labs.contains(&lab) {
                self.labs[mark[0] as usize] += 1;
            }
        }
    }
}

impl fmt::Display for Tally {
    fn fmt(&self, f: &mut fmt::Formatter) -> fmt::Result {
        let [let_in, above, refused] = self.labs;
        rows(
            f,
            &[
                ("labs let in", let_in),
                ("  above their quota", above),
                ("  refused", refused),
                ("recorded quotas", self.recorded),
            ],
        )?;
        write!(f, "{}", self.claims)
    }
}

#[cfg(test)]
mod tests {
    use super::*;
    use crate::reports::page;
    use crate::reports::random::meeting_texts;
    use crate::Rng;

    const LINE_OF_A: &str = "SF:a\nDA:1,1\nend_of_record\n";

    fn question(labs: &[u8], quota: u32) -> Question {
        Question {
            bundle: bundles::of(&vec![LINE_OF_A; labs.len()]),
            labs: labs.to_vec(),
            quotas: vec![quota; LABS],
        }
    }

    #[test]
    fn texts_of_labs() {
        let question = question(&[2, 1, 2, 8], 9);
        let labs = labs(question.asked()).unwrap();
        let many: Vec<usize> = labs.iter().map(|lab| lab.texts.len()).collect();
        assert_eq!(many, [1, 2, 0, 0, 0, 0, 0, 1]);
        assert_eq!(labs[1].places, [0, 1]);
        let mut marks = marks(question.asked(), 2).unwrap();
        assert_eq!(marks[1], [LET_IN, 2, 0, 0, 0]);
        assert_eq!(marks[2], [LET_IN, 0, 0, 0, 0]);
        marks[0][0] = REFUSED;
        assert_eq!(let_in(question.asked(), &marks).places, [0, 2, 3]);
    }

    #[test]
    fn marks_by_quota_and_limit() {
        let of_first = |quota, limit| marks(question(&[1], quota).asked(), limit).unwrap()[0];
        assert_eq!(of_first(2, 9), [LET_IN, 2, 0, 0, 0]);
        assert_eq!(of_first(1, 9), [ABOVE_QUOTA, 2, 0, 0, 0]);
        assert_eq!(of_first(9, 1), [REFUSED, 10, 0, 2, 0]);
    }

    #[test]
    fn a_lab_for_each_text() {
        let number = |asked: Quotas| labs(asked).err().map(|refusal| refusal.number);
        let two = question(&[1, 8], 9);
        assert_eq!(number(two.asked()), None);
        for labs in [&[1, 9][..], &[0, 1], &[1], &[1, 1, 1]] {
            let asked = Quotas {
                labs,
                ..two.asked()
            };
            assert_eq!(number(asked), Some(MALFORMED_LABS), "{labs:?}");
            let bundle = &[];
            assert_eq!(number(Quotas { bundle, ..asked }), Some(NOT_WELL_FORMED));
        }
        for quotas in [&[9; LABS - 1][..], &[9; LABS + 1]] {
            let asked = Quotas {
                quotas,
                ..two.asked()
            };
            assert_eq!(number(asked), Some(MALFORMED_LABS));
        }
    }

    /// Where the Rust can't be asked, they are counted in what the port prints.
    #[test]
    fn entries_are_the_same_in_maps_and_in_print() {
        let mut rng = Rng::new(5);
        for _ in 0..500 {
            let texts = meeting_texts(&mut rng, 3);
            let texts: Vec<&[u8]> = texts.iter().map(Vec::as_slice).collect();
            let mut entries = Entries::limited(usize::MAX);
            if let Ok(sections) = reference::gather(Mode::Checked, &texts, &mut entries) {
                let entries = reference::entries_of(&sections) as u64;
                assert_eq!(page::entries(&reference::printed(sections)), entries);
            }
        }
    }
}
