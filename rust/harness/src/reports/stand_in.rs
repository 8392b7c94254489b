//! A stand-in for a port that reads, filters and gathers.

use super::compare::{words_for, Scratch};
use super::expected::{in_words, Expected};
use super::{page, quotas, revisions, windows, Asked};
use crate::ends::taken_out;
use crate::interface::{Filter, Gatherer, Lent, Quotas};
use crate::stand_in::Wrong;
use oracle::Mode;

/// Answers as expected, save for what is wrong.
pub struct StandIn(pub Wrong);

impl StandIn {
    fn entries(&self, lent: &Lent) -> usize {
        let entries = Scratch::Words(lent.scratch.len()).entries();
        match self.0 {
            Wrong::OneEntryFewer => entries.saturating_sub(1),
            Wrong::OneEntryMore => entries + 1,
            Wrong::ScratchRead if lent.scratch.first().is_some_and(|word| word % 7 == 3) => 0,
            _ => entries,
        }
    }

    fn tell(&self, asked: Asked, lent: &mut Lent) -> u32 {
        let entries = self.entries(lent);
        let unsigned: Vec<u8> = without_signs(asked.bytes());
        let endless = taken_out(asked.bytes());
        let asked = match (asked, self.0) {
            (Asked::Text(_), Wrong::PlusTaken) => Asked::Text(&unsigned),
            (Asked::Text(_), Wrong::EndIsName) => Asked::Text(&endless),
            (asked, _) => asked,
        };
        let told = Expected::of(asked).unwrap().limited(asked, entries);
        self.0.print(in_words(&told), lent.out, lent.answer)
    }

    fn tell_bundle(&self, mode: Mode, bundle: &[u8], mut lent: Lent) -> u32 {
        let mode = match self.0 {
            Wrong::CheckedIsLossy => Mode::Lossy,
            Wrong::LossyIsChecked => Mode::Checked,
            _ => mode,
        };
        self.tell(Asked::Bundle(mode, bundle), &mut lent)
    }
}

fn without_signs(bytes: &[u8]) -> Vec<u8> {
    let others = bytes.iter().filter(|&&byte| byte != b'+');
    others.copied().collect()
}

impl Gatherer for StandIn {
    fn read_text(&self, text: &[u8], mut lent: Lent) -> u32 {
        let number = self.tell(Asked::Text(text), &mut lent);
        lent.scratch.fill(3);
        number
    }

    fn gather(&self, bundle: &[u8], out: &mut [u8], answer: &mut [u64]) -> u32 {
        let entries = 256 - usize::from(self.0 == Wrong::InnerLimit);
        let mut lent = Lent {
            scratch: &mut vec![0; words_for(entries)],
            out,
            marks: &mut [],
            answer,
        };
        self.tell(Asked::Bundle(Mode::Checked, bundle), &mut lent)
    }

    fn gather_with(&self, bundle: &[u8], lent: Lent) -> u32 {
        self.tell_bundle(Mode::Checked, bundle, lent)
    }

    fn gather_lossy(&self, bundle: &[u8], lent: Lent) -> u32 {
        self.tell_bundle(Mode::Lossy, bundle, lent)
    }

    fn totals(&self, bundle: &[u8], mut lent: Lent) -> u32 {
        let report = |mode| Expected::of(Asked::Bundle(mode, bundle)).unwrap().told;
        let lines = |page: &[u8]| page.iter().filter(|&&byte| byte == b'\n').count();
        match (self.0, report(Mode::Checked), report(Mode::Lossy)) {
            (Wrong::ReportMeasured, Ok(report), _) if report.len() > lent.out.len() => {
                self.0.print(Ok(&report), &mut [], lent.answer)
            }
            (Wrong::PageOfLossy, _, Ok(report)) => {
                self.0.print(Ok(&page::of(&report)), lent.out, lent.answer)
            }
            (Wrong::NothingForNothing, Ok(report), _) if lines(&page::of(&report)) == 1 => {
                self.0.print(Ok(&[]), lent.out, lent.answer)
            }
            _ => self.tell(Asked::Totals(bundle), &mut lent),
        }
    }

    fn gather_revisions(&self, bundle: &[u8], lent: Lent) -> u32 {
        let told = revisions::stand_in::told(self.0, bundle, self.entries(&lent));
        self.0.print(in_words(&told), lent.out, lent.answer)
    }

    fn windows(&self, bundle: &[u8], width: u32, lent: Lent) -> u32 {
        let told = windows::stand_in::told(self.0, width, bundle, self.entries(&lent));
        self.0.print(in_words(&told), lent.out, lent.answer)
    }

    fn gather_quotas(&self, asked: Quotas, lent: Lent) -> u32 {
        quotas::stand_in::tell(self.0, asked, self.entries(&lent), lent)
    }

    fn filter_text(&self, asked: Filter, mut lent: Lent) -> u32 {
        let asked = if self.0 == Wrong::FilterKeepsAll && asked.list.held().is_some() {
            Asked::Text(asked.text)
        } else {
            Asked::Filter(self.0.filter(asked))
        };
        self.tell(asked, &mut lent)
    }
}
