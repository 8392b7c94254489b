//! How often each kind of answer came to texts and bundles.

use super::expected::{Expected, Told};
use super::{quotas, revisions, windows, Asked};
use crate::expected::Basis;
use crate::interface::Starts;
use crate::tally::{numbered, row, rows, NAMES, NUMBERS};
use oracle::Mode;
use std::fmt;

const QUESTIONS: usize = 9;

#[derive(Default)]
pub struct Tally {
    /// Questions by the number of their answer with ample scratch and output.
    asked: [[u64; QUESTIONS]; NUMBERS],
    /// Calls by the number of their answer: each question is asked with several lengths of scratch and output.
    calls: [[u64; QUESTIONS]; NUMBERS],
    /// Questions that are not UTF-8.
    pub outside: [u64; QUESTIONS],
    /// Questions that the Rust answers otherwise, by the number of their answer: a section has a second SF, a number a plus sign, a run the same
    /// revision twice, a window no width, or a text no lab.
    apart: [[u64; QUESTIONS]; NUMBERS],
    /// Questions with an end line, which the Rust does not know, by the number of their answer.
    with_end: [[u64; QUESTIONS]; NUMBERS],
    /// Filters by distinct starts that keep other functions than the Rust's filter, by the number of their answer.
    by_starts: [[u64; QUESTIONS]; NUMBERS],
    /// Pages of totals, compared with what the entries of the Rust's report add up to.
    pub pages: u64,
    /// Questions asked with every length of scratch, output and answer.
    pub thorough: u64,
    /// Written texts that were read back.
    pub read_back: u64,
    /// Pages of what a gather wrote.
    pub pages_again: u64,
    /// What the two filters print, held against each other.
    pub beside: Beside,
    /// What was chosen of bundles with revisions.
    pub revisions: revisions::Tally,
    /// What was told of windows.
    pub windows: windows::Tally,
    /// What was told of labs.
    pub quotas: quotas::Tally,
}

/// Pairs of filters of one text and one list.
#[derive(Default)]
pub struct Beside {
    /// Both with one refusal.
    pub refused: u64,
    /// The starts of each section differ, so that both print the same.
    pub same: u64,
    /// Two functions of a section have one start.
    pub equal_starts: u64,
}

fn column(asked: Asked) -> usize {
    match asked {
        Asked::Text(_) => 0,
        Asked::Filter(filter) => match filter.starts {
            Starts::All => 1,
            Starts::Distinct => 2,
        },
        Asked::Bundle(Mode::Checked, _) => 3,
        Asked::Bundle(Mode::Lossy, _) => 4,
        Asked::Totals(_) => 5,
        Asked::Revisions(_) => 6,
        Asked::Windows(..) => 7,
        Asked::Quotas(_) => 8,
    }
}

fn number(told: &Told) -> usize {
    told.as_ref()
        .map_or_else(|refusal| refusal.number as usize, |_| 0)
}

impl Tally {
    pub fn count_expected(&mut self, asked: Asked, expected: &Expected) {
        match asked {
            Asked::Windows(width, bundle) if expected.told.is_ok() => {
                self.windows.count(width, bundle)
            }
            Asked::Quotas(quotas) => self.quotas.count(quotas, &expected.marks),
            _ => {}
        }
        self.count_question(asked, expected.basis, &expected.told);
    }

    fn count_question(&mut self, asked: Asked, basis: Basis, told: &Told) {
        let counts = match basis {
            Basis::Page => return self.pages += 1,
            // counted above
            Basis::Windows => return,
            Basis::Rust => &mut self.asked,
            Basis::Refusal => &mut self.apart,
            Basis::Ends => &mut self.with_end,
            Basis::Starts => &mut self.by_starts,
        };
        counts[number(told)][column(asked)] += 1;
    }

    pub fn count_outside(&mut self, asked: Asked) {
        self.outside[column(asked)] += 1;
    }

    pub fn count_call(&mut self, asked: Asked, number: u32) {
        self.calls[number as usize][column(asked)] += 1;
    }

    /// By what the port answered, which may be any number.
    pub fn count_number(&mut self, asked: Asked, number: u32) {
        self.count_call(asked, number.min(NUMBERS as u32 - 1));
    }

    /// Those that were compared with the Rust.
    pub fn questions(&self) -> u64 {
        let inside: u64 = self.asked.iter().flatten().sum();
        inside + self.outside.iter().sum::<u64>()
    }

    /// Those whose answers were counted from what the Rust's reports hold.
    pub fn counted(&self) -> u64 {
        self.pages + self.windows.bundles
    }

    pub fn asked(&self) -> u64 {
        let apart = [&self.apart, &self.with_end, &self.by_starts];
        self.questions() + self.counted() + apart.into_iter().flatten().flatten().sum::<u64>()
    }

    pub fn calls(&self) -> u64 {
        self.calls.iter().flatten().sum()
    }

    pub fn calls_refused(&self, number: u32) -> u64 {
        self.calls[number as usize].iter().sum()
    }
}

/// A row for each number, under the names of the columns.
fn table(f: &mut fmt::Formatter, what: &str, counts: &[[u64; QUESTIONS]; NUMBERS]) -> fmt::Result {
    row(
        f,
        what,
        &[
            "texts",
            "filters",
            "distinct",
            "checked",
            "lossy",
            "totals",
            "revisions",
            "windows",
            "quotas",
        ],
    )?;
    for (number, (name, counts)) in NAMES.iter().zip(counts).enumerate() {
        if number == 0 {
            row(f, name, counts)?;
        } else if !name.is_empty() {
            row(f, &format!("refused {number:>2} {name}"), counts)?;
        }
    }
    Ok(())
}

impl fmt::Display for Tally {
    fn fmt(&self, f: &mut fmt::Formatter) -> fmt::Result {
        table(f, "questions", &self.asked)?;
        row(f, "outside", &self.outside)?;
        numbered(f, "apart", self.apart)?;
        numbered(f, "end line", self.with_end)?;
        numbered(f, "distinct starts", self.by_starts)?;
        rows(
            f,
            &[
                ("questions", self.questions()),
                ("pages of totals", self.pages),
                ("all questions", self.asked()),
                ("  of them with every length", self.thorough),
            ],
        )?;
        table(f, "calls", &self.calls)?;
        rows(
            f,
            &[
                ("calls", self.calls()),
                ("  of them reading back", self.read_back),
                ("  of them pages again", self.pages_again),
                ("both filters, refused", self.beside.refused),
                ("both filters, starts differ", self.beside.same),
                ("both filters, equal starts", self.beside.equal_starts),
            ],
        )?;
        write!(f, "{}{}{}", self.revisions, self.windows, self.quotas)
    }
}
