//! The port's calls, and the meaning of the eight words that they answer with.

use crate::ranges::List;

/// The calls of the port on lines and paths, in safe form.
///
/// A number is 0 for an answer and else SPEC 1.7's refusal. The eight words are written where the slice holds them all; a shorter
/// slice stays, and so do words past the eighth.
pub trait Port {
    fn read_line(&self, line: &[u8], answer: &mut [u64]) -> u32;

    /// Reads a line and prints its record with byte 10 after it.
    fn print_line(&self, line: &[u8], out: &mut [u8], answer: &mut [u64]) -> u32;

    /// One of [`LESS`], [`EQUAL`] and [`GREATER`].
    fn compare_paths(&self, a: &[u8], b: &[u8]) -> u32;
}

pub trait Numbers {
    /// Reads one number field, a number up to `max`. The first two words are its value and how many digits were read.
    fn read_number(&self, field: &[u8], max: u64, answer: &mut [u64]) -> u32;
}

/// What is lent to a call that prints a report.
pub struct Lent<'a> {
    pub scratch: &'a mut [u64],
    pub out: &'a mut [u8],
    /// To the gather with quotas alone.
    pub marks: &'a mut [u64],
    pub answer: &'a mut [u64],
}

/// Which starts end the functions before them that give no end line (SPEC 8.5).
#[derive(Debug, Clone, Copy, PartialEq, Eq)]
pub enum Starts {
    /// The next one, also where it is equal. This is the Rust's rule.
    All,
    /// The next greater one.
    Distinct,
}

impl Starts {
    pub const BOTH: [Starts; 2] = [Starts::All, Starts::Distinct];
}

/// What a filter is asked: of a text, what the list holds.
#[derive(Clone, Copy)]
pub struct Filter<'a> {
    pub starts: Starts,
    pub text: &'a [u8],
    pub list: &'a List,
}

/// What a gather with quotas is asked.
#[derive(Clone, Copy)]
pub struct Quotas<'a> {
    pub bundle: &'a [u8],
    /// The lab number of each text.
    pub labs: &'a [u8],
    /// Of each lab.
    pub quotas: &'a [u32],
}

/// The calls on texts and bundles. They print a report, its page or the lines of windows to `out`, and leave it alone where they refuse; the scratch is free afterwards.
pub trait Gatherer {
    fn read_text(&self, text: &[u8], lent: Lent) -> u32;

    /// Checked, with [`INNER_WORDS`] of scratch inside.
    fn gather(&self, bundle: &[u8], out: &mut [u8], answer: &mut [u64]) -> u32;

    /// Checked.
    fn gather_with(&self, bundle: &[u8], lent: Lent) -> u32;

    fn gather_lossy(&self, bundle: &[u8], lent: Lent) -> u32;

    /// The page of totals of the checked gather.
    fn totals(&self, bundle: &[u8], lent: Lent) -> u32;

    /// The checked gather of a bundle with revisions.
    fn gather_revisions(&self, bundle: &[u8], lent: Lent) -> u32;

    /// For each text, hit and found lines of the checked gather of that text and those before it, up to `width` texts in all.
    fn windows(&self, bundle: &[u8], width: u32, lent: Lent) -> u32;

    /// The checked gather of the labs that keep to their quotas. [`MARKS`] words are written to the marks where the slice holds them all.
    fn gather_quotas(&self, asked: Quotas, lent: Lent) -> u32;

    fn filter_text(&self, asked: Filter, lent: Lent) -> u32;
}

/// The calls that take a table of tags, each as the call without one.
pub trait Tagged: Port + Gatherer {
    fn read_line_tagged(&self, tags: &[u8], line: &[u8], answer: &mut [u64]) -> u32;

    fn print_line_tagged(
        &self,
        tags: &[u8],
        line: &[u8],
        out: &mut [u8],
        answer: &mut [u64],
    ) -> u32;

    fn read_text_tagged(&self, tags: &[u8], text: &[u8], lent: Lent) -> u32;

    /// Checked.
    fn gather_tagged(&self, tags: &[u8], bundle: &[u8], lent: Lent) -> u32;

    fn gather_lossy_tagged(&self, tags: &[u8], bundle: &[u8], lent: Lent) -> u32;

    fn totals_tagged(&self, tags: &[u8], bundle: &[u8], lent: Lent) -> u32;

    fn gather_revisions_tagged(&self, tags: &[u8], bundle: &[u8], lent: Lent) -> u32;

    fn windows_tagged(&self, tags: &[u8], bundle: &[u8], width: u32, lent: Lent) -> u32;

    fn gather_quotas_tagged(&self, tags: &[u8], asked: Quotas, lent: Lent) -> u32;

    fn filter_text_tagged(&self, tags: &[u8], asked: Filter, lent: Lent) -> u32;
}

/// The calls on lists of ranges.
pub trait Ranges {
    /// Changes the pairs; the first word of the answer is how many are used then.
    fn insert_range(&self, list: &mut List, start: u32, end: u32, answer: &mut [u64]) -> u32;

    fn query_range(&self, list: &List, start: u32, end: u32, answer: &mut [u64]) -> u32;
}

pub trait HalfOpen {
    /// The start and the end of the range that `a..b` is.
    fn half_open(&self, a: u32, b: u32, answer: &mut [u64]);
}

pub use lcov_sys::{
    EQUAL, GREATER, LABS, LESS, MARK_WORDS, MAX_ENTRIES, OUTPUT_TOO_SHORT, WORDS, WORDS_PER_ENTRY,
};

/// The words of all marks.
pub const MARKS: usize = LABS * MARK_WORDS;

/// The scratch inside [`Gatherer::gather`].
pub const INNER_WORDS: usize = 8192;

pub type Words = [u64; WORDS];

// The words of a line that is read. A kind is its place from 1 in `RecordKind`; what a kind does not have is 0.
pub const KIND: usize = 0;
pub const FIRST_NUMBER: usize = 1;
pub const NUMBERS: usize = 4;
pub const GIVEN: usize = 5;
pub const START: usize = 6;
pub const LEN: usize = 7;

// The word of what is printed: a line or a report.
pub const WRITTEN: usize = 0;

// The words of a refusal.
pub const TEXT: usize = 0;
pub const LINE: usize = 1;
pub const FIELD: usize = 2;
pub const NEEDED: usize = 3;
