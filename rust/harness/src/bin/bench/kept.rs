//! What is lent to the port, and kept between the rounds.

use harness::interface::{
    Lent, Words, MARKS, MAX_ENTRIES, NEEDED, OUTPUT_TOO_SHORT, WORDS, WORDS_PER_ENTRY, WRITTEN,
};
use std::cell::RefCell;
use std::hint::black_box;

pub struct Kept {
    scratch: RefCell<Vec<u64>>,
    out: RefCell<Vec<u8>>,
    /// The length of the report that is expected.
    expected: usize,
}

impl Kept {
    /// An output as a caller lends it who doesn't know how long the report is: the command's own measure.
    pub fn roomy(expected: &str) -> Self {
        Kept::sized(expected, lcov_sys::roomy(expected.len()))
    }

    /// As long as the report that is expected.
    pub fn exact(expected: &str) -> Self {
        Kept::sized(expected, expected.len())
    }

    /// Empty: the report is read, and what it would take is counted.
    pub fn none(expected: &str) -> Self {
        Kept::sized(expected, 0)
    }

    fn sized(expected: &str, len: usize) -> Self {
        Kept {
            scratch: RefCell::new(vec![0; MAX_ENTRIES * WORDS_PER_ENTRY]),
            out: RefCell::new(vec![0; len]),
            expected: expected.len(),
        }
    }

    /// With scratch for no more than so many entries.
    pub fn for_entries(self, entries: usize) -> Self {
        let scratch = RefCell::new(vec![0; entries * WORDS_PER_ENTRY]);
        Kept { scratch, ..self }
    }

    pub fn call(&self, ask: impl Fn(Lent) -> u32) {
        let (number, answer) = self.asked(ask);
        let (told, place) = if self.out.borrow().len() < self.expected {
            (OUTPUT_TOO_SHORT, NEEDED)
        } else {
            (0, WRITTEN)
        };
        assert_eq!((number, answer[place]), (told, self.expected as u64));
        black_box(&self.out);
    }

    /// Whether the call prints this report.
    pub fn prints(&self, report: &str, ask: impl Fn(Lent) -> u32) -> bool {
        self.out.borrow_mut().fill(0);
        let (number, answer) = self.asked(ask);
        let is_told = (number, answer[WRITTEN]) == (0, report.len() as u64);
        is_told && self.out.borrow().starts_with(report.as_bytes())
    }

    fn asked(&self, ask: impl Fn(Lent) -> u32) -> (u32, Words) {
        let mut answer = [0; WORDS];
        let number = ask(Lent {
            scratch: &mut self.scratch.borrow_mut(),
            out: &mut self.out.borrow_mut(),
            marks: &mut [0; MARKS],
            answer: &mut answer,
        });
        (number, answer)
    }
}
