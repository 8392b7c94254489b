//! Inserts into an empty range list and queries of it: one with start ≤ end answers yes exactly if some range that was inserted shares a line with it.

use super::{Calls, Comparison};
use crate::differences::Difference;
use crate::guarded::LentWords;
use crate::interface::WORDS;
use crate::ranges::List;
use oracle::requests::Lines;

impl<P: Calls> Comparison<P> {
    /// Inserts into the empty list until one is refused, then asks the queries. What is left is the list.
    pub fn list(&mut self, mut list: List, inserts: &[Lines], queries: &[(u32, u32)]) -> List {
        let taken = inserts
            .iter()
            .take_while(|&&lines| self.inserts(&mut list, lines));
        let inserted = &inserts[..taken.count()];
        for &(start, end) in queries {
            self.query(&list, inserted, start, end);
        }
        list
    }

    /// Whether the insert is accepted.
    fn inserts(&mut self, list: &mut List, lines: Lines) -> bool {
        let (start, end) = self.ends(lines);
        let mut words = LentWords::new(WORDS);
        self.tally.calls += 1;
        let number = self.port.insert_range(list, start, end, words.lend());
        let counts = &mut self.tally.lists;
        if number != 0 {
            counts.refused += 1;
            return false;
        }
        counts.inserted += 1;
        counts.dropped += u64::from(start > end);
        list.used = words.word(0) as usize;
        true
    }

    /// What is handed to the insert: of a half-open range, the range that the port says it is.
    fn ends(&mut self, lines: Lines) -> (u32, u32) {
        match lines {
            Lines::Closed(start, end) => (start, end),
            Lines::HalfOpen(start, past) => {
                let mut words = LentWords::new(WORDS);
                self.tally.calls += 1;
                self.port.half_open(start, past, words.lend());
                (words.word(0) as u32, words.word(1) as u32)
            }
        }
    }

    fn query(&mut self, list: &List, inserted: &[Lines], start: u32, end: u32) {
        let held = inserted.iter().any(|&lines| shares(lines, start, end));
        let counts = &mut self.tally.lists;
        *match held {
            true => &mut counts.held,
            false => &mut counts.not_held,
        } += 1;
        let mut words = LentWords::new(WORDS);
        self.tally.calls += 1;
        let number = self.port.query_range(list, start, end, words.lend());
        if number != 0 || words.word(0) != u64::from(held) {
            self.differences.add(0, || Difference {
                asked: format!("query {start} to {end} of {list:?} after {inserted:?}"),
                rust: format!("held: {held}"),
                port: words.shown(number),
            });
        }
    }
}

/// Whether a line of the range is one from start to end, by SPEC 8.4's words for a half-open one. A range with start above end has no line.
fn shares(lines: Lines, start: u32, end: u32) -> bool {
    let (first, last) = match lines {
        Lines::Closed(first, last) => (first, last),
        Lines::HalfOpen(first, past) => (first, past.max(1) - 1),
    };
    first <= last && first <= end && start <= last
}
