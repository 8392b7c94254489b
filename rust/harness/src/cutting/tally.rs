//! How often the two ways were compared, and what they met.

use crate::interface::Starts;
use crate::tally::{row, rows};
use std::fmt;

const FILTERS: usize = Starts::BOTH.len();

#[derive(Default)]
pub struct Tally {
    /// Bundles that the checked gather refuses, so that nothing is claimed of them.
    pub refused: u64,
    /// Bundles that it accepts, each with a range list.
    pub accepted: u64,
    /// Those with scratch for as many entries as the gather needs, and no more.
    pub at_the_limit: u64,
    pub with_table: u64,
    /// Recorded bytes of a way that came again.
    pub recorded: u64,
    /// By the filter, in the order of [`Starts::BOTH`].
    pub ways: [Ways; FILTERS],
    pub lists: Lists,
    pub calls: u64,
}

/// Pairs of reports: one cut before adding, one after.
#[derive(Default)]
pub struct Ways {
    pub compared: u64,
    pub same_bytes: u64,
    /// A path is spelled otherwise.
    pub spelled: u64,
    /// Other functions stay, or other counts of them.
    pub functions: u64,
    /// One of both was refused.
    pub refused: u64,
    /// Sections that lost all items by the cut, and so by the reading back.
    pub emptied: u64,
    pub sections: u64,
    pub lines: u64,
    pub branches: u64,
}

type Count = fn(&Ways) -> u64;

/// Inserts into empty range lists, and queries.
#[derive(Default)]
pub struct Lists {
    pub inserted: u64,
    /// Those among them with start above end.
    pub dropped: u64,
    /// The list had no room, and ended there.
    pub refused: u64,
    pub held: u64,
    pub not_held: u64,
}

impl Tally {
    /// Pairs of reports, recorded ways and queries.
    pub fn compared(&self) -> u64 {
        let ways: u64 = self
            .ways
            .iter()
            .map(|ways| ways.compared + ways.refused)
            .sum();
        ways + self.recorded + self.lists.held + self.lists.not_held
    }
}

impl fmt::Display for Tally {
    fn fmt(&self, f: &mut fmt::Formatter) -> fmt::Result {
        let Lists {
            inserted,
            dropped,
            refused,
            held,
            not_held,
        } = self.lists;
        rows(
            f,
            &[
                ("cut before or after adding", self.accepted),
                ("  entries just enough", self.at_the_limit),
                ("  with a table of tags", self.with_table),
                ("  bundles refused, not cut", self.refused),
            ],
        )?;
        row(f, "both ways", &["filters", "distinct"])?;
        let counts: [(&str, Count); 9] = [
            ("compared", |ways| ways.compared),
            ("  the same bytes", |ways| ways.same_bytes),
            ("  a path spelled otherwise", |ways| ways.spelled),
            ("  functions differ", |ways| ways.functions),
            ("  sections compared", |ways| ways.sections),
            ("  lines compared", |ways| ways.lines),
            ("  branches compared", |ways| ways.branches),
            ("  sections emptied", |ways| ways.emptied),
            ("a way refused", |ways| ways.refused),
        ];
        for (what, count) in counts {
            row(f, what, &self.ways.each_ref().map(count))?;
        }
        rows(
            f,
            &[
                ("recorded ways", self.recorded),
                ("inserts into empty lists", inserted),
                ("  of them dropped", dropped),
                ("  refused, lists that end", refused),
                ("queries of them, held", held),
                ("queries of them, not held", not_held),
                ("  calls", self.calls),
            ],
        )
    }
}
