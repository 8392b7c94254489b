//! Cutting before or after adding: what is filtered text by text and then gathered has the same lines and branches as what is gathered and then
//! filtered. Both ways are asked of the port alone, and held against each other.

pub mod compare;
pub mod kept;
pub mod lists;
pub mod random;
pub mod recorded;
pub mod tally;

use crate::interface::{Filter, HalfOpen, Lent, Ranges, Starts, Tagged, EQUAL};
use crate::ranges::List;
use crate::reports::{bundles, Asked};
use oracle::Mode;

pub use compare::Comparison;

/// What is asked of a port.
pub trait Calls: Ranges + HalfOpen {
    /// The call with the table, where there is one.
    fn call(&self, table: Option<&[u8]>, asked: Asked, lent: Lent) -> u32;

    fn is_same_path(&self, a: &[u8], b: &[u8]) -> bool;
}

impl<P: Tagged + Ranges + HalfOpen> Calls for P {
    fn call(&self, table: Option<&[u8]>, asked: Asked, lent: Lent) -> u32 {
        match table {
            Some(table) => asked.call_tagged(self, table, lent),
            None => asked.call(self, lent),
        }
    }

    fn is_same_path(&self, a: &[u8], b: &[u8]) -> bool {
        self.compare_paths(a, b) == EQUAL
    }
}

/// What is added, and what stays of it.
#[derive(Clone, Copy)]
pub struct Question<'a> {
    pub bundle: &'a [u8],
    pub list: &'a List,
    pub starts: Starts,
}

/// What a call prints, or the number of its refusal.
pub type Printed = Result<Vec<u8>, u32>;

impl Question<'_> {
    /// Each text is cut, then they are added. What was added is read back, so that emptied sections go.
    pub fn cut_first(self, mut ask: impl FnMut(Asked) -> Printed) -> Printed {
        let texts = bundles::decoded(self.bundle).expect("a bundle that was accepted");
        let cut: Result<Vec<Vec<u8>>, u32> = texts
            .into_iter()
            .map(|text| ask(self.filter(text)))
            .collect();
        let added = ask(Asked::Bundle(Mode::Checked, &bundles::of(&cut?)))?;
        ask(Asked::Text(&added))
    }

    /// The texts are added, then what was added is cut, and read back.
    pub fn add_first(self, mut ask: impl FnMut(Asked) -> Printed) -> Printed {
        let added = ask(Asked::Bundle(Mode::Checked, self.bundle))?;
        let cut = ask(self.filter(&added))?;
        ask(Asked::Text(&cut))
    }

    fn filter<'a>(&'a self, text: &'a [u8]) -> Asked<'a> {
        Asked::Filter(Filter {
            starts: self.starts,
            text,
            list: self.list,
        })
    }
}
