//! Questions about readings, filters, gathers, also of bundles with revisions, of windows and of labs, and pages of totals: texts and bundles, what SPEC 7 expects of them, and the comparison with the port.

pub mod beside;
pub mod bundles;
pub mod chosen;
pub mod compare;
pub mod expected;
pub mod long;
pub mod page;
pub mod pages;
pub mod quotas;
pub mod random;
pub mod recorded;
pub mod reference;
pub mod revisions;
pub mod systematic;
pub mod tally;
pub mod windows;
pub mod workloads;

#[cfg(test)]
mod stand_in;

use crate::interface::{Filter, Gatherer, Lent, Quotas, Starts, Tagged};
use oracle::Mode;

/// A question without the slices that are lent for its answer.
#[derive(Clone, Copy)]
pub enum Asked<'a> {
    Text(&'a [u8]),
    Filter(Filter<'a>),
    Bundle(Mode, &'a [u8]),
    /// The page of totals of a bundle.
    Totals(&'a [u8]),
    /// A bundle with revisions.
    Revisions(&'a [u8]),
    /// The windows of this width over a bundle.
    Windows(u32, &'a [u8]),
    Quotas(Quotas<'a>),
}

impl<'a> Asked<'a> {
    pub fn bytes(self) -> &'a [u8] {
        match self {
            Asked::Text(bytes)
            | Asked::Bundle(_, bytes)
            | Asked::Totals(bytes)
            | Asked::Revisions(bytes)
            | Asked::Windows(_, bytes) => bytes,
            Asked::Filter(filter) => filter.text,
            Asked::Quotas(quotas) => quotas.bundle,
        }
    }

    /// The same question about other bytes.
    pub fn of<'b>(self, bytes: &'b [u8]) -> Asked<'b>
    where
        'a: 'b,
    {
        match self {
            Asked::Text(_) => Asked::Text(bytes),
            Asked::Filter(filter) => Asked::Filter(Filter {
                text: bytes,
                ..filter
            }),
            Asked::Bundle(mode, _) => Asked::Bundle(mode, bytes),
            Asked::Totals(_) => Asked::Totals(bytes),
            Asked::Revisions(_) => Asked::Revisions(bytes),
            Asked::Windows(width, _) => Asked::Windows(width, bytes),
            Asked::Quotas(quotas) => Asked::Quotas(Quotas {
                bundle: bytes,
                ..quotas
            }),
        }
    }

    pub fn call(self, port: &impl Gatherer, lent: Lent) -> u32 {
        match self {
            Asked::Text(text) => port.read_text(text, lent),
            Asked::Filter(filter) => port.filter_text(filter, lent),
            Asked::Bundle(Mode::Checked, bundle) => port.gather_with(bundle, lent),
            Asked::Bundle(Mode::Lossy, bundle) => port.gather_lossy(bundle, lent),
            Asked::Totals(bundle) => port.totals(bundle, lent),
            Asked::Revisions(bundle) => port.gather_revisions(bundle, lent),
            Asked::Windows(width, bundle) => port.windows(bundle, width, lent),
            Asked::Quotas(quotas) => port.gather_quotas(quotas, lent),
        }
    }

    pub fn call_tagged(self, port: &impl Tagged, table: &[u8], lent: Lent) -> u32 {
        match self {
            Asked::Text(text) => port.read_text_tagged(table, text, lent),
            Asked::Filter(filter) => port.filter_text_tagged(table, filter, lent),
            Asked::Bundle(Mode::Checked, bundle) => port.gather_tagged(table, bundle, lent),
            Asked::Bundle(Mode::Lossy, bundle) => port.gather_lossy_tagged(table, bundle, lent),
            Asked::Totals(bundle) => port.totals_tagged(table, bundle, lent),
            Asked::Revisions(bundle) => port.gather_revisions_tagged(table, bundle, lent),
            Asked::Windows(width, bundle) => port.windows_tagged(table, bundle, width, lent),
            Asked::Quotas(quotas) => port.gather_quotas_tagged(table, quotas, lent),
        }
    }

    /// The question that the Rust can be asked; of a bundle with revisions, about the texts that are chosen, of windows, about those of each, and of
    /// labs, about those of each and of all that are let in.
    pub fn of_the_rust(self) -> Self {
        match self {
            Asked::Filter(filter) => Asked::Filter(Filter {
                starts: Starts::All,
                ..filter
            }),
            Asked::Totals(_) | Asked::Revisions(_) | Asked::Windows(..) | Asked::Quotas(_) => {
                Asked::Bundle(Mode::Checked, self.bytes())
            }
            asked => asked,
        }
    }
}
