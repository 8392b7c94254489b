//! Rows of texts and bundles for which each build of the port must first print what the Rust prints, or what is expected of a call that the Rust
//! lacks.

use crate::kept::Kept;
use crate::rust;
use crate::table::{Table, Work};
use harness::interface::{Filter, Lent, Quotas, Starts};
use harness::reports;
use harness::reports::expected::Expected;
use harness::{Build, Gatherer};
use oracle::filter::line_num::LineNum;
use std::hint::black_box;

pub fn read_row(table: &Table, what: &str, text: &[u8]) {
    let asked = Asked {
        what,
        times: 1,
        port: &|port, lent| port.read_text(black_box(text), lent),
        rust: &|| rust::read_text(black_box(text)),
    };
    asked.row(table);
}

/// The Rust has the list too, and filters by all starts, whatever the port does.
pub fn filter_row(table: &Table, what: &str, filter: Filter, held: &LineNum) {
    let asked = Asked {
        what,
        times: 1,
        port: &|port, lent| port.filter_text(black_box(filter), lent),
        rust: &|| rust::filter(black_box(filter.text), held),
    };
    match filter.starts {
        Starts::All => asked.row(table),
        Starts::Distinct => asked.row_expecting(table, &filtered(filter)),
    }
}

/// By the reference.
fn filtered(filter: Filter) -> String {
    let expected = Expected::of(reports::Asked::Filter(filter));
    let printed = expected.and_then(|expected| expected.told.ok());
    String::from_utf8(printed.expect("a sound text")).expect("a text that is UTF-8")
}

pub fn gather_row(table: &Table, what: &str, bundle: &[u8]) {
    gather_row_by(table, what, bundle, 1);
}

/// The time of a gather is divided by a number.
pub fn gather_row_by(table: &Table, what: &str, bundle: &[u8], times: usize) {
    let asked = Asked {
        what,
        times,
        port: &|port, lent| port.gather_with(black_box(bundle), lent),
        rust: &|| rust::gather(black_box(bundle)),
    };
    asked.row(table);
}

/// The Rust reads and joins the texts of each window, and counts the lines.
pub fn windows_row(table: &Table, what: &str, width: u32, bundle: &[u8]) {
    let asked = Asked {
        what,
        times: 1,
        port: &|port, lent| port.windows(black_box(bundle), width, lent),
        rust: &|| rust::windows(width as usize, black_box(bundle)),
    };
    asked.row(table);
}

/// The Rust gathers the texts of each lab, and all of them.
pub fn quotas_row(table: &Table, what: &str, quotas: Quotas) {
    let asked = Asked {
        what,
        times: 1,
        port: &|port, lent| port.gather_quotas(black_box(quotas), lent),
        rust: &|| rust::gather_labs(black_box(quotas.bundle), quotas.labs),
    };
    asked.row(table);
}

/// The same question for both sides.
struct Asked<'a> {
    what: &'a str,
    times: usize,
    port: &'a dyn Fn(&Build, Lent) -> u32,
    rust: &'a dyn Fn() -> String,
}

impl Asked<'_> {
    /// The Rust prints what is expected.
    fn row(&self, table: &Table) {
        self.row_expecting(table, &(self.rust)());
    }

    fn row_expecting(&self, table: &Table, expected: &str) {
        let kept = Kept::roomy(expected);
        for (name, builds) in table.sides().ports() {
            let is_same = kept.prints(expected, |lent| (self.port)(&builds[0], lent));
            let what = self.what;
            assert!(is_same, "{what}{name}: the port doesn't print what it must");
        }
        table.row(Work {
            what: self.what,
            times: self.times,
            port: &|port| kept.call(|lent| (self.port)(port, lent)),
            rust: &[("", &|| drop(black_box((self.rust)())))],
        });
    }
}
