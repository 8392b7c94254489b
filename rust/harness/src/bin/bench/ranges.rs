//! Lists of ranges, queried, and texts filtered by them.

use crate::compared::filter_row;
use crate::sides::Sides;
use crate::table::{grouped, Table, Unit, Work};
use crate::SEED;
use harness::interface::{Filter, Starts, WORDS};
use harness::ranges::List;
use harness::reports::workloads::{self, Order};
use harness::{Ranges, Rng};
use oracle::filter::line_num::LineNum;
use std::hint::black_box;

const QUERIES: usize = 100_000;

/// Of a text that is filtered.
const ENTRIES: usize = 60_000;

/// Of a text with nothing else.
const FUNCTIONS: usize = 60_000;

/// Those by which functions are filtered; one of them has the line on which all functions of a text start.
const FEW: u32 = 10;
const ONE_START: usize = 4;

pub fn measure(sides: &Sides) {
    let table = Table::new(sides, Unit::MillionsPerSecond);
    for many in [1, 10, 100, 1000] {
        query_row(&table, &ranges_of(many));
    }
    for many in [1, 10, 100, 1000] {
        lent_query_row(&table, &ranges_of(many));
    }
    let table = Table::new(sides, Unit::Milliseconds);
    for many in [10, 1000] {
        for order in [Order::Ascending, Order::Shuffled] {
            order_row(&table, &ranges_of(many), order);
        }
    }
    let one = workloads::functions_starting(FUNCTIONS, |_| ONE_START);
    starts_rows(&table, "one start", &one);
    let own = workloads::functions_starting(FUNCTIONS, |function| function);
    starts_rows(&table, "distinct starts", &own);
}

/// Ranges of two lines, two lines apart.
fn ranges_of(many: u32) -> List {
    List {
        pairs: (0..many).map(|k| [4 * k, 4 * k + 1]).collect(),
        used: many as usize,
    }
}

fn rust_ranges(list: &List) -> LineNum {
    let ranges = list.pairs.iter();
    ranges.map(|&[start, end]| start..end + 1).collect()
}

/// Lines that the list may hold, in no order.
fn asked(list: &List, many: usize) -> impl Iterator<Item = u32> {
    let lines = 4 * list.used as u32;
    (0..many as u32).map(move |k| k.wrapping_mul(2_654_435_761) % lines)
}

/// The Rust's list is made once. The port is lent its list for each query, and tries whether it is well formed.
fn query_row(table: &Table, list: &List) {
    let held = rust_ranges(list);
    table.row(Work {
        what: &format!("a kept list of {} ranges queried", grouped(list.used)),
        times: QUERIES,
        port: &|port| query(port, list, QUERIES),
        rust: &[("", &|| {
            for line in asked(list, QUERIES) {
                black_box(held.probe_query(black_box(line), line));
            }
        })],
    });
}

/// The same work for both: a list is built from pairs and queried once.
fn lent_query_row(table: &Table, list: &List) {
    let lists = QUERIES / list.used;
    table.row(Work {
        what: &format!(
            "lists of {} ranges, each built and queried once",
            grouped(list.used)
        ),
        times: lists,
        port: &|port| query(port, list, lists),
        rust: &[("", &|| {
            for line in asked(list, lists) {
                black_box(rust_ranges(black_box(list)).probe_query(line, line));
            }
        })],
    });
}

fn query(port: &impl Ranges, list: &List, times: usize) {
    let mut answer = [0; WORDS];
    for line in asked(list, times) {
        black_box(port.query_range(black_box(list), line, line, &mut answer));
    }
}

fn order_row(table: &Table, list: &List, order: Order) {
    let text = workloads::functions(&mut Rng::new(SEED), order, ENTRIES);
    let what = format!(
        "filter {} entries, {}, by {} ranges",
        grouped(ENTRIES),
        order.name(),
        grouped(list.used)
    );
    let filter = Filter {
        starts: Starts::All,
        text: &text,
        list,
    };
    filter_row(table, &what, filter, &rust_ranges(list));
}

/// Both filters of the port, each beside the one that the Rust has. Of functions of one start one stays by all starts, and all by distinct ones.
fn starts_rows(table: &Table, which: &str, text: &[u8]) {
    let list = &ranges_of(FEW);
    let held = rust_ranges(list);
    let what = format!(
        "filter {} functions of {which} by {FEW} ranges",
        grouped(FUNCTIONS)
    );
    let [all, distinct] = Starts::BOTH.map(|starts| Filter { starts, text, list });
    filter_row(table, &what, all, &held);
    if table.sides().has_all_calls() {
        let what = format!("{what}; Rust by all starts, port by distinct ones");
        filter_row(table, &what, distinct, &held);
    }
}
