//! Functions, branches and lines in the orders in which geninfo and lcov write them, and in none.

use crate::compared::{gather_row, read_row};
use crate::sides::Sides;
use crate::table::{grouped, Table, Unit};
use crate::SEED;
use harness::reports::workloads::geninfo::{self, Layout, Sizes};
use harness::reports::workloads::names::Names;
use harness::reports::workloads::Order;
use harness::Rng;

/// Of the functions of one section; the first is as many as scratch allows, nearly.
const SIZES: [usize; 3] = [60_000, 15_000, 4_000];

const LAYOUTS: [(Layout, Names); 6] = [
    (Layout::InTurn, Names::Mangled),
    (Layout::InTurn, Names::Plain),
    (Layout::Grouped, Names::Mangled),
    (Layout::Grouped, Names::Plain),
    (Layout::Shuffled, Names::Mangled),
    (Layout::CallsAlone, Names::Mangled),
];

/// Of a file that is gathered, as geninfo writes it.
const FILE: Sizes = Sizes {
    functions: 200,
    branches: 600,
    lines: 1_500,
};

/// Of each of many files.
const SMALL: Sizes = Sizes {
    functions: 3,
    branches: 4,
    lines: 8,
};

pub fn measure(sides: &Sides) {
    let table = Table::new(sides, Unit::Milliseconds);
    for many in SIZES {
        for (layout, names) in LAYOUTS {
            layout_row(&table, layout, names, many);
        }
    }
    branch_rows(&table);
    bundle_rows(&table);
    repeated_rows(&table);
    for names in [
        Names::Prefixed { groups: 1 },
        Names::Prefixed { groups: 20 },
        Names::Repeated,
    ] {
        layout_row(&table, Layout::InTurn, names, 20_000);
    }
    files_row(&table, 4_000);
}

/// Each row's text is the same whatever rows come before it.
fn rng() -> Rng {
    Rng::new(SEED)
}

fn layout_row(table: &Table, layout: Layout, names: Names, many: usize) {
    let text = geninfo::functions(&mut rng(), names, layout, many);
    let (layout, names) = (layout.name(), names.name());
    let what = format!("read {} functions, {layout}, {names}", grouped(many));
    read_row(table, &what, &text);
}

fn branch_rows(table: &Table) {
    for (order, how) in [
        (Order::Ascending, "in order"),
        (Order::Shuffled, "lines shuffled"),
    ] {
        let text = geninfo::branches(&mut rng(), order, 60_000);
        read_row(table, &format!("read 60,000 BRDA, {how}"), &text);
    }
}

fn bundle_rows(table: &Table) {
    let bundle = geninfo::same_functions(&mut rng(), Names::Mangled, 64, 900);
    let what = "gather 64 × the same 900 functions, FN and FNDA in turn, mangled";
    gather_row(table, what, &bundle);
    let bundle = geninfo::same_file(&mut rng(), 60, FILE);
    let what = format!(
        "gather 60 × the same file by geninfo: {} functions, {} BRDA, {} DA",
        FILE.functions,
        FILE.branches,
        grouped(FILE.lines)
    );
    gather_row(table, &what, &bundle);
}

/// Keys that come again.
fn repeated_rows(table: &Table) {
    let text = geninfo::lines_and_calls(&mut rng(), Names::Mangled, 50_000, 7);
    let what = "read 50,000 DA in no order, an FNDA of one of 7 functions after each";
    read_row(table, what, &text);
    let text = geninfo::repeated_lines(&mut rng(), 1_000, 300_000, false);
    read_row(table, "read 300,000 DA of 1,000 lines, in no order", &text);
    let text = geninfo::repeated_lines(&mut rng(), 65_000, 300_000, true);
    let what = "read 65,000 DA in order, then 300,000 DA of the same lines in no order";
    read_row(table, what, &text);
    let text = geninfo::called_at_random(&mut rng(), Names::Mangled, 60_000, 120_000);
    let what = "read 60,000 FN, then 120,000 FNDA of any of them, mangled";
    read_row(table, what, &text);
}

fn files_row(table: &Table, files: usize) {
    let text = geninfo::shuffled_files(&mut rng(), files, SMALL);
    let what = format!(
        "read {} shuffled files by geninfo: {} functions, {} BRDA, {} DA each",
        grouped(files),
        SMALL.functions,
        SMALL.branches,
        SMALL.lines
    );
    read_row(table, &what, &text);
}
