//! Texts read, bundles gathered, also with revisions, in windows and by labs, and their pages of totals.

use crate::kept::Kept;
use crate::sides::Sides;
use crate::table::{grouped, Table, Unit, Work};
use crate::{compared, rust, SEED};
use harness::interface::{Quotas, LABS};
use harness::reports::bundles::{self, Sent, MAX_TEXTS};
use harness::reports::expected::Expected;
use harness::reports::workloads::{self, Order};
use harness::reports::{page, Asked};
use harness::tagged::tables::{self, HOUSE};
use harness::tagged::translated::{Change, Outwards};
use harness::{Build, Gatherer, Rng, Tagged};
use lcov_sys::{DEFAULT_TAGS, MAX_WIDTH};
use std::hint::black_box;

/// As many as scratch allows, nearly.
const ENTRIES: usize = 60_000;

/// Keys that do not come in order make the port move its index. What that takes depends on the number of entries, so there are several.
pub const SIZES: [usize; 3] = [ENTRIES, 16_000, 4_000];

/// Of a bundle whose lines take turns.
pub const TEXTS: usize = 50;

/// How often files come again in the texts that replace most.
pub const TIMES: usize = 8;

/// What the program `gather` takes.
const PROGRAM_BYTES: usize = 65_536;

pub fn measure(sides: &Sides) {
    let mut rng = Rng::new(SEED);
    let table = Table::new(sides, Unit::Milliseconds);
    for entries in SIZES {
        for order in workloads::ORDERS {
            order_rows(&table, &mut rng, order, entries);
        }
    }
    for entries in SIZES {
        replaced_rows(&table, &mut rng, entries);
        replaced_often_rows(&table, &mut rng, entries);
    }
    let text = workloads::one_file(&mut rng, Order::Ascending, ENTRIES);
    unprinted_row(&table, &text);
    exact_row(&table, &text);
    if sides.has_all_calls() {
        tagged_rows(&table, &text);
    }
    bundle_rows(&table);
    let bundle = bundles::of(&[text]);
    bundle_row(&table, "one text of 60,000 entries", &bundle);
    if sides.has_all_calls() {
        totals_row(&table, "one text of 60,000 entries", &bundle);
        let bundle = workloads::same_files(TEXTS, 1000);
        totals_row(&table, "50 × 1,000 entries in 250 files", &bundle);
        revisions_rows(&table);
        windows_rows(&table);
        quotas_row(&table);
    }
    inner_row(&table, &workloads::filled(PROGRAM_BYTES));
}

// ---- texts

fn order_rows(table: &Table, rng: &mut Rng, order: Order, entries: usize) {
    let text = workloads::one_file(rng, order, entries);
    text_row(
        table,
        &format!("{}, one file", order.name()),
        entries,
        &text,
    );
    let text = workloads::many_files(rng, order, entries);
    let files = grouped(entries / 4);
    text_row(
        table,
        &format!("{}, {files} files", order.name()),
        entries,
        &text,
    );
}

fn replaced_rows(table: &Table, rng: &mut Rng, entries: usize) {
    for lines in [3, 2, 4] {
        let text = workloads::replaced(rng, entries / 2, lines);
        let how = format!("shuffled files, each given again with {lines} lines for 3");
        text_row(table, &how, entries, &text);
    }
}

/// Sections that replace others of other sizes again and again, with ample and with minimum scratch.
fn replaced_often_rows(table: &Table, rng: &mut Rng, entries: usize) {
    let text = workloads::replaced_often(rng, entries / 2, TIMES);
    let what = format!(
        "read {} entries, shuffled files, each given {TIMES} times with 1 to 5 lines",
        grouped(TIMES * entries / 2)
    );
    let expected = rust::read_text(&text);
    read_row(table, &what, &text, Kept::roomy(&expected));
    let most = Expected::of(Asked::Text(&text)).map_or(0, |expected| expected.entries);
    let what = format!("{what}, minimum scratch");
    let kept = Kept::roomy(&expected).for_entries(most);
    read_row(table, &what, &text, kept);
}

fn text_row(table: &Table, how: &str, entries: usize, text: &[u8]) {
    let what = format!("read {} entries, {how}", grouped(entries));
    read_row(table, &what, text, Kept::roomy(&rust::read_text(text)));
}

/// An output that is exactly long enough takes a measuring pass.
fn exact_row(table: &Table, text: &[u8]) {
    let what = format!(
        "read {} entries, ascending, one file, exact output",
        grouped(ENTRIES)
    );
    read_row(table, &what, text, Kept::exact(&rust::read_text(text)));
}

fn read_row(table: &Table, what: &str, text: &[u8], kept: Kept) {
    table.row(Work {
        what,
        times: 1,
        port: &|port| kept.call(|lent| port.read_text(black_box(text), lent)),
        rust: &[("", &|| drop(black_box(rust::read_text(black_box(text)))))],
    });
}

/// The port can't be asked to read alone. Into an empty output it reads, and counts the bytes that it would write.
fn unprinted_row(table: &Table, text: &[u8]) {
    let kept = Kept::none(&rust::read_text(text));
    table.row(Work {
        what: &format!(
            "read {} entries, ascending, one file, nothing printed",
            grouped(ENTRIES)
        ),
        times: 1,
        port: &|port| kept.call(|lent| port.read_text(black_box(text), lent)),
        rust: &[("", &|| drop(black_box(rust::report(black_box(text)))))],
    });
}

// ---- tables of tags

/// The port reads with the default table lent, and with a house's table and its text, beside the Rust on the default text.
fn tagged_rows(table: &Table, text: &[u8]) {
    let bundle = workloads::same_keys(TEXTS, 1000);
    let house = tables::of(HOUSE);
    let (own_text, own_bundle) = (Outwards(HOUSE).text(text), Outwards(HOUSE).bundle(&bundle));
    for (whose, tags, tagged) in [
        ("default", &DEFAULT_TAGS[..], text),
        ("house", &house, &own_text),
    ] {
        let kept = kept_tagged(tags, &rust::read_text(text));
        table.row(Work {
            what: &format!(
                "read {} entries, ascending, one file, {whose} tags lent",
                grouped(ENTRIES)
            ),
            times: 1,
            port: &|port| kept.call(|lent| port.read_text_tagged(tags, black_box(tagged), lent)),
            rust: &[("", &|| drop(black_box(rust::read_text(black_box(text)))))],
        });
    }
    for (whose, tags, tagged) in [
        ("default", &DEFAULT_TAGS[..], &bundle),
        ("house", &house, &own_bundle),
    ] {
        let kept = kept_tagged(tags, &rust::gather(&bundle));
        let what = format!("{TEXTS} × 1,000 entries, the same keys, {whose} tags lent");
        gather_row(table, &what, &bundle, &|port| {
            kept.call(|lent| port.gather_tagged(tags, black_box(tagged), lent))
        });
    }
}

/// For a report that is printed with the tags of a table.
fn kept_tagged(tags: &[u8], report: &str) -> Kept {
    let tags = tables::loaded(tags).expect("a table that loads");
    let printed = Outwards(tags).text(report.as_bytes());
    Kept::roomy(&String::from_utf8(printed).expect("tags in ASCII"))
}

// ---- bundles

fn bundle_rows(table: &Table) {
    bundle_row(
        table,
        "50 × 1,000 entries, the same keys",
        &workloads::same_keys(50, 1000),
    );
    bundle_row(
        table,
        "50 × 1,000 entries, no shared keys",
        &workloads::no_shared_keys(50, 1000),
    );
    for entries in SIZES.map(|entries| entries / TEXTS) {
        bundle_row(
            table,
            &format!("{TEXTS} × {} entries, interleaved lines", grouped(entries)),
            &workloads::interleaved(TEXTS, entries),
        );
    }
    bundle_row(
        table,
        "50 × 1,000 entries in 250 files",
        &workloads::same_files(50, 1000),
    );
}

fn bundle_row(table: &Table, what: &str, bundle: &[u8]) {
    let kept = Kept::roomy(&rust::gather(bundle));
    gather_row(table, what, bundle, &|port| {
        kept.call(|lent| port.gather_with(black_box(bundle), lent))
    });
}

fn inner_row(table: &Table, bundle: &[u8]) {
    let kept = Kept::exact(&rust::gather(bundle));
    let what = format!("{} bytes, scratch inside", grouped(bundle.len()));
    gather_row(table, &what, bundle, &|port| {
        kept.call(|lent| port.gather(black_box(bundle), lent.out, lent.answer))
    });
}

/// The Rust has no pages: it gathers and prints the same bundle.
fn totals_row(table: &Table, what: &str, bundle: &[u8]) {
    let page = page::of(rust::gather(bundle).as_bytes());
    let kept = Kept::roomy(&String::from_utf8(page).expect("names in ASCII"));
    table.row(Work {
        what: &format!("totals of {what}, where the Rust gathers"),
        times: 1,
        port: &|port| kept.call(|lent| port.totals(black_box(bundle), lent)),
        rust: &[("", &|| drop(black_box(rust::gather(black_box(bundle)))))],
    });
}

/// A bundle, and the same with as many texts that are not read. The Rust gathers those that are.
fn revisions_rows(table: &Table) {
    let runs = MAX_TEXTS / 2;
    let bundle = workloads::same_files(runs, 1000);
    let what = format!("{runs} × 1,000 entries in 250 files");
    bundle_row(table, &what, &bundle);
    let texts = bundles::decoded(&bundle).expect("a bundle that was made");
    let sent: Vec<Sent<&[u8]>> = [1, 2]
        .into_iter()
        .flat_map(|revision| {
            (0..).zip(&texts).map(move |(run, &text)| Sent {
                run,
                revision,
                text,
            })
        })
        .collect();
    let revised = bundles::of_revisions(&sent);
    let kept = Kept::roomy(&rust::gather(&bundle));
    let what = format!("{what}, the higher revisions of {} texts", sent.len());
    gather_row(table, &what, &bundle, &|port| {
        kept.call(|lent| port.gather_revisions(black_box(&revised), lent))
    });
}

/// The widest windows and the narrowest.
fn windows_rows(table: &Table) {
    let bundle = workloads::same_files(MAX_TEXTS, 1000);
    for width in [MAX_WIDTH, 1] {
        let what = format!("windows over {MAX_TEXTS} texts of 1,000 entries, w = {width}");
        compared::windows_row(table, &what, width, &bundle);
    }
    sixteen_gathers_row(table, &bundle);
}

/// The widest windows, where the Rust gathers all texts as often as such a window has texts.
fn sixteen_gathers_row(table: &Table, bundle: &[u8]) {
    let kept = Kept::roomy(&rust::windows(MAX_WIDTH as usize, bundle));
    table.row(Work {
        what: &format!("windows over {MAX_TEXTS} texts of 1,000 entries, w = {MAX_WIDTH}, where the Rust gathers all {MAX_WIDTH} times"),
        times: 1,
        port: &|port| kept.call(|lent| port.windows(black_box(bundle), MAX_WIDTH, lent)),
        rust: &[("", &|| {
            for _ in 0..MAX_WIDTH {
                drop(black_box(rust::gather(black_box(bundle))));
            }
        })],
    });
}

/// Each lab sends a text in turn, and all are let in.
fn quotas_row(table: &Table) {
    let labs: Vec<u8> = (1..=LABS as u8).cycle().take(MAX_TEXTS).collect();
    let what = format!("gather {MAX_TEXTS} texts of 1,000 entries, from {LABS} labs with quotas");
    let quotas = Quotas {
        bundle: &workloads::same_files(MAX_TEXTS, 1000),
        labs: &labs,
        quotas: &[1000; LABS],
    };
    compared::quotas_row(table, &what, quotas);
}

fn gather_row(table: &Table, what: &str, bundle: &[u8], port: &dyn Fn(&Build)) {
    table.row(Work {
        what: &format!("gather {what}"),
        times: 1,
        port,
        rust: &[("", &|| drop(black_box(rust::gather(black_box(bundle)))))],
    });
}
