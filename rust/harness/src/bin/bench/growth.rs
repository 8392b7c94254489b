//! How the port's time for an entry grows with their number.

use crate::clock::seconds;
use crate::kept::Kept;
use crate::reports::{SIZES, TEXTS, TIMES};
use crate::rounds::quantile;
use crate::sides::Sides;
use crate::{rust, SEED};
use harness::reports::workloads;
use harness::{Build, Gatherer, Rng};
use std::hint::black_box;

const ROUNDS: usize = 32;

pub fn measure(sides: &Sides) {
    println!("\n| µs for an entry, of so many entries | 4,000 | 16,000 | 60,000 | last / first |");
    println!("|---|---:|---:|---:|---:|");
    for order in workloads::ORDERS {
        let name = order.name();
        texts_row(sides, &format!("{name}, one file"), 1, |rng, entries| {
            workloads::one_file(rng, order, entries)
        });
        texts_row(sides, &format!("{name}, many files"), 1, |rng, entries| {
            workloads::many_files(rng, order, entries)
        });
    }
    for lines in [3, 2, 4] {
        let what = format!("shuffled files, each given again with {lines} lines for 3");
        texts_row(sides, &what, 1, |rng, entries| {
            workloads::replaced(rng, entries / 2, lines)
        });
    }
    let what = format!("shuffled files, each given {TIMES} times with 1 to 5 lines");
    texts_row(sides, &what, TIMES / 2, |rng, entries| {
        workloads::replaced_often(rng, entries / 2, TIMES)
    });
    bundles_row(sides);
}

/// A text of so many times the entries for each size.
fn texts_row(sides: &Sides, what: &str, times: usize, make: impl Fn(&mut Rng, usize) -> Vec<u8>) {
    let mut rng = Rng::new(SEED);
    let asked = SIZES.map(|entries| {
        let text = make(&mut rng, entries);
        let kept = Kept::roomy(&rust::read_text(&text));
        (text, kept)
    });
    rows(sides, what, times, |port, size| {
        let (text, kept) = &asked[size];
        kept.call(|lent| port.read_text(black_box(text), lent));
    });
}

fn bundles_row(sides: &Sides) {
    let asked = SIZES.map(|entries| {
        let bundle = workloads::interleaved(TEXTS, entries / TEXTS);
        let kept = Kept::roomy(&rust::gather(&bundle));
        (bundle, kept)
    });
    rows(sides, "gathered, interleaved lines", 1, |port, size| {
        let (bundle, kept) = &asked[size];
        kept.call(|lent| port.gather_with(black_box(bundle), lent));
    });
}

/// A row for each build of the port. `call` is asked for the size at a place of `SIZES`, which has the largest first. Sizes take turns, so
/// that all of them meet the same machine, and so do builds, of which another one is first in each round.
fn rows(sides: &Sides, what: &str, times: usize, call: impl Fn(&Build, usize)) {
    let ports = sides.ports();
    let mut measured = vec![SIZES.map(|_| Vec::new()); ports.len()];
    for round in 0..ROUNDS {
        for (size, entries) in SIZES.into_iter().enumerate() {
            for turn in 0..ports.len() {
                let place = (round + turn) % ports.len();
                let builds = &ports[place].1;
                let build = &builds[round % builds.len()];
                let one = seconds(|| call(build, size)) / (times * entries) as f64;
                measured[place][size].push(one * 1e6);
            }
        }
    }
    for ((name, _), measured) in ports.iter().zip(measured) {
        print(&format!("{what}{name}"), measured);
    }
}

fn print(what: &str, measured: [Vec<f64>; 3]) {
    // the machine may change its speed between two rounds: growth is told by what one round has of both
    let grown = measured[0].iter().zip(&measured[2]);
    let growth = quantile(grown.map(|(last, first)| last / first).collect(), 0.5);
    let [last, middle, first] = measured.map(|times| quantile(times, 0.5));
    println!("| {what} | {first:.3} | {middle:.3} | {last:.3} | {growth:.2} |");
}
