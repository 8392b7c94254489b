//! Random bundles with range lists that inserts make, of lines that the texts have.

use super::{Calls, Comparison};
use crate::ranges;
use crate::reports;
use crate::tagged::tables;
use crate::Rng;
use oracle::requests::Lines;

/// Of how many bundles one is asked with a table of tags, and of how many one may be refused in any way.
const TABLE_ONE_IN: usize = 8;
const ANY_ONE_IN: usize = 4;

const MOST_INSERTS: usize = 5;
const QUERIES: usize = 4;

/// A list is filled and queried; then a bundle is cut by it, before adding and after.
pub fn ask<P: Calls>(comparison: &mut Comparison<P>, rng: &mut Rng) {
    let inserts = inserts(rng);
    let queries = [(); QUERIES].map(|()| query(rng, &inserts));
    let empty = ranges::random::empty_list(rng);
    let mut list = comparison.list(empty, &inserts, &queries);
    // a list is well formed whatever the pairs past the used ones hold
    for pair in list.pairs.iter_mut().skip(list.used) {
        *pair = [line(rng), line(rng)];
    }
    let table = rng.one_in(TABLE_ONE_IN).then(|| tables::random(rng));
    let bundle = match rng.one_in(ANY_ONE_IN) {
        true => reports::random::bundle(rng),
        false => reports::random::meeting(rng),
    };
    comparison.bundle(table.as_deref(), &bundle, &list);
}

fn inserts(rng: &mut Rng) -> Vec<Lines> {
    let many = rng.below(MOST_INSERTS + 1);
    (0..many).map(|_| some_lines(rng)).collect()
}

/// Few lines, as most texts have them, or any.
fn line(rng: &mut Rng) -> u32 {
    match rng.below(4) {
        0 => ranges::random::line(rng),
        _ => rng.below(5) as u32,
    }
}

fn some_lines(rng: &mut Rng) -> Lines {
    let start = line(rng);
    let past = start.saturating_add(rng.below(4) as u32);
    match rng.below(8) {
        0 => Lines::HalfOpen(start, line(rng)),
        1 => Lines::HalfOpen(start, past),
        2 => Lines::Closed(start, line(rng)),
        3 => Lines::Closed(start, past.saturating_add(30)),
        _ => Lines::Closed(start, past),
    }
}

/// Beside an end of a range that is inserted, or anywhere; its start is at most its end.
fn query(rng: &mut Rng, inserts: &[Lines]) -> (u32, u32) {
    if inserts.is_empty() || rng.one_in(3) {
        let (a, b) = (line(rng), line(rng));
        return (a.min(b), a.max(b));
    }
    let (Lines::Closed(first, last) | Lines::HalfOpen(first, last)) = rng.pick(inserts);
    let near = rng.pick(&[first, last]).saturating_add(rng.below(3) as u32);
    let start = near.saturating_sub(1);
    (start, start.saturating_add(rng.below(2) as u32))
}
