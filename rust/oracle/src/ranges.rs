//! Ranges of lines and the filter: `LineNum`.

use crate::fault::Fault;
use crate::filter::line_num::{LineNum, Range};
use crate::text::{print_report, read_text};

/// The range from a start to an end that is in it. The Rust makes ranges from half-open ones, and those can't end after 2^32 − 1.
pub fn closed(start: u32, end: u32) -> Range {
    match end.checked_add(1) {
        Some(past) => Range::from(start..past),
        None => Range::from(start..),
    }
}

/// The pairs that are held after ranges were inserted one after another.
pub fn ranges_after(inserts: &[Range]) -> Vec<(u32, u32)> {
    inserted(inserts).probe_pairs()
}

fn inserted(inserts: &[Range]) -> LineNum {
    let mut held = LineNum::new();
    for &range in inserts {
        held.insert(range);
    }
    held
}

/// A lent list of pairs, where it is well formed: the Rust holds no other.
fn lent(pairs: &[(u32, u32)]) -> Result<LineNum, Fault> {
    let ranges: Vec<Range> = pairs
        .iter()
        .map(|&(start, end)| closed(start, end))
        .collect();
    let held = inserted(&ranges);
    if held.probe_pairs() == pairs {
        Ok(held)
    } else {
        Err(Fault::Outside)
    }
}

pub fn query(pairs: &[(u32, u32)], start: u32, end: u32) -> Result<bool, Fault> {
    Ok(lent(pairs)?.probe_query(start, end))
}

/// A text's report printed, each section filtered by the pairs.
pub fn filter(text: &[u8], pairs: &[(u32, u32)]) -> Result<Vec<u8>, Fault> {
    let held = lent(pairs)?;
    let mut report = read_text(text)?;
    for section in report.sections.values_mut() {
        held.apply(section);
    }
    Ok(print_report(report))
}
