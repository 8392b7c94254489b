//! What the two filters print of one text and one list, held against each other (SPEC 8.5): no other answer is needed, so that texts are asked
//! too that are not UTF-8.

use std::collections::HashSet;

/// What is wrong with what the filter by distinct starts printed; `report` is the whole, and `all` what the other filter printed.
pub fn misfit(report: &[u8], all: &[u8], distinct: &[u8]) -> Option<&'static str> {
    if !is_within(&without_totals(all), &without_totals(distinct)) {
        return Some("keeps all that the other filter keeps");
    }
    if without_functions(all) != without_functions(distinct) {
        return Some("the same lines and branches stay");
    }
    let must_be_equal = starts_differ(report);
    (must_be_equal && all != distinct).then_some("the same, since all starts of a section differ")
}

/// Whether no two functions of a section have one start.
pub fn starts_differ(report: &[u8]) -> bool {
    let mut met = HashSet::new();
    lines(report).all(|line| match start_of(line) {
        Some(start) => met.insert(start),
        None => {
            if line.starts_with(b"end_of_record") {
                met.clear();
            }
            true
        }
    })
}

/// The digits of the start that a printed FN gives.
fn start_of(line: &[u8]) -> Option<&[u8]> {
    line.strip_prefix(b"FN:")?
        .split(|&byte| byte == b',')
        .next()
}

fn lines(printed: &[u8]) -> impl Iterator<Item = &[u8]> {
    printed.split_inclusive(|&byte| byte == b'\n')
}

/// The totals of functions count what stays.
fn is_total(line: &[u8]) -> bool {
    line.starts_with(b"FNF:") || line.starts_with(b"FNH:")
}

fn without_totals(printed: &[u8]) -> Vec<&[u8]> {
    lines(printed).filter(|line| !is_total(line)).collect()
}

fn without_functions(printed: &[u8]) -> Vec<&[u8]> {
    let is_function = |line: &[u8]| line.starts_with(b"FN:") || line.starts_with(b"FNDA:");
    let mut lines = without_totals(printed);
    lines.retain(|line| !is_function(line));
    lines
}

/// Whether the second has the lines of the first in their order, and perhaps others between them.
fn is_within(few: &[&[u8]], many: &[&[u8]]) -> bool {
    let mut rest = many.iter();
    few.iter().all(|line| rest.any(|other| other == line))
}

#[cfg(test)]
mod tests {
    use super::*;

    /// A section with these lines, blanks in place of line ends.
    fn section(lines: &str) -> Vec<u8> {
        let lines = lines.replace(' ', "\n");
        format!("TN:\nSF:a\n{lines}\nend_of_record\n").into_bytes()
    }

    const BOTH: &str = "FN:3,f FN:3,g FNDA:0,f FNDA:1,g FNF:2 FNH:1 DA:3,1 LF:1 LH:1";
    const LAST: &str = "FN:3,g FNDA:1,g FNF:1 FNH:1 DA:3,1 LF:1 LH:1";

    #[test]
    fn more_functions_may_stay_where_starts_are_equal() {
        let (both, last) = (section(BOTH), section(LAST));
        assert_eq!(misfit(&both, &last, &both), None);
        assert_eq!(misfit(&both, &last, &last), None);
        assert!(misfit(&both, &both, &last).is_some());
    }

    #[test]
    fn nothing_else_may_stay_or_go() {
        let (report, last) = (section(BOTH), section(LAST));
        for (was, is) in [
            ("DA:3,1 LF:1 LH:1", "DA:3,1 DA:4,1 LF:2 LH:2"),
            ("DA:3,1 ", ""),
            ("FNDA:1,g", "FNDA:2,g"),
            ("DA:3,1", "BRDA:3,0,0,1 DA:3,1"),
        ] {
            let other = section(&BOTH.replace(was, is));
            assert!(misfit(&report, &last, &other).is_some(), "{is}");
        }
        let twice = [section(BOTH), section(LAST)].concat();
        assert!(misfit(&report, &last, &twice).is_some());
    }

    #[test]
    fn the_same_stays_where_all_starts_of_a_section_differ() {
        let report = section("FN:3,4,f FN:4,g FNDA:0,f FNDA:1,g FNF:2 FNH:1");
        let few = section("FN:4,g FNDA:1,g FNF:1 FNH:1");
        assert_eq!(misfit(&report, &few, &few), None);
        assert!(misfit(&report, &few, &report).is_some());
    }

    #[test]
    fn starts_are_compared_within_a_section() {
        let one = section("FN:3,f FNDA:0,f FNDA:3,g FNF:2 FNH:1");
        assert!(starts_differ(&[one.clone(), one.clone()].concat()));
        assert!(starts_differ(&section("FN:3,f FN:33,g FN:4,3,h")));
        assert!(!starts_differ(&section("FN:3,4,f FN:3,g")));
        assert!(!starts_differ(&[one, section(BOTH)].concat()));
    }
}
