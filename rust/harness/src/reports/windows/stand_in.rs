//! What a port tells that gathers windows by SPEC 7.6's words, save for one thing that is wrong.

use super::{line, WIDTH_OUTSIDE};
use crate::reports::bundles;
use crate::reports::expected::{Expected, Told, NOT_WELL_FORMED};
use crate::reports::{page, Asked};
use crate::stand_in::Wrong;
use lcov_sys::MAX_WIDTH;
use oracle::{Mode, Refusal};
use std::ops::Range;

/// With scratch for so many entries.
pub fn told(wrong: Wrong, width: u32, bundle: &[u8], mut entries: usize) -> Told {
    let texts = texts(wrong, width, bundle)?;
    let (mut lines, mut refused) = (Vec::new(), None);
    for last in 0..texts.len() {
        let window = window(wrong, width as usize, last, texts.len());
        let report = report(wrong, &texts[window.clone()], entries);
        match report {
            Ok((report, used)) => {
                lines.extend(line_of(wrong, &report, &texts[window]));
                if wrong == Wrong::OneLimitForAll {
                    entries = entries.saturating_sub(used);
                }
            }
            Err(refusal) => {
                let refusal = in_whole(wrong, window.start, refusal);
                if wrong != Wrong::LastWindowRefuses {
                    return Err(refusal);
                }
                refused = Some(refusal);
            }
        }
    }
    refused.map_or(Ok(lines), Err)
}

fn texts(wrong: Wrong, width: u32, bundle: &[u8]) -> Result<Vec<&[u8]>, Refusal> {
    let widest = MAX_WIDTH + u32::from(wrong == Wrong::SeventeenTaken);
    let is_width = (1..=widest).contains(&width);
    let outside = Refusal::numbered(WIDTH_OUTSIDE);
    if wrong == Wrong::WidthFirst && !is_width {
        return Err(outside);
    }
    let texts = bundles::decoded(bundle).ok_or(Refusal::numbered(NOT_WELL_FORMED))?;
    let is_untried = wrong == Wrong::WidthOfTextsAlone && texts.is_empty();
    match is_width || is_untried {
        true => Ok(texts),
        false => Err(outside),
    }
}

fn window(wrong: Wrong, width: usize, last: usize, texts: usize) -> Range<usize> {
    let width = width + usize::from(wrong == Wrong::WindowOneWider);
    match wrong {
        Wrong::WindowAhead => last..(last + width).min(texts),
        _ => (last + 1).saturating_sub(width)..last + 1,
    }
}

fn in_whole(wrong: Wrong, first: usize, refusal: Refusal) -> Refusal {
    let before = match wrong {
        Wrong::PlaceInWindow => 0,
        _ => first,
    };
    Refusal {
        text: before + refusal.text,
        ..refusal
    }
}

/// Printed, and the entries that it took.
fn report(wrong: Wrong, texts: &[&[u8]], entries: usize) -> Result<(Vec<u8>, usize), Refusal> {
    let of_lines: Vec<Vec<u8>> = texts.iter().map(|text| lines_alone(text)).collect();
    let (mode, bundle) = match wrong {
        Wrong::WindowsLossy => (Mode::Lossy, bundles::of(texts)),
        Wrong::LinesJoinedAlone => (Mode::Checked, bundles::of(&of_lines)),
        _ => (Mode::Checked, bundles::of(texts)),
    };
    let asked = Asked::Bundle(mode, &bundle);
    let expected = Expected::of(asked).expect("texts in UTF-8");
    let report = expected.limited(asked, entries)?;
    Ok((report, expected.entries))
}

/// Without functions and branches.
fn lines_alone(text: &[u8]) -> Vec<u8> {
    let lines = text.split_inclusive(|&byte| byte == b'\n');
    let is_other = |line: &&[u8]| !line.starts_with(b"FN") && !line.starts_with(b"BR");
    lines.filter(is_other).collect::<Vec<_>>().concat()
}

fn line_of(wrong: Wrong, report: &[u8], texts: &[&[u8]]) -> Vec<u8> {
    let (hit, found) = page::hit_and_found(report);
    line(match wrong {
        Wrong::FoundFirst => (found, hit),
        Wrong::AllEntriesFound => (hit, found + functions_and_branches(report)),
        Wrong::TextsSummed => texts.iter().fold((0, 0), |(hit, found), text| {
            let text = Expected::of(Asked::Text(text)).and_then(|read| read.told.ok());
            let of_text = page::hit_and_found(&text.expect("a text of a window"));
            (hit + of_text.0, found + of_text.1)
        }),
        _ => (hit, found),
    })
}

fn functions_and_branches(report: &[u8]) -> u64 {
    let lines = report.split(|&byte| byte == b'\n');
    let is_entry = |line: &&[u8]| line.starts_with(b"FNDA:") || line.starts_with(b"BRDA:");
    lines.filter(is_entry).count() as u64
}

mod tests {
    use crate::reports::compare::Comparison;
    use crate::reports::windows::recorded;
    use crate::stand_in::Refuses;

    #[test]
    fn another_answer_than_the_recorded_one_is_seen() {
        let asked = &recorded::all()[0].asked;
        for (recorded, differences) in [
            ("refused 1 3 0 0 0\n", 0),
            ("refused 1 2 0 0 0\n", 1),
            ("refused 1 3 0 0 1\n", 1),
            ("", 1),
        ] {
            let mut comparison = Comparison::new(Refuses(3), 1);
            comparison.recorded_windows(asked, recorded.as_bytes());
            assert_eq!(comparison.differences.count, differences, "{recorded}");
        }
    }
}
