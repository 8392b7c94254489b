//! What a port tells that gathers labs by SPEC 7.7's words, save for one thing that is wrong.

use super::{mark, Mark, ABOVE_QUOTA, LET_IN, MALFORMED_LABS, REFUSED};
use crate::expected::refused;
use crate::interface::{Lent, Quotas, LABS, MARKS, OUTPUT_TOO_SHORT};
use crate::reports::bundles;
use crate::reports::expected::{in_words, Expected, Told, NOT_WELL_FORMED};
use crate::reports::{page, Asked};
use crate::stand_in::Wrong;
use oracle::{Mode, Refusal};

/// With scratch for so many entries.
pub fn tell(wrong: Wrong, asked: Quotas, entries: usize, lent: Lent) -> u32 {
    let texts = texts(wrong, asked);
    let marks: Vec<Mark> = match &texts {
        Ok(texts) => (1..=LABS)
            .map(|lab| mark_of(wrong, asked, texts, lab, entries))
            .collect(),
        Err(refusal) if wrong == Wrong::MarksWithoutLabs && refusal.number == MALFORMED_LABS => {
            vec![[0; 5]; LABS]
        }
        Err(_) => Vec::new(),
    };
    let told = texts.and_then(|texts| joint(wrong, asked, &texts, &marks, entries));
    let number = wrong.print(in_words(&told), lent.out, lent.answer);
    write(wrong, number, marks.concat(), lent.marks);
    number
}

fn texts(wrong: Wrong, asked: Quotas<'_>) -> Result<Vec<&[u8]>, Refusal> {
    let least = u8::from(wrong != Wrong::LabZeroTaken);
    let are_labs = asked
        .labs
        .iter()
        .all(|&lab| (least..=LABS as u8).contains(&lab));
    let are_quotas = asked.quotas.len() == LABS
        || (wrong == Wrong::MoreQuotasTaken && asked.quotas.len() > LABS);
    let malformed = Refusal::numbered(MALFORMED_LABS);
    if wrong == Wrong::LabsFirst && !(are_labs && are_quotas) {
        return Err(malformed);
    }
    let texts = bundles::decoded(asked.bundle).ok_or(Refusal::numbered(NOT_WELL_FORMED))?;
    let is_enough = match wrong {
        Wrong::MoreLabsTaken => asked.labs.len() >= texts.len(),
        _ => asked.labs.len() == texts.len(),
    };
    match are_labs && are_quotas && is_enough {
        true => Ok(texts),
        false => Err(malformed),
    }
}

fn gathered(texts: &[&[u8]], entries: usize) -> Told {
    let bundle = bundles::of(texts);
    let asked = Asked::Bundle(Mode::Checked, &bundle);
    let expected = Expected::of(asked).expect("texts in UTF-8");
    expected.limited(asked, entries)
}

fn mark_of(wrong: Wrong, asked: Quotas, texts: &[&[u8]], lab: usize, entries: usize) -> Mark {
    let is_own = |place: &usize| usize::from(asked.labs[*place]) == lab;
    let places: Vec<usize> = (0..texts.len()).filter(is_own).collect();
    let own: Vec<&[u8]> = places.iter().map(|&place| texts[place]).collect();
    let quota = asked.quotas[lab - 1];
    let limit = match wrong {
        Wrong::QuotaAsLimit => entries.min(quota as usize),
        _ => entries,
    };
    let told = gathered(&own, limit).map_err(|refusal| match wrong {
        Wrong::MarkPlaceInWhole => Refusal {
            text: places[refusal.text],
            ..refusal
        },
        _ => refusal,
    });
    let count = told.map(|report| entries_of(wrong, &report, &own));
    let mut mark = mark(quota, count.map_err(refused));
    match mark[0] {
        LET_IN if wrong == Wrong::EqualIsMore && mark[1] == quota.into() => mark[0] = ABOVE_QUOTA,
        REFUSED if wrong == Wrong::RefusedLabIsEmpty => mark = [LET_IN, 0, 0, 0, 0],
        _ => {}
    }
    mark
}

fn entries_of(wrong: Wrong, report: &[u8], texts: &[&[u8]]) -> u64 {
    let of_text = |text: &&[u8]| gathered(&[text], usize::MAX).map_or(0, |own| page::entries(&own));
    match wrong {
        Wrong::EntriesSummed => texts.iter().map(of_text).sum(),
        Wrong::EntriesOfLast => texts.last().map_or(0, of_text),
        Wrong::SectionsNotCounted => {
            let lines = report.split(|&byte| byte == b'\n');
            let sections = lines.filter(|line| *line == b"end_of_record").count();
            page::entries(report) - sections as u64
        }
        _ => page::entries(report),
    }
}

fn joint(wrong: Wrong, asked: Quotas, texts: &[&[u8]], marks: &[Mark], entries: usize) -> Told {
    let lab = |place: usize| usize::from(asked.labs[place]).max(1);
    let is_in = |place: &usize| marks[lab(*place) - 1][0] == LET_IN || wrong == Wrong::AllLetIn;
    let mut places: Vec<usize> = (0..texts.len()).filter(is_in).collect();
    match wrong {
        Wrong::JointInLabOrder => places.sort_by_key(|&place| lab(place)),
        Wrong::FirstTextLost => drop(places.drain(..places.len().min(1))),
        _ => {}
    }
    let own: Vec<&[u8]> = places.iter().map(|&place| texts[place]).collect();
    gathered(&own, entries).map_err(|refusal| match wrong {
        Wrong::PlaceAmongLetIn => refusal,
        _ => Refusal {
            text: places[refusal.text],
            ..refusal
        },
    })
}

fn write(wrong: Wrong, number: u32, mut marks: Vec<u64>, lent: &mut [u64]) {
    let is_left = match wrong {
        Wrong::NoMarksWhenTooShort => number == OUTPUT_TOO_SHORT,
        Wrong::NoMarksOnRefusal => number != 0,
        _ => false,
    };
    if is_left || marks.is_empty() {
        return;
    }
    match wrong {
        Wrong::MarkWord(place) => marks[place] ^= 1,
        Wrong::WordPastMarks if lent.len() > MARKS => lent[MARKS] = 0,
        _ => {}
    }
    let written = lent.len().min(MARKS);
    if written == MARKS || wrong == Wrong::ShortMarksBegun {
        lent[..written].copy_from_slice(&marks[..written]);
    }
}

mod tests {
    use crate::reports::compare::Comparison;
    use crate::reports::quotas::recorded;
    use crate::stand_in::Refuses;

    #[test]
    fn another_answer_than_the_recorded_one_is_seen() {
        let (_, asked) = &recorded::all()[0];
        for (recorded, differences) in [
            ("refused 1 3 0 0 0\n", 0),
            ("refused 1 2 0 0 0\n", 1),
            ("0 0 0 0 0\nrefused 1 3 0 0 0\n", 1),
            ("", 1),
        ] {
            let mut comparison = Comparison::new(Refuses(3), 1);
            comparison.recorded_quotas(asked, recorded.as_bytes());
            assert_eq!(comparison.differences.count, differences, "{recorded}");
        }
    }
}
