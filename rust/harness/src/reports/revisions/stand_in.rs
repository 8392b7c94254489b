//! What a port tells that chooses texts by SPEC 7.5's words, save for one thing that is wrong.

use super::REPEATED_REVISION;
use crate::reports::bundles::{self, Sent};
use crate::reports::expected::{Expected, Told, NOT_WELL_FORMED};
use crate::reports::Asked;
use crate::stand_in::Wrong;
use oracle::{Mode, Refusal};

/// With scratch for so many entries.
pub fn told(wrong: Wrong, bundle: &[u8], entries: usize) -> Told {
    let malformed = Refusal::numbered(NOT_WELL_FORMED);
    let sent = bundles::decoded_revisions(bundle)
        .ok_or_else(|| repeated_though_malformed(wrong, bundle).unwrap_or(malformed))?;
    let places = places(wrong, &sent)?;
    let rest = (0..sent.len()).filter(|place| !places.contains(place));
    let mut counted = 0;
    for place in rest {
        let read = Expected::of(Asked::Text(sent[place].text)).expect("a text in UTF-8");
        counted += read.entries;
        if let (Wrong::RestRead, Err(refusal)) = (wrong, read.told) {
            return Err(at(place, refusal));
        }
    }
    let entries = match wrong {
        Wrong::RestCounted => entries.saturating_sub(counted),
        _ => entries,
    };
    let texts: Vec<&[u8]> = places.iter().map(|&place| sent[place].text).collect();
    let alone = bundles::of(&texts);
    let asked = Asked::Bundle(Mode::Checked, &alone);
    let expected = Expected::of(asked).expect("texts in UTF-8");
    let told = expected.limited(asked, entries);
    told.map_err(|refusal| match wrong {
        Wrong::PlaceAmongChosen => refusal,
        _ => at(places[refusal.text], refusal),
    })
}

fn at(text: usize, refusal: Refusal) -> Refusal {
    Refusal { text, ..refusal }
}

/// The refusal of a port that looks for equal pairs first, whatever the lengths of the texts.
fn repeated_though_malformed(wrong: Wrong, bundle: &[u8]) -> Option<Refusal> {
    let many = *bundle.first()? as usize;
    let mut changed = bundle.to_vec();
    changed.get_mut(8 + 4 * many..8 + 8 * many)?.fill(0);
    let sent = bundles::decoded_revisions(&changed)?;
    let repeated = places(wrong, &sent).err();
    repeated.filter(|_| wrong == Wrong::RepeatFirst)
}

fn places(wrong: Wrong, sent: &[Sent<&[u8]>]) -> Result<Vec<usize>, Refusal> {
    if let Some(text) = repeated(wrong, sent) {
        return Err(at(text, Refusal::numbered(REPEATED_REVISION)));
    }
    let mut places: Vec<usize> = (0..sent.len())
        .filter(|&place| is_chosen(wrong, sent, place))
        .collect();
    if wrong == Wrong::OrderOfRuns {
        places.sort_by_key(|&place| sent[place].run);
    }
    Ok(places)
}

fn repeated(wrong: Wrong, sent: &[Sent<&[u8]>]) -> Option<usize> {
    let pair = |place: usize| (sent[place].run, sent[place].revision);
    let earlier = |place: usize| (0..place).find(|&other| pair(other) == pair(place));
    (0..sent.len()).find_map(|place| match (wrong, earlier(place)?) {
        (Wrong::RepeatOfHighestAlone, _) if !is_chosen(wrong, sent, place) => None,
        (Wrong::RepeatNamesEarlier, earlier) => Some(earlier),
        _ => Some(place),
    })
}

fn is_chosen(wrong: Wrong, sent: &[Sent<&[u8]>], place: usize) -> bool {
    let Sent { run, revision, .. } = sent[place];
    let of_run = || sent.iter().filter(|other| other.run == run);
    match wrong {
        Wrong::AllRunsCompared => sent.iter().all(|other| other.revision <= revision),
        Wrong::LowestChosen => of_run().all(|other| other.revision >= revision),
        Wrong::LaterChosen => sent[place + 1..].iter().all(|later| later.run != run),
        Wrong::LastByteCompared => of_run().all(|other| other.revision as u8 <= revision as u8),
        _ => of_run().all(|other| other.revision <= revision),
    }
}

mod tests {
    use super::*;
    use crate::reports::compare::Comparison;
    use crate::stand_in::Refuses;

    /// Of chosen texts that are not UTF-8 the gather of the same port tells.
    #[test]
    fn revisions_are_compared_without_the_rust_too() {
        let sent = |revision| Sent {
            run: 1,
            revision,
            text: b"\xff",
        };
        let bundle = bundles::of_revisions(&[sent(1), sent(2)]);
        for (place, differences) in [(1, 0), (0, 1), (2, 1)] {
            let mut comparison = Comparison::new(Refuses(place), 1);
            comparison.revisions(&bundle);
            assert_eq!(comparison.differences.count, differences, "{place}");
        }
    }

    #[test]
    fn another_answer_than_the_recorded_one_is_seen() {
        let bundle = bundles::of_revisions::<&[u8]>(&[]);
        for (recorded, differences) in [("refused 1 3 0 0\n", 0), ("refused 1 2 0 0\n", 1), ("", 1)]
        {
            let mut comparison = Comparison::new(Refuses(3), 1);
            comparison.recorded_revisions(&bundle, recorded.as_bytes());
            assert_eq!(comparison.differences.count, differences, "{recorded}");
        }
    }
}
