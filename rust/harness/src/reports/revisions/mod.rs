//! Bundles with revisions (SPEC 7.5): which texts are chosen, found here in another way than by the port. What the port must answer is told of the
//! chosen texts alone, as of a bundle without revisions.

pub mod random;
pub mod recorded;
pub mod systematic;

#[cfg(test)]
pub mod stand_in;

use super::bundles::{self, Sent};
use super::chosen::Chosen;
use super::expected::{Expected, NOT_WELL_FORMED};
use super::Asked;
use crate::tally::rows;
use oracle::Refusal;
use std::collections::BTreeMap;
use std::fmt;

pub const REPEATED_REVISION: u32 = 20;

/// The texts that are gathered.
pub fn chosen(bundle: &[u8]) -> Result<Chosen<'_>, Refusal> {
    let malformed = Refusal::numbered(NOT_WELL_FORMED);
    let sent = bundles::decoded_revisions(bundle).ok_or(malformed)?;
    let places = highest(&sent).map_err(|text| Refusal {
        text,
        ..Refusal::numbered(REPEATED_REVISION)
    })?;
    let texts: Vec<&[u8]> = sent.iter().map(|sent| sent.text).collect();
    Ok(Chosen::of(&texts, places))
}

/// The place of the highest revision of each run, in rising order, or the first that repeats a run and revision.
fn highest<T>(sent: &[Sent<T>]) -> Result<Vec<usize>, usize> {
    let mut runs: BTreeMap<u32, BTreeMap<u32, usize>> = BTreeMap::new();
    for (place, sent) in sent.iter().enumerate() {
        let revisions = runs.entry(sent.run).or_default();
        if revisions.insert(sent.revision, place).is_some() {
            return Err(place);
        }
    }
    let last = runs.values().filter_map(BTreeMap::last_key_value);
    let mut places: Vec<usize> = last.map(|(_, &place)| place).collect();
    places.sort_unstable();
    Ok(places)
}

/// What was chosen.
#[derive(Default)]
pub struct Tally {
    /// Bundles that have a choice: those that are not refused with 16 or 20.
    bundles: u64,
    chosen: u64,
    unread: u64,
    /// Unread texts that are not UTF-8, or that a reading refuses.
    faulty: u64,
    /// Recorded answers that came again.
    pub recorded: u64,
}

impl Tally {
    pub fn count(&mut self, bundle: &[u8]) {
        let (Ok(chosen), Some(sent)) = (chosen(bundle), bundles::decoded_revisions(bundle)) else {
            return;
        };
        self.bundles += 1;
        self.chosen += chosen.places.len() as u64;
        for (place, sent) in sent.iter().enumerate() {
            if chosen.places.binary_search(&place).is_err() {
                let read = Expected::of(Asked::Text(sent.text));
                self.unread += 1;
                self.faulty += u64::from(read.is_none_or(|read| read.told.is_err()));
            }
        }
    }
}

impl fmt::Display for Tally {
    fn fmt(&self, f: &mut fmt::Formatter) -> fmt::Result {
        rows(
            f,
            &[
                ("bundles with a choice", self.bundles),
                ("  texts chosen", self.chosen),
                ("  texts not read", self.unread),
                ("  of them with a fault", self.faulty),
                ("recorded revisions", self.recorded),
            ],
        )
    }
}

#[cfg(test)]
mod tests {
    use super::*;

    fn places(pairs: &[(u32, u32)]) -> Result<Vec<usize>, usize> {
        let sent = |&(run, revision)| Sent {
            run,
            revision,
            text: "",
        };
        highest(&pairs.iter().map(sent).collect::<Vec<_>>())
    }

    #[test]
    fn of_each_run_the_highest() {
        assert_eq!(places(&[]), Ok(vec![]));
        assert_eq!(places(&[(9, 1), (1, 1)]), Ok(vec![0, 1]));
        assert_eq!(places(&[(7, 1), (1, 7)]), Ok(vec![0, 1]));
        assert_eq!(places(&[(3, 256), (3, 255), (3, 2)]), Ok(vec![0]));
        assert_eq!(
            places(&[(1, 0), (2, 5), (1, u32::MAX), (2, 4)]),
            Ok(vec![1, 2])
        );
    }

    #[test]
    fn the_first_that_repeats_an_earlier_one() {
        assert_eq!(places(&[(1, 1), (1, 1), (1, 2)]), Err(1));
        assert_eq!(places(&[(1, 1), (2, 1), (1, 2), (2, 1), (1, 2)]), Err(3));
        assert_eq!(places(&[(0, 0), (1, 0), (0, 0)]), Err(2));
    }

    #[test]
    fn unread_texts_are_counted_with_their_faults() {
        let sent = |revision, text: &'static [u8]| Sent {
            run: 1,
            revision,
            text,
        };
        let mut tally = Tally::default();
        tally.count(&bundles::of_revisions(&[
            sent(1, b"x"),
            sent(3, b"x"),
            sent(2, b""),
        ]));
        tally.count(&bundles::of_revisions(&[sent(1, b"\xff"), sent(2, b"")]));
        tally.count(&bundles::of_revisions(&[sent(1, b"x"), sent(1, b"")]));
        tally.count(b"");
        let Tally {
            bundles,
            chosen,
            unread,
            faulty,
            ..
        } = tally;
        assert_eq!((bundles, chosen, unread, faulty), (2, 2, 3, 2));
    }
}
