//! Coverage over the latest texts (SPEC 7.6): which texts each window has. What the port must answer is told of each window's texts alone, as of a
//! bundle that has no others.

pub mod random;
pub mod recorded;
pub mod systematic;

#[cfg(test)]
pub mod stand_in;

use super::bundles;
use super::chosen::Chosen;
use super::expected::NOT_WELL_FORMED;
use crate::tally::rows;
use lcov_sys::MAX_WIDTH;
use oracle::Refusal;
use std::fmt;

pub const WIDTH_OUTSIDE: u32 = 24;

/// The window of each text.
pub fn of(width: u32, bundle: &[u8]) -> Result<Vec<Chosen<'_>>, Refusal> {
    let texts = bundles::decoded(bundle).ok_or(Refusal::numbered(NOT_WELL_FORMED))?;
    if !(1..=MAX_WIDTH).contains(&width) {
        return Err(Refusal::numbered(WIDTH_OUTSIDE));
    }
    let first = |last: usize| (last + 1).saturating_sub(width as usize);
    let window = |last| Chosen::of(&texts, first(last)..=last);
    Ok((0..texts.len()).map(window).collect())
}

/// The line of a window whose report has so many lines that are hit and found.
pub fn line((hit, found): (u64, u64)) -> Vec<u8> {
    format!("{hit}/{found}\n").into_bytes()
}

/// What was told of windows.
#[derive(Default)]
pub struct Tally {
    /// Bundles whose windows are all accepted, compared with what the Rust's reports of the windows hold.
    pub bundles: u64,
    /// Their windows.
    windows: u64,
    /// Of these, those that have fewer texts than the width.
    short: u64,
    /// Recorded answers that came again.
    pub recorded: u64,
}

impl Tally {
    pub fn count(&mut self, width: u32, bundle: &[u8]) {
        self.bundles += 1;
        for window in of(width, bundle).into_iter().flatten() {
            self.windows += 1;
            self.short += u64::from(window.texts.len() < width as usize);
        }
    }
}

impl fmt::Display for Tally {
    fn fmt(&self, f: &mut fmt::Formatter) -> fmt::Result {
        rows(
            f,
            &[
                ("bundles with all windows", self.bundles),
                ("  windows", self.windows),
                ("  of them shorter", self.short),
                ("recorded windows", self.recorded),
            ],
        )
    }
}

#[cfg(test)]
mod tests {
    use super::*;
    use crate::reports::reference::{self, Entries};
    use crate::reports::{page, random};
    use crate::Rng;
    use oracle::Mode;

    fn places(width: u32, texts: usize) -> Vec<Vec<usize>> {
        let bundle = bundles::of(&vec![""; texts]);
        let windows = of(width, &bundle).unwrap();
        windows.into_iter().map(|window| window.places).collect()
    }

    #[test]
    fn a_text_and_those_before_it() {
        assert_eq!(places(1, 3), [[0], [1], [2]]);
        assert_eq!(
            places(3, 4),
            [vec![0], vec![0, 1], vec![0, 1, 2], vec![1, 2, 3]]
        );
        assert_eq!(places(16, 2), [vec![0], vec![0, 1]]);
        assert!(places(1, 0).is_empty());
    }

    #[test]
    fn the_bundle_is_tried_before_the_width() {
        let number = |width, bundle: &[u8]| of(width, bundle).err().map(|refusal| refusal.number);
        let none = bundles::of::<&str>(&[]);
        for width in [0, 17, u32::MAX] {
            assert_eq!(number(width, &none), Some(WIDTH_OUTSIDE));
            assert_eq!(number(width, b""), Some(NOT_WELL_FORMED));
        }
        assert_eq!(number(16, &none), None);
    }

    /// Where the Rust can't be asked, they are counted in what the port prints.
    #[test]
    fn lines_are_the_same_in_maps_and_in_print() {
        let (mut rng, mut lines) = (Rng::new(5), 0);
        for _ in 0..500 {
            let texts = random::meeting_texts(&mut rng, 3);
            let texts: Vec<&[u8]> = texts.iter().map(Vec::as_slice).collect();
            let mut entries = Entries::limited(usize::MAX);
            if let Ok(sections) = reference::gather(Mode::Checked, &texts, &mut entries) {
                let (hit, found) = reference::hit_and_found(&sections);
                let printed = reference::printed(sections);
                assert_eq!(page::hit_and_found(&printed), (hit, found));
                lines += u32::from(0 < hit && hit < found);
            }
        }
        assert!(lines > 200, "{lines}");
    }

    #[test]
    fn short_windows_are_counted() {
        let mut tally = Tally::default();
        tally.count(3, &bundles::of(&[""; 5]));
        let Tally {
            bundles,
            windows,
            short,
            ..
        } = tally;
        assert_eq!((bundles, windows, short), (1, 5, 2));
    }
}
