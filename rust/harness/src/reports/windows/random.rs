//! Random windows: widths, and bundles of texts that meet, of which some are refused in wide windows alone.

use crate::reports::bundles;
use crate::reports::random::{self, Habit};
use crate::Rng;
use lcov_sys::MAX_WIDTH;

/// Widths that are refused; some have a byte or two of one that is not.
const REFUSED: [u32; 6] = [0, MAX_WIDTH + 1, 18, 256 + 2, 65_536 + 1, u32::MAX];

const MOST_TEXTS: usize = 10;

/// A checked gather of both is refused.
const CONFLICTS: [[&str; 2]; 4] = [
    [
        "SF:w\nFN:1,f\nend_of_record\n",
        "SF:w\nFN:2,f\nend_of_record\n",
    ],
    [
        "SF:w\nDA:1,1,p\nend_of_record\n",
        "SF:w\nDA:1,1,q\nend_of_record\n",
    ],
    [
        "SF:w\nDA:1,18446744073709551615\nend_of_record\n",
        "SF:w\nDA:1,1\nend_of_record\n",
    ],
    [
        "SF:w\nBRDA:1,0,0,18446744073709551615\nend_of_record\n",
        "SF:w\nBRDA:1,0,0,1\nend_of_record\n",
    ],
];

/// A width and a bundle.
pub fn question(rng: &mut Rng) -> (u32, Vec<u8>) {
    let bundle = bundle(rng);
    (width(rng), bundle)
}

pub fn bundle(rng: &mut Rng) -> Vec<u8> {
    match rng.below(8) {
        0 => random::bundle(rng),
        1 => {
            let texts = texts(rng);
            random::parts_of(rng, &texts.concat(), MOST_TEXTS)
        }
        _ => bundles::of(&texts(rng)),
    }
}

/// Most have fewer texts than the bundle.
fn width(rng: &mut Rng) -> u32 {
    match rng.below(16) {
        0 => rng.pick(&REFUSED),
        1 => MAX_WIDTH,
        2 => 1 + rng.below(MAX_WIDTH as usize) as u32,
        _ => 1 + rng.below(5) as u32,
    }
}

/// Texts that meet. Two may conflict, and one may be refused by itself.
fn texts(rng: &mut Rng) -> Vec<Vec<u8>> {
    let many = 1 + rng.below(MOST_TEXTS);
    let mut texts = random::meeting_texts(rng, many);
    if rng.one_in(3) {
        for conflicting in rng.pick(&CONFLICTS) {
            let text = conflicting.as_bytes().to_vec();
            texts.insert(rng.below(texts.len() + 1), text);
        }
    }
    if rng.one_in(6) {
        let habit = Habit::random(rng);
        let text = random::text(rng, habit);
        texts.insert(rng.below(texts.len() + 1), text);
    }
    texts
}

#[cfg(test)]
mod tests {
    use super::*;
    use crate::reports::expected::{Expected, NOT_WELL_FORMED};
    use crate::reports::windows::WIDTH_OUTSIDE;
    use crate::reports::Asked;
    use std::collections::HashMap;

    /// Whether the same bundle is refused with one width and not with another.
    fn is_by_width(bundle: &[u8]) -> bool {
        let mut told = [1, MAX_WIDTH].into_iter().map(|width| {
            let expected = Expected::of(Asked::Windows(width, bundle));
            expected.is_some_and(|expected| expected.told.is_ok())
        });
        told.next() != told.next()
    }

    #[test]
    fn windows_are_answered_and_refused() {
        oracle::hush_overflow();
        let (mut rng, mut met) = (Rng::new(5), HashMap::new());
        for _ in 0..10_000 {
            let (width, bundle) = question(&mut rng);
            if let Some(expected) = Expected::of(Asked::Windows(width, &bundle)) {
                let number = expected.told.map_or_else(|refusal| refusal.number, |_| 0);
                *met.entry(number).or_insert(0) += 1;
            }
        }
        assert!(met[&0] > 5_000, "{met:?}");
        let others = [11, 12, 13, NOT_WELL_FORMED, WIDTH_OUTSIDE];
        for number in (1..=9).chain(others) {
            assert!(met.contains_key(&number), "{number}: {met:?}");
        }
    }

    #[test]
    fn some_are_refused_in_wide_windows_alone() {
        oracle::hush_overflow();
        let mut rng = Rng::new(5);
        let refused = (0..1_000).filter(|_| is_by_width(&question(&mut rng).1));
        assert!(refused.count() > 100);
    }
}
