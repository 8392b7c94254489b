//! What a call on ranges must answer: the Rust's answer, and where SPEC 9.1 added a number, that.

use super::List;
use crate::expected::{answered, refused, Answer};
use oracle::Refusal;

pub const LIST_FULL: u32 = 15;
pub const NOT_WELL_FORMED: u32 = 18;

fn refusal(number: u32) -> Answer {
    refused(Refusal::numbered(number))
}

/// The Rust's pairs.
pub fn told(pairs: &[[u32; 2]]) -> Vec<(u32, u32)> {
    pairs.iter().map(|&[start, end]| (start, end)).collect()
}

/// The answer to an insert, and the list's pairs afterwards.
pub fn insert(list: &List, start: u32, end: u32) -> (Answer, Vec<[u32; 2]>) {
    let Some(held) = list.held() else {
        return (refusal(NOT_WELL_FORMED), list.pairs.clone());
    };
    let inserts: Vec<_> = held
        .iter()
        .map(|&[start, end]| oracle::closed(start, end))
        .chain([oracle::closed(start, end)])
        .collect();
    let joined = oracle::ranges_after(&inserts);
    let Some(past) = list.pairs.len().checked_sub(joined.len()) else {
        return (refusal(LIST_FULL), list.pairs.clone());
    };
    let mut pairs: Vec<[u32; 2]> = joined.iter().map(|&(start, end)| [start, end]).collect();
    pairs.extend(std::iter::repeat_n([0, 0], past));
    (answered(joined.len() as u64), pairs)
}

pub fn query(list: &List, start: u32, end: u32) -> Answer {
    match list.held() {
        None => refusal(NOT_WELL_FORMED),
        Some(held) => {
            let yes = oracle::query(&told(held), start, end).expect("the list is well formed");
            answered(yes.into())
        }
    }
}

/// The pairs that the Rust holds after a half-open range was inserted: one, or none where it is dropped.
pub fn half_open(a: u32, b: u32) -> Vec<(u32, u32)> {
    oracle::ranges_after(&[(a..b).into()])
}

#[cfg(test)]
mod tests {
    use super::*;

    fn list(pairs: &[[u32; 2]], used: usize) -> List {
        List {
            pairs: pairs.to_vec(),
            used,
        }
    }

    #[test]
    fn neighbours_join_and_the_pairs_past_them_are_zeroed() {
        let (answer, pairs) = insert(&list(&[[1, 2], [4, 5], [9, 9]], 2), 3, 3);
        assert_eq!((answer.number, answer.words[0]), (0, 1));
        assert_eq!(pairs, [[1, 5], [0, 0], [0, 0]]);
    }

    #[test]
    fn a_list_is_full_or_not_well_formed() {
        let full = list(&[[1, 1]], 1);
        assert_eq!(insert(&full, 3, 3).0.number, LIST_FULL);
        assert_eq!(insert(&full, 5, 3).0.number, 0);
        for ill in [list(&[[1, 2], [3, 3]], 2), list(&[[2, 1]], 1), list(&[], 1)] {
            assert_eq!(insert(&ill, 1, 1).0.number, NOT_WELL_FORMED);
            assert_eq!(query(&ill, 1, 1).number, NOT_WELL_FORMED);
        }
    }

    #[test]
    fn a_half_open_range_that_ends_at_0_holds_line_0() {
        assert_eq!(half_open(0, 0), [(0, 0)]);
        assert_eq!(half_open(5, 5), []);
    }
}
