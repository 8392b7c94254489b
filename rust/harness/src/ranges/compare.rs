//! The comparison: a list is filled by inserts, and each insert and each query on the way is held against what is expected.

use super::{expected, random, List};
use crate::compare::MOST_WORDS;
use crate::differences::{Difference, Differences};
use crate::expected::Answer;
use crate::guarded::LentWords;
use crate::interface::{HalfOpen, Ranges, WORDS};
use crate::tally::rows;
use crate::Rng;
use std::fmt;

/// Inserts into one list, and queries after each.
const INSERTS: usize = 12;
const QUERIES: usize = 2;

/// Of how many lists one is damaged on the way.
const DAMAGED_ONE_IN: usize = 12;

/// Calls by what they were answered.
#[derive(Default)]
pub struct Tally {
    pub inserted: u64,
    /// The list had no room for the result.
    pub full: u64,
    pub held: u64,
    pub not_held: u64,
    pub ill_formed: u64,
    pub half_open: u64,
}

impl Tally {
    pub fn calls(&self) -> u64 {
        self.inserted + self.full + self.held + self.not_held + self.ill_formed + self.half_open
    }
}

impl fmt::Display for Tally {
    fn fmt(&self, f: &mut fmt::Formatter) -> fmt::Result {
        rows(
            f,
            &[
                ("ranges inserted", self.inserted),
                ("refused 15 list full", self.full),
                ("queries held", self.held),
                ("queries not held", self.not_held),
                ("refused 18 list ill formed", self.ill_formed),
                ("half-open ranges", self.half_open),
            ],
        )
    }
}

pub struct Comparison<P> {
    port: P,
    pub tally: Tally,
    pub differences: Differences,
}

impl<P: Ranges> Comparison<P> {
    pub fn new(port: P) -> Self {
        Comparison {
            port,
            tally: Tally::default(),
            differences: Differences::default(),
        }
    }

    /// A list, filled at random.
    pub fn list(&mut self, mut list: List, rng: &mut Rng) {
        for _ in 0..INSERTS {
            let (start, end) = random::range(rng);
            self.insert(&mut list, start, end);
            for _ in 0..QUERIES {
                let (start, end) = random::range(rng);
                self.query(&list, start, end);
            }
            if rng.one_in(DAMAGED_ONE_IN) {
                random::damage(rng, &mut list);
            }
        }
    }

    /// The list is then what is expected, whatever the port left.
    pub fn insert(&mut self, list: &mut List, start: u32, end: u32) {
        let (answer, pairs) = expected::insert(list, start, end);
        match answer.number {
            0 => self.tally.inserted += 1,
            expected::LIST_FULL => self.tally.full += 1,
            _ => self.tally.ill_formed += 1,
        }
        let mut lent = list.clone();
        let mut words = LentWords::new(MOST_WORDS);
        let number = self.port.insert_range(&mut lent, start, end, words.lend());
        if !words.holds(number, &answer) || lent.pairs != pairs {
            self.differences.add(0, || Difference {
                asked: format!("insert {start} to {end} into {list:?}"),
                rust: format!("{answer:?}, pairs {pairs:?}"),
                port: format!("{}, pairs {:?}", words.shown(number), lent.pairs),
            });
        }
        list.pairs = pairs;
        if answer.number == 0 {
            list.used = answer.words[0] as usize;
        }
    }

    pub fn query(&mut self, list: &List, start: u32, end: u32) {
        let answer = expected::query(list, start, end);
        match (answer.number, answer.words[0]) {
            (0, 0) => self.tally.not_held += 1,
            (0, _) => self.tally.held += 1,
            _ => self.tally.ill_formed += 1,
        }
        let mut words = LentWords::new(MOST_WORDS);
        let number = self.port.query_range(list, start, end, words.lend());
        if !words.holds(number, &answer) {
            self.differences.add(0, || Difference {
                asked: format!("query {start} to {end} in {list:?}"),
                rust: format!("{answer:?}"),
                port: words.shown(number),
            });
        }
    }
}

impl<P: HalfOpen> Comparison<P> {
    /// The Rust shows a half-open range by inserting it; so the port's is inserted too.
    pub fn half_open(&mut self, a: u32, b: u32) {
        self.tally.half_open += 1;
        let mut words = LentWords::new(WORDS);
        self.port.half_open(a, b, words.lend());
        let (start, end) = (words.word(0), words.word(1));
        let kept: Vec<(u32, u32)> = match (u32::try_from(start), u32::try_from(end)) {
            (Ok(start), Ok(end)) if start <= end => vec![(start, end)],
            _ => Vec::new(),
        };
        let mut answer = Answer {
            number: 0,
            words: [0; WORDS],
        };
        (answer.words[0], answer.words[1]) = (start, end);
        let wanted = expected::half_open(a, b);
        if kept != wanted || !words.holds(0, &answer) {
            self.differences.add(0, || Difference {
                asked: format!("half-open {a} to {b}"),
                rust: format!("pairs {wanted:?}"),
                port: words.shown(0),
            });
        }
    }
}

#[cfg(test)]
mod tests {
    use super::*;

    /// What a port could do wrong.
    #[derive(Debug, Clone, Copy, PartialEq)]
    enum Wrong {
        Nothing,
        NeighboursApart,
        PairsPastLeft,
        FullNotSeen,
        EmptyRangeInserted,
        QueryAtTheEnd,
        IllFormedTaken,
        HalfOpenAtZero,
        Number,
    }

    /// Answers as expected, save for what is wrong.
    struct StandIn(Wrong);

    fn tell(answer: &Answer, words: &mut [u64]) -> u32 {
        words[..WORDS].copy_from_slice(&answer.words);
        answer.number
    }

    impl Ranges for StandIn {
        fn insert_range(&self, list: &mut List, start: u32, end: u32, words: &mut [u64]) -> u32 {
            let (mut answer, mut after) = expected::insert(list, start, end);
            match self.0 {
                Wrong::NeighboursApart if answer.number == 0 && after.len() > 1 => {
                    let joined = after.iter().position(|pair| pair[1] > pair[0]);
                    if let Some(place) = joined {
                        after[place][1] -= 1;
                    }
                }
                Wrong::PairsPastLeft if answer.number == 0 => {
                    let used = answer.words[0] as usize;
                    after[used..].copy_from_slice(&list.pairs[used..]);
                }
                Wrong::FullNotSeen if answer.number == expected::LIST_FULL => answer.number = 0,
                Wrong::EmptyRangeInserted if end < start && !after.is_empty() => {
                    after[0] = [start, end]
                }
                Wrong::Number => answer.number += 1,
                _ => {}
            }
            list.pairs = after;
            tell(&answer, words)
        }

        fn query_range(&self, list: &List, start: u32, end: u32, words: &mut [u64]) -> u32 {
            let mut answer = expected::query(list, start, end);
            let touches = list
                .held()
                .is_some_and(|held| held.iter().any(|pair| pair[1] == start));
            match self.0 {
                Wrong::QueryAtTheEnd if touches => answer.words[0] ^= 1,
                Wrong::IllFormedTaken => answer.number = 0,
                _ => {}
            }
            tell(&answer, words)
        }
    }

    impl HalfOpen for StandIn {
        fn half_open(&self, a: u32, b: u32, words: &mut [u64]) {
            let end = match self.0 {
                Wrong::HalfOpenAtZero => b.wrapping_sub(1),
                _ => b.saturating_sub(1),
            };
            words[..WORDS].fill(0);
            (words[0], words[1]) = (a.into(), end.into());
        }
    }

    fn differences(wrong: Wrong) -> u64 {
        let mut comparison = Comparison::new(StandIn(wrong));
        let mut rng = Rng::new(3);
        for _ in 0..400 {
            comparison.list(random::empty_list(&mut rng), &mut rng);
            comparison.half_open(random::line(&mut rng), random::line(&mut rng));
        }
        let tally = &comparison.tally;
        for met in [
            tally.inserted,
            tally.full,
            tally.held,
            tally.not_held,
            tally.ill_formed,
        ] {
            assert!(met > 100);
        }
        comparison.differences.count
    }

    #[test]
    fn a_port_that_answers_as_expected_has_no_differences() {
        assert_eq!(differences(Wrong::Nothing), 0);
    }

    #[test]
    fn whatever_a_port_does_wrong_is_seen() {
        for wrong in [
            Wrong::NeighboursApart,
            Wrong::PairsPastLeft,
            Wrong::FullNotSeen,
            Wrong::EmptyRangeInserted,
            Wrong::QueryAtTheEnd,
            Wrong::IllFormedTaken,
            Wrong::HalfOpenAtZero,
            Wrong::Number,
        ] {
            assert_ne!(differences(wrong), 0, "{wrong:?}");
        }
    }
}
