//! The comparison: each field is asked with several lengths of answer, and what the port hands back or leaves alone is held against what is
//! expected.

use super::expected::{expected, BAD_DIGIT, EMPTY, TOO_LARGE};
use crate::compare::{shown, MOST_WORDS};
use crate::differences::{Difference, Differences};
use crate::expected::Answer;
use crate::guarded::LentWords;
use crate::interface::{Numbers, WORDS};
use crate::plus::SIGNED_NUMBER;
use crate::tally::{row, rows, NAMES};
use std::fmt;

/// Of how many fields one is asked with every length; a prime.
const THOROUGH_ONE_IN: u64 = 37;

/// All that the call answers.
const ANSWERS: [u32; 5] = [0, EMPTY, BAD_DIGIT, TOO_LARGE, SIGNED_NUMBER];

/// How often each answer came.
#[derive(Default)]
pub struct Tally {
    /// In the order of `ANSWERS`.
    pub fields: [u64; ANSWERS.len()],
    /// Fields asked again with every length of answer.
    pub thorough: u64,
    pub calls: u64,
}

impl Tally {
    fn count(&mut self, number: u32) {
        let place = ANSWERS.iter().position(|&answer| answer == number);
        self.fields[place.expect("one of the answers")] += 1;
    }

    pub fn asked(&self) -> u64 {
        self.fields.iter().sum()
    }
}

impl fmt::Display for Tally {
    fn fmt(&self, f: &mut fmt::Formatter) -> fmt::Result {
        for (number, count) in ANSWERS.into_iter().zip(self.fields) {
            let name = NAMES[number as usize];
            match number {
                0 => row(f, "number fields read", &[count])?,
                _ => row(f, &format!("  refused {number:>2} {name}"), &[count])?,
            }
        }
        let thorough = ("  of them with every length", self.thorough);
        rows(f, &[("number fields", self.asked()), thorough])
    }
}

pub struct Comparison<P> {
    port: P,
    pub tally: Tally,
    pub differences: Differences,
}

impl<P: Numbers> Comparison<P> {
    pub fn new(port: P) -> Self {
        Comparison {
            port,
            tally: Tally::default(),
            differences: Differences::default(),
        }
    }

    pub fn field(&mut self, field: &[u8], max: u64) {
        let answer = expected(field, max);
        self.tally.count(answer.number);
        self.call(field, max, &answer, WORDS);
        if self.tally.asked().is_multiple_of(THOROUGH_ONE_IN) {
            self.tally.thorough += 1;
            for words in 0..=MOST_WORDS {
                self.call(field, max, &answer, words);
            }
        }
    }

    fn call(&mut self, field: &[u8], max: u64, answer: &Answer, words: usize) {
        self.tally.calls += 1;
        let mut lent = LentWords::new(words);
        let number = self.port.read_number(field, max, lent.lend());
        if !lent.holds(number, answer) {
            self.differences.add(field.len(), || Difference {
                asked: format!(
                    "number {} up to {max}, answer of {words} words",
                    shown(field)
                ),
                rust: format!("{answer:?}"),
                port: lent.shown(number),
            });
        }
    }
}

#[cfg(test)]
mod tests {
    use super::*;
    use crate::numbers::expected::{DIGITS, VALUE};
    use crate::numbers::fields;
    use crate::stand_in::Wrong;
    use crate::Rng;

    /// Answers as expected, save for what is wrong.
    struct StandIn(Wrong);

    impl Numbers for StandIn {
        fn read_number(&self, field: &[u8], max: u64, answer: &mut [u64]) -> u32 {
            let told = self.told(field, max);
            self.0.answer(told, answer)
        }
    }

    impl StandIn {
        fn told(&self, field: &[u8], max: u64) -> Answer {
            let mut told = expected(self.field(field), max);
            let words = &mut told.words;
            match (self.0, told.number) {
                (Wrong::DigitsOfTheValue, 0) => {
                    words[DIGITS] = words[VALUE].to_string().len() as u64;
                }
                (Wrong::DigitsOneShort, 0) if words[DIGITS] == 8 => words[DIGITS] = 7,
                (Wrong::MaxRefused, 0) if words[VALUE] == max => {
                    (told.number, told.words) = (TOO_LARGE, [0; WORDS]);
                }
                (Wrong::PlusIsBadDigit, SIGNED_NUMBER) if field == b"+" => told.number = BAD_DIGIT,
                (Wrong::BadDigitFirst, TOO_LARGE) if !field.iter().all(u8::is_ascii_digit) => {
                    told.number = BAD_DIGIT;
                }
                (Wrong::RefusalHasAPlace, 1..) => words[1] = 1,
                _ => {}
            }
            told
        }

        /// The part that is read.
        fn field<'a>(&self, field: &'a [u8]) -> &'a [u8] {
            match (self.0, field) {
                (Wrong::PlusTaken, [b'+', rest @ ..]) => rest,
                (Wrong::CommaEnds, _) => field.split(|&byte| byte == b',').next().unwrap(),
                _ => field,
            }
        }
    }

    fn compared(wrong: Wrong) -> Comparison<StandIn> {
        let mut comparison = Comparison::new(StandIn(wrong));
        fields::systematic(&mut |field, max| comparison.field(field, max));
        comparison
    }

    #[test]
    fn a_port_that_answers_as_expected_has_no_differences() {
        let mut comparison = compared(Wrong::Nothing);
        let mut rng = Rng::new(1);
        for _ in 0..10_000 {
            let (field, max) = fields::random(&mut rng);
            comparison.field(&field, max);
        }
        assert_eq!(comparison.differences.count, 0);
        let Tally {
            thorough, calls, ..
        } = comparison.tally;
        assert_eq!(thorough, comparison.tally.asked() / THOROUGH_ONE_IN);
        let lengths = MOST_WORDS as u64 + 1;
        assert_eq!(calls, comparison.tally.asked() + lengths * thorough);
    }

    #[test]
    fn whatever_a_port_does_wrong_is_seen() {
        let others = [
            Wrong::PlusTaken,
            Wrong::PlusIsBadDigit,
            Wrong::DigitsOfTheValue,
            Wrong::DigitsOneShort,
            Wrong::CommaEnds,
            Wrong::MaxRefused,
            Wrong::BadDigitFirst,
            Wrong::RefusalHasAPlace,
        ];
        for wrong in Wrong::of_answers().chain(others) {
            assert!(
                compared(wrong).differences.count > 0,
                "{wrong:?} is not seen"
            );
        }
    }

    #[test]
    fn the_smallest_difference_is_shown_first() {
        let comparison = compared(Wrong::PlusIsBadDigit);
        let first = comparison.differences.shown().next().unwrap().to_string();
        assert!(
            first.starts_with("number b\"+\" (hex 2b) up to 0"),
            "{first}"
        );
        assert!(first.contains("expected Answer { number: 19"), "{first}");
    }
}
