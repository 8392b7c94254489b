//! Number fields: systematic ones, which every run asks, and random ones.

use crate::lines::exhaustive::each_string;
use crate::Rng;

/// The limits of fields, and those around which a reader of eight digits at a time could go wrong.
pub const LIMITS: [u64; 10] = [
    0,
    9,
    10,
    99,
    9_999_999,
    99_999_999,
    100_000_000,
    u32::MAX as u64,
    u64::MAX - 1,
    u64::MAX,
];

/// What decides: digits, the bytes around them, signs, and what parts fields.
const DECISIVE: &[u8] = b"0189/:+,-x";

/// What stands in a digit's place: bytes around the digits, and digits with another bit set.
const OTHERS: &[u8] = b"/:+,-x \n\r\0\x10\x70\xb0\xb9\xff";

const MOST_DIGITS: usize = 25;
const MOST_ZEROS: usize = 300;

/// Where fields and limits go to.
pub type Visit<'a> = &'a mut dyn FnMut(&[u8], u64);

pub fn systematic(visit: Visit) {
    let mut with_limits = |field: &[u8]| LIMITS.iter().for_each(|&max| visit(field, max));
    each_string("", DECISIVE, 4, &mut with_limits);
    for digits in 1..=MOST_DIGITS {
        of_length(digits, &mut with_limits);
    }
    for max in LIMITS {
        around(max, visit);
    }
    for zeros in 0..=MOST_ZEROS {
        after_zeros(zeros, visit);
    }
}

/// Numbers of so many digits, and each with another byte in the place of each digit, and before it.
fn of_length(digits: usize, visit: &mut dyn FnMut(&[u8])) {
    for number in ["1234567890", "9", "0", "10000000000000000000000000"] {
        let number: Vec<u8> = number.bytes().cycle().take(digits).collect();
        visit(&number);
        for place in 0..digits {
            let (before, from) = number.split_at(place);
            for &other in OTHERS {
                visit(&[before, &[other], &from[1..]].concat());
                visit(&[before, &[other], from].concat());
            }
        }
    }
}

/// Numbers up to three away from a limit, with something before and after them.
fn around(max: u64, visit: Visit) {
    let max_128 = u128::from(max);
    for value in max_128.saturating_sub(3)..=max_128 + 3 {
        for before in ["", "0", "0000000", "+", "-", ","] {
            for after in ["", "0", "9", "x", ",", "+", ",1", "x0"] {
                visit(format!("{before}{value}{after}").as_bytes(), max);
            }
        }
    }
}

fn after_zeros(zeros: usize, visit: Visit) {
    let zeros = "0".repeat(zeros);
    for max in LIMITS {
        for end in ["", "7", "x", ",", "+", "7x"] {
            visit(format!("{zeros}{end}").as_bytes(), max);
        }
        for value in [u128::from(max), u128::from(max) + 1] {
            visit(format!("{zeros}{value}").as_bytes(), max);
            visit(format!("+{zeros}{value}").as_bytes(), max);
        }
    }
}

// ---- random

/// A field, and the greatest number that it may hold.
pub fn random(rng: &mut Rng) -> (Vec<u8>, u64) {
    let max = limit(rng);
    let mut field = match rng.below(8) {
        0 => noise(rng),
        1..4 => near(rng, max),
        _ => digits(rng),
    };
    if rng.one_in(6) {
        let place = rng.below(field.len() + 1);
        let other = if rng.one_in(2) {
            rng.pick(OTHERS)
        } else {
            rng.byte()
        };
        field.insert(place, other);
    }
    (field, max)
}

fn limit(rng: &mut Rng) -> u64 {
    if rng.one_in(2) {
        rng.pick(&LIMITS)
    } else {
        rng.number()
    }
}

fn noise(rng: &mut Rng) -> Vec<u8> {
    let len = rng.below(6);
    (0..len).map(|_| rng.pick(DECISIVE)).collect()
}

/// A number up to the limit, or one that is a little greater, after zeros.
fn near(rng: &mut Rng, max: u64) -> Vec<u8> {
    let value = match rng.below(4) {
        0 => u128::from(max) + rng.below(3) as u128,
        1 => u128::from(max.saturating_sub(rng.below(3) as u64)),
        _ => u128::from(rng.number().min(max)),
    };
    let zeros = if rng.one_in(8) {
        rng.below(MOST_ZEROS)
    } else {
        rng.below(4)
    };
    format!("{}{value}", "0".repeat(zeros)).into_bytes()
}

fn digits(rng: &mut Rng) -> Vec<u8> {
    let len = rng.below(MOST_DIGITS + 1);
    (0..len).map(|_| b'0' + rng.below(10) as u8).collect()
}

#[cfg(test)]
mod tests {
    use super::*;
    use crate::numbers::expected::expected;
    use std::collections::HashMap;

    const ANSWERS: [u32; 5] = [0, 4, 5, 6, 19];

    fn assert_all_answers(met: &HashMap<u32, u64>, at_least: u64) {
        let often = |number: &u32| met.get(number).is_some_and(|&count| count >= at_least);
        assert!(ANSWERS.iter().all(often), "{met:?}");
        assert_eq!(met.len(), ANSWERS.len(), "{met:?}");
    }

    #[test]
    fn systematic_fields_get_every_answer() {
        let mut met = HashMap::new();
        let mut longest = 0;
        systematic(&mut |field, max| {
            *met.entry(expected(field, max).number).or_default() += 1;
            longest = longest.max(field.len());
        });
        assert_all_answers(&met, 10);
        assert!(longest > MOST_ZEROS);
    }

    #[test]
    fn random_fields_get_every_answer() {
        let mut rng = Rng::new(1);
        let mut met = HashMap::new();
        for _ in 0..20_000 {
            let (field, max) = random(&mut rng);
            *met.entry(expected(&field, max).number).or_default() += 1;
        }
        assert_all_answers(&met, 200);
    }
}
