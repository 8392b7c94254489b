//! What the reading of a number field must answer, by arithmetic on 128 bits.

use crate::expected::Answer;
use crate::interface::WORDS;
use crate::plus::SIGNED_NUMBER;

pub const EMPTY: u32 = 4;
pub const BAD_DIGIT: u32 = 5;
pub const TOO_LARGE: u32 = 6;

// The words of a number that is read.
pub const VALUE: usize = 0;
pub const DIGITS: usize = 1;

pub fn expected(field: &[u8], max: u64) -> Answer {
    match field {
        [] => refused(EMPTY),
        [b'+', ..] => refused(SIGNED_NUMBER),
        _ => of_digits(field, max),
    }
}

/// One digit more never makes a number smaller. So it passes `max` before the first byte that is no digit, or not at all.
fn of_digits(field: &[u8], max: u64) -> Answer {
    let digits = field.iter().take_while(|byte| byte.is_ascii_digit());
    let digits = digits.count();
    match value(&field[..digits]) {
        value if value > u128::from(max) => refused(TOO_LARGE),
        _ if digits < field.len() => refused(BAD_DIGIT),
        value => {
            let mut words = [0; WORDS];
            words[VALUE] = u64::try_from(value).expect("a number up to a u64");
            words[DIGITS] = digits as u64;
            Answer { number: 0, words }
        }
    }
}

/// The value of digits, or the greatest number where they have a greater one.
fn value(digits: &[u8]) -> u128 {
    let zeros = digits.iter().take_while(|&&digit| digit == b'0').count();
    let counting = std::str::from_utf8(&digits[zeros..]).expect("digits");
    if counting.is_empty() {
        return 0;
    }
    counting.parse().unwrap_or(u128::MAX)
}

/// No word tells a place.
fn refused(number: u32) -> Answer {
    Answer {
        number,
        words: [0; WORDS],
    }
}

#[cfg(test)]
mod tests {
    use super::*;

    fn told(field: &str, max: u64) -> (u32, u64, u64) {
        let Answer { number, words } = expected(field.as_bytes(), max);
        assert_eq!(words[2..], [0; WORDS - 2]);
        (number, words[VALUE], words[DIGITS])
    }

    #[test]
    fn values_and_digits() {
        assert_eq!(told("0", 0), (0, 0, 1));
        assert_eq!(told("007", 7), (0, 7, 3));
        assert_eq!(told("10", 10), (0, 10, 2));
        assert_eq!(told("18446744073709551615", u64::MAX), (0, u64::MAX, 20));
        assert_eq!(told(&"0".repeat(300), 0), (0, 0, 300));
        assert_eq!(told(&format!("{:0300}", 42), 42), (0, 42, 300));
    }

    #[test]
    fn refusals_have_no_place() {
        for (field, max, number) in [
            ("", 0, 4),
            ("+", 9, 19),
            ("+1", 0, 19),
            ("++", 9, 19),
            ("-", 9, 5),
            ("1+", 9, 5),
            ("1,2", 9, 5),
            ("9x", 10, 5),
            ("99999999999x", 10, 6),
            ("11", 10, 6),
            ("18446744073709551616", u64::MAX, 6),
            ("x99", 10, 5),
        ] {
            assert_eq!(told(field, max), (number, 0, 0), "{field} up to {max}");
        }
        let long = "9".repeat(60);
        assert_eq!(told(&long, u64::MAX), (6, 0, 0));
    }
}
