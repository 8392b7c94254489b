//! Values of fields, sound and not.

use super::Form;

/// Numbers that a reader would try first.
#[rustfmt::skip]
pub const NUMBERS: [&str; 46] = [
    "", "0", "1", "00", "007", "+", "+0", "+7", "+007", "++7", "+-7", "-", "-0", "-7", "--", "7-", "7+", " 7", "7 ",
    "\t7", "x", "7x", "x7", "0x7", "7_0", "7.0", "1e3", "4294967295", "4294967296", "4294967295x", "4294967296x",
    "4294967296-", "18446744073709551615", "18446744073709551616", "18446744073709551615x", "18446744073709551616x",
    "99999999999999999999", "00000000000000000000000007", "+00000000000000000000000007", "7\r", "7\n", "\r7", "7\n8",
    "٣", "７", "7:",
];

/// Texts, commas included; also such as look like numbers, tags or ends.
#[rustfmt::skip]
pub const TEXTS: [&str; 28] = [
    "", ",", ",,", "-", "--", "-,", ",-", "- ", " -", "+", "a", "a,b", "a,,b,", "a:b", ":", " ", "a b", "TN:a",
    "end_of_record", "\"q\"", "\\", "größe", "名,前", "a\rb", "a\nb", "\ra", "7", "\u{feff}",
];

/// One value of each fault, and sound ones between them: their combinations show which fault is met first.
pub const FAULTS: [&str; 8] = [
    "1",
    "",
    "-",
    "+",
    "x",
    "4294967296",
    "18446744073709551616",
    "02",
];

/// Values at which a number's reading changes: 0, the ends of the types, and a digit more.
const TURNS: [u128; 8] = [
    0,
    1 << 31,
    1 << 32,
    10_000_000_000,
    1 << 63,
    10_000_000_000_000_000_000,
    1 << 64,
    100_000_000_000_000_000_000,
];
const AROUND: u128 = 12;

const BEFORE: [&str; 5] = ["", "+", "0", "00", "-"];
const AFTER: [&str; 4] = ["", "0", "x", "-"];

/// Numbers around each turn, in several spellings and with a fault before or after them.
pub fn around_turns() -> Vec<String> {
    let mut numbers = Vec::new();
    for turn in TURNS {
        for value in turn.saturating_sub(AROUND)..=turn + AROUND {
            for before in BEFORE {
                for after in AFTER {
                    numbers.push(format!("{before}{value}{after}"));
                }
            }
        }
    }
    numbers
}

/// A value with which a line of the form is read.
pub fn sound(form: Form) -> &'static str {
    match form {
        Form::Text => "f,1",
        Form::U32 => "3",
        Form::U64 => "12345678901",
        Form::Taken => "2",
        Form::Checksum => "c1==",
    }
}
