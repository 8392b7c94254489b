//! What is wrong in a file that an option names, that of `--tags` or the list of `--revisions`, and in a number of the command line.

use crate::excerpt::excerpt;
use crate::explain::help;
use lcov_sys::Fault;
use std::fmt;
use std::ops::Range;

/// What it is, with the lines that follow, and on which line; 0 where it is none.
#[derive(Debug, PartialEq, Eq)]
pub struct Wrong {
    pub line: u64,
    pub what: String,
}

impl Wrong {
    /// In a part of a line, which has this number from 1.
    pub fn in_line(line: u64, bytes: &[u8], part: Range<usize>, what: &str, advice: &str) -> Self {
        let what = what.to_owned() + &excerpt(line, bytes, part) + &help(advice);
        Wrong { line, what }
    }
}

impl fmt::Display for Wrong {
    fn fmt(&self, f: &mut fmt::Formatter) -> fmt::Result {
        match self.line {
            0 => write!(f, ": {}", self.what),
            line => write!(f, ":{line}: {}", self.what),
        }
    }
}

/// In the words of other refusals.
pub fn refusal(fault: Fault) -> String {
    format!("{} (refusal {})", fault.meaning(), fault.number())
}

/// A number of the command line, given its digits; other numbers than 1 to `most` are refused.
pub fn from_one_to(most: usize, digits: &[u8], outside: Fault) -> Result<usize, String> {
    let number = std::str::from_utf8(digits)
        .ok()
        .and_then(|digits| digits.parse().ok());
    let number = number.filter(|number| (1..=most).contains(number));
    number.ok_or_else(|| refusal(outside))
}
