//! The numbers of a line of a page of totals: `FH/FF BH/BF LH/LF`, and the lines' share.

use std::cmp::Ordering;
use std::fmt;
use std::ops::AddAssign;

#[derive(Debug, Clone, Copy, Default, PartialEq, Eq)]
pub struct Count {
    pub hit: u64,
    pub found: u64,
}

#[derive(Debug, Clone, Copy, Default, PartialEq, Eq)]
pub struct Counts {
    pub functions: Count,
    pub branches: Count,
    pub lines: Count,
}

impl Counts {
    /// Those that a line begins with; none where it is no line of a page.
    pub fn of(line: &[u8]) -> Option<Self> {
        let mut columns = line.splitn(4, |&byte| byte == b' ');
        let mut count = || Count::of(columns.next()?);
        Some(Counts {
            functions: count()?,
            branches: count()?,
            lines: count()?,
        })
    }

    /// By the lines' share, not rounded; what has no lines comes last, after a share of 1000.
    pub fn compare_shares(&self, other: &Counts) -> Ordering {
        let product = |a: &Counts, b: &Counts| u128::from(a.lines.hit) * u128::from(b.lines.found);
        match (self.lines.found, other.lines.found) {
            (0, _) | (_, 0) => (self.lines.found == 0).cmp(&(other.lines.found == 0)),
            _ => product(self, other).cmp(&product(other, self)),
        }
    }
}

impl Count {
    /// The share in tenths of a percent, rounded down; none where nothing is found.
    pub fn share(&self) -> Option<u64> {
        let share = (1000 * u128::from(self.hit)).checked_div(self.found.into())?;
        Some(share as u64)
    }

    fn of(column: &[u8]) -> Option<Self> {
        let (hit, found) = std::str::from_utf8(column).ok()?.split_once('/')?;
        Some(Count {
            hit: hit.parse().ok()?,
            found: found.parse().ok()?,
        })
    }
}

/// Each item that is counted is a line in memory, so no sum passes 2^64 - 1.
impl AddAssign for Count {
    fn add_assign(&mut self, other: Count) {
        let sum = |a: u64, b: u64| a.checked_add(b).expect("fewer items than bytes");
        self.hit = sum(self.hit, other.hit);
        self.found = sum(self.found, other.found);
    }
}

impl AddAssign for Counts {
    fn add_assign(&mut self, other: Counts) {
        self.functions += other.functions;
        self.branches += other.branches;
        self.lines += other.lines;
    }
}

impl fmt::Display for Count {
    fn fmt(&self, f: &mut fmt::Formatter) -> fmt::Result {
        write!(f, "{}/{}", self.hit, self.found)
    }
}

/// As the last line of a page.
impl fmt::Display for Counts {
    fn fmt(&self, f: &mut fmt::Formatter) -> fmt::Result {
        write!(f, "{} {} {} ", self.functions, self.branches, self.lines)?;
        match self.lines.share() {
            Some(share) => write!(f, "{share}"),
            None => write!(f, "-"),
        }
    }
}

#[cfg(test)]
mod tests {
    use super::*;

    fn counts(line: &str) -> Counts {
        Counts::of(line.as_bytes()).unwrap()
    }

    #[test]
    fn lines_with_and_without_names() {
        for line in [
            "1/1 0/0 1/2 500",
            "0/0 0/0 0/0 -",
            "7/9 8/10 18446744073709551615/18446744073709551615 1000",
        ] {
            assert_eq!(counts(line).to_string(), line);
            assert_eq!(counts(&format!("{line} a b/c 1/2")).to_string(), line);
        }
        for line in [
            "",
            "1/1 0/0",
            "1/1 0/0 1 500",
            "1/1 0/0 x/1 500",
            "-1/1 0/0 1/1 0",
        ] {
            assert_eq!(Counts::of(line.as_bytes()), None, "{line}");
        }
    }

    #[test]
    fn sums_have_a_share_of_their_own() {
        let mut sums = Counts::default();
        for line in ["1/2 0/1 1/3 333", "0/0 2/2 1/1 1000", "0/1 0/0 0/0 -"] {
            sums += counts(line);
        }
        assert_eq!(sums.to_string(), "1/3 2/3 2/4 500");
    }

    #[test]
    #[should_panic(expected = "fewer items than bytes")]
    fn a_sum_that_passes_its_type_is_noticed() {
        let mut sum = counts("0/0 0/18446744073709551615 0/0 -");
        sum += counts("0/0 0/1 0/0 -");
    }

    #[test]
    fn shares_are_compared_before_they_are_rounded() {
        let shares = [
            "0/0 0/0 0/7 0",
            "0/0 0/0 9990/10000 999",
            "0/0 0/0 9991/10000 999",
            "0/0 0/0 1/1 1000",
            "0/0 0/0 0/0 -",
        ];
        for (a, place) in shares.iter().zip(0..) {
            for (b, other) in shares.iter().zip(0..) {
                let order = counts(a).compare_shares(&counts(b));
                assert_eq!(order, place.cmp(&other), "{a}, {b}");
            }
        }
        let half = counts("0/0 0/0 1/2 500").compare_shares(&counts("9/9 9/9 50/100 500"));
        assert_eq!(half, Ordering::Equal);
    }
}
