//! The audit: what the DA, BRDA and FNDA lines of all files count must be in the result.

use crate::parallel;
use crate::record::{lines, Record};
use std::fmt;
use std::ops::AddAssign;

/// What the lines of a kind count. The sums of all files pass 2^64 - 1, so they have 128 bits, which no run reaches: a file has fewer than
/// 2^32 lines.
#[derive(Debug, Clone, Copy, Default, PartialEq, Eq)]
pub struct Sums {
    pub lines: u128,
    pub branches: u128,
    pub calls: u128,
    /// How many FNDA lines have the count 2^64 - 1, where the library stops.
    pub full: u64,
}

impl AddAssign for Sums {
    fn add_assign(&mut self, other: Sums) {
        self.lines += other.lines;
        self.branches += other.branches;
        self.calls += other.calls;
        self.full += other.full;
    }
}

impl Sums {
    #[inline]
    pub fn add(&mut self, record: &Record) {
        match record {
            Record::Line { count, .. } => self.lines += u128::from(*count),
            Record::Branch {
                taken: Some(taken), ..
            } => self.branches += u128::from(*taken),
            Record::Calls { count, .. } => {
                self.calls += u128::from(*count);
                self.full += u64::from(*count == u64::MAX);
            }
            _ => {}
        }
    }

    pub fn of(text: &[u8]) -> Self {
        let mut sums = Sums::default();
        let mut rest = lines(text);
        loop {
            if let Some(run) = rest.line_run() {
                sums.lines += run.sum;
            } else if let Some(run) = rest.branch_run() {
                sums.branches += run.sum;
            } else if let Some(line) = rest.next() {
                line.record.iter().for_each(|record| sums.add(record));
            } else {
                return sums;
            }
        }
    }

    /// The sums of all parts of a text, by so many threads.
    pub fn of_parts(parts: &[&[u8]], threads: usize) -> Self {
        let mut workers = vec![Sums::default(); threads];
        parallel::map(&mut workers, parts.len(), |sums, part| {
            *sums += Sums::of(parts[part]);
        });
        let mut sums = Sums::default();
        workers.into_iter().for_each(|worker| sums += worker);
        sums
    }
}

/// The sums over the files and those of the result, which are not equal.
#[derive(Debug, PartialEq, Eq)]
pub struct Difference {
    pub read: Sums,
    pub printed: Sums,
}

/// The count of a function stops at 2^64 - 1 (SPEC 5.1). Where one of the result does, the files may count more calls.
pub fn compare(read: Sums, printed: Sums) -> Result<(), Box<Difference>> {
    let calls_agree = read.calls == printed.calls || printed.full > 0 && read.calls > printed.calls;
    let agree = read.lines == printed.lines && read.branches == printed.branches && calls_agree;
    if agree {
        Ok(())
    } else {
        Err(Box::new(Difference { read, printed }))
    }
}

impl fmt::Display for Difference {
    fn fmt(&self, f: &mut fmt::Formatter) -> fmt::Result {
        let (read, printed) = (self.read, self.printed);
        write!(
            f,
            "the DA lines of the files count {} and those of the result {}, the BRDA lines {} and {}, the FNDA lines {} and {}",
            read.lines, printed.lines, read.branches, printed.branches, read.calls, printed.calls
        )
    }
}

#[cfg(test)]
mod tests {
    use super::*;

    fn sums(lines: u128, branches: u128, calls: u128) -> Sums {
        Sums {
            lines,
            branches,
            calls,
            full: 0,
        }
    }

    #[test]
    fn every_da_brda_and_fnda_counts() {
        let text =
            b"TN:DA:9,9\nSF:DA:9,9\nFN:5,DA:9,9\nFNDA:7,f\nBRDA:1,0,0,-\nBRDA:1,0,1,4\nBRDA:01,0,1,05\r\n\
            DA:1,2\nDA:1,03,x\nDA:2,004,+5\r\nFNDA:1,f\nLF:7\nLH:7\nend_of_record\nDA:1,10\nend_of_record\n";
        assert_eq!(Sums::of(text), sums(19, 9, 8));
        let parts: Vec<&[u8]> = text.split_inclusive(|&byte| byte == b'\n').collect();
        for threads in 1..5 {
            assert_eq!(Sums::of_parts(&parts, threads), sums(19, 9, 8));
        }
        assert_eq!(Sums::of(b""), sums(0, 0, 0));
        assert_eq!(Sums::of(b"DA:1,1"), sums(1, 0, 0));
    }

    #[test]
    fn sums_pass_64_bits() {
        let text = b"DA:1,18446744073709551615\nDA:2,18446744073709551615\n\
            BRDA:1,0,0,18446744073709551615\nBRDA:1,0,1,1\nFNDA:18446744073709551614,f\nFNDA:3,g\n";
        let expected = sums(2 * u128::from(u64::MAX), 1 << 64, (1 << 64) + 1);
        assert_eq!(Sums::of(text), expected);
    }

    #[test]
    fn a_difference_of_one_is_found_in_each_sum() {
        assert_eq!(compare(sums(3, 4, 5), sums(3, 4, 5)), Ok(()));
        for printed in [
            sums(2, 4, 5),
            sums(4, 4, 5),
            sums(3, 3, 5),
            sums(3, 5, 5),
            sums(3, 4, 4),
            sums(3, 4, 6),
            sums(4, 3, 5),
        ] {
            let difference = compare(sums(3, 4, 5), printed).unwrap_err();
            assert_eq!(difference.read, sums(3, 4, 5));
            assert_eq!(difference.printed, printed);
        }
        assert!(compare(sums(1 << 64, 0, 0), sums(0, 0, 0)).is_err());
    }

    #[test]
    fn a_count_that_stopped_excuses_fewer_calls_and_nothing_else() {
        let most = u128::from(u64::MAX);
        let stopped = |lines, calls| Sums {
            full: 1,
            ..sums(lines, 0, calls)
        };
        assert_eq!(compare(sums(1, 0, most + 9), stopped(1, most)), Ok(()));
        assert!(compare(sums(1, 0, most - 1), stopped(1, most)).is_err());
        assert!(compare(sums(2, 0, most + 9), stopped(1, most)).is_err());
        assert!(compare(sums(1, 0, most + 9), sums(1, 0, most)).is_err());
    }

    #[test]
    fn the_message_has_all_sums() {
        let difference = compare(sums(12, 34, 9), sums(56, 78, 10)).unwrap_err();
        assert_eq!(
            difference.to_string(),
            "the DA lines of the files count 12 and those of the result 56, the BRDA lines 34 and 78, the FNDA lines 9 and 10"
        );
    }
}
