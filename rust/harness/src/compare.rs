//! The comparison: the port is asked, and all that it hands back or leaves alone is held against what is expected.

use crate::differences::{Difference, Differences};
use crate::expected::{path_order, printing, Expected};
use crate::guarded::{LentBytes, LentWords};
use crate::interface::{Port, OUTPUT_TOO_SHORT, WORDS};
use crate::tally::Tally;

/// Words past the eighth, and bytes past what is printed, that are lent as well.
pub(crate) const MOST_WORDS: usize = WORDS + 2;
pub(crate) const BYTES_PAST: usize = 16;

/// Of how many lines one is asked with every length. A prime, so that no habit of an exhaustive list falls in step with it.
const THOROUGH_ONE_IN: u64 = 37;

/// Every length of a longer output would take all the time.
pub(crate) const THOROUGH_AT_MOST: usize = 300;

pub struct Comparison<P> {
    port: P,
    pub tally: Tally,
    pub calls: u64,
    pub differences: Differences,
}

impl<P: Port> Comparison<P> {
    pub fn new(port: P) -> Self {
        Comparison {
            port,
            tally: Tally::default(),
            calls: 0,
            differences: Differences::default(),
        }
    }

    pub fn compared(&self) -> u64 {
        self.tally.lines() + self.tally.pairs()
    }

    pub fn line(&mut self, line: &[u8]) {
        let expected = Expected::of(line);
        self.tally.count_line(&expected);
        self.reading(line, &expected, MOST_WORDS);
        let needed = expected.printed.as_ref().map_or(0, Vec::len);
        self.printing(line, &expected, needed + BYTES_PAST, MOST_WORDS);
        if self.tally.asked().is_multiple_of(THOROUGH_ONE_IN) && needed <= THOROUGH_AT_MOST {
            self.every_length(line, &expected, needed);
        }
    }

    fn every_length(&mut self, line: &[u8], expected: &Expected, needed: usize) {
        self.tally.thorough += 1;
        for words in 0..MOST_WORDS {
            self.reading(line, expected, words);
            self.printing(line, expected, needed, words);
        }
        for room in 0..=needed {
            self.printing(line, expected, room, WORDS);
        }
    }

    fn reading(&mut self, line: &[u8], expected: &Expected, words: usize) {
        self.calls += 1;
        let mut lent = LentWords::new(words);
        let number = self.port.read_line(line, lent.lend());
        if !lent.holds(number, &expected.read) {
            self.differences.add(0, || Difference {
                asked: format!("read {}, answer of {words} words", shown(line)),
                rust: format!("{:?}", expected.read),
                port: lent.shown(number),
            });
        }
    }

    fn printing(&mut self, line: &[u8], expected: &Expected, room: usize, words: usize) {
        let mut out = LentBytes::new(room);
        self.calls += 1;
        let mut lent = LentWords::new(words);
        let number = self.port.print_line(line, out.lend(), lent.lend());
        let (answer, bytes) = printing(expected.told(), room);
        self.tally.too_short += u64::from(answer.number == OUTPUT_TOO_SHORT);
        if !lent.holds(number, &answer) || !out.holds(bytes) {
            let lengths = format!("output of {room} bytes, answer of {words} words");
            self.differences.add(0, || Difference {
                asked: format!("print {}, {lengths}", shown(line)),
                rust: format!("{answer:?}, output {}, then untouched", shown(bytes)),
                port: format!("{}, output {}", lent.shown(number), shown(out.all())),
            });
        }
    }

    pub fn paths(&mut self, a: &[u8], b: &[u8]) {
        let expected = path_order(a, b);
        self.tally.count_paths(expected);
        self.calls += 1;
        let order = self.port.compare_paths(a, b);
        if order != expected {
            self.differences.add(0, || Difference {
                asked: format!("paths {} and {}", shown(a), shown(b)),
                rust: expected.to_string(),
                port: order.to_string(),
            });
        }
    }
}

pub fn shown(bytes: &[u8]) -> String {
    let hex: String = bytes.iter().map(|byte| format!("{byte:02x}")).collect();
    format!("b\"{}\" (hex {hex})", bytes.escape_ascii())
}

#[cfg(test)]
mod tests {
    use super::*;
    use crate::ends::{Read, END_BEFORE_START};
    use crate::interface::{LEN, START};
    use crate::plus;
    use crate::stand_in::Wrong;

    struct StandIn(Wrong);

    impl StandIn {
        fn expected(&self, line: &[u8]) -> Expected {
            match (self.0, line) {
                (Wrong::PlusTaken, b"DA:1,+2") => Expected::of(b"DA:1,2"),
                (Wrong::EqualEndRefused, b"FN:3,3,f") => Expected::of(b"FN:3,2,f"),
                (Wrong::EndIsName, _) => {
                    Expected::by(line, |line| plus::read_line(line).map(Read::without_end))
                }
                _ => Expected::of(line),
            }
        }
    }

    impl Port for StandIn {
        fn read_line(&self, line: &[u8], answer: &mut [u64]) -> u32 {
            let mut read = self.expected(line).read;
            let empty = read.words[START] != 0 && read.words[LEN] == 0;
            if self.0 == Wrong::EmptyTextElsewhere && empty {
                read.words[START] -= 1;
            }
            self.0.answer(read, answer)
        }

        fn print_line(&self, line: &[u8], out: &mut [u8], answer: &mut [u64]) -> u32 {
            let mut expected = self.expected(line);
            if let (Wrong::NewlineMissing, Some(printed)) = (self.0, &mut expected.printed) {
                printed.pop();
            }
            self.0.print(expected.told(), out, answer)
        }

        fn compare_paths(&self, a: &[u8], b: &[u8]) -> u32 {
            if self.0 == Wrong::PathOrder {
                path_order(b, a)
            } else {
                path_order(a, b)
            }
        }
    }

    fn compared(wrong: Wrong) -> Comparison<StandIn> {
        let mut comparison = Comparison::new(StandIn(wrong));
        let lines: [&[u8]; 8] = [
            b"TN:a",
            b"FN:",
            b"DA:1,2,",
            b"SF:\xff",
            b"BRDA:1,2,3,4\n",
            b"DA:1,+2",
            b"FN:3,3,f",
            b"FN:3,2,f",
        ];
        for line in lines
            .iter()
            .cycle()
            .take(THOROUGH_ONE_IN as usize * lines.len())
        {
            comparison.line(line);
        }
        comparison.paths(b"a", b"b");
        comparison
    }

    #[test]
    fn a_port_that_answers_as_the_rust_has_no_differences() {
        let comparison = compared(Wrong::Nothing);
        assert_eq!(comparison.differences.count, 0);
        assert_eq!(comparison.compared(), THOROUGH_ONE_IN * 5 + 1);
        assert_eq!(comparison.tally.apart, THOROUGH_ONE_IN);
        for number in [0, END_BEFORE_START] {
            let with_end = comparison.tally.with_end[number as usize];
            assert_eq!(with_end, THOROUGH_ONE_IN);
        }
        assert_eq!(comparison.tally.thorough, 8);
        assert_eq!(comparison.tally.too_short, 5 + 8 + 5 + 13 + 9);
    }

    #[test]
    fn whatever_a_port_does_wrong_is_seen() {
        let others = [
            Wrong::EmptyTextElsewhere,
            Wrong::NewlineMissing,
            Wrong::PathOrder,
            Wrong::PlusTaken,
            Wrong::EndIsName,
            Wrong::EqualEndRefused,
        ];
        for wrong in Wrong::of_printing().chain(others) {
            assert!(
                compared(wrong).differences.count > 0,
                "{wrong:?} is not seen"
            );
        }
    }

    fn first_difference(wrong: Wrong) -> String {
        let differences = compared(wrong).differences;
        let first = differences.shown().next().map(Difference::to_string);
        first.expect("a difference")
    }

    #[test]
    fn a_wrong_answer_is_seen_when_a_line_is_read() {
        for wrong in Wrong::of_answers() {
            let first = first_difference(wrong);
            assert!(first.starts_with("read "), "{wrong:?}: {first}");
        }
    }

    #[test]
    fn a_difference_is_shown_in_full() {
        let first = first_difference(Wrong::Number);
        assert!(first.starts_with("read b\"TN:a\" (hex 544e3a61), answer of 10 words\n"));
        assert!(first.contains("port     1 [1, 0, 0, 0, 0, 0, 3, 1, untouched"));
    }
}
