//! The section that a line of a file stands in.

use crate::items::Taking;
use crate::record::{lines, records, Line, Record};

#[derive(Debug, Clone, Copy, Default, PartialEq, Eq)]
pub struct OpenSection<'a> {
    pub test: &'a [u8],
    pub path: &'a [u8],
    /// Where it began; 0 where none is open.
    pub start: u32,
}

impl<'a> OpenSection<'a> {
    /// That of the line, given all lines before it.
    pub fn at(text: &'a [u8], line: u64, taking: Taking) -> Self {
        let mut open = OpenSection::default();
        for before in lines(text).take_while(|before| u64::from(before.number) < line) {
            open.take(&before, taking);
        }
        open
    }

    /// The section after a line more. One that is no record is of another producer.
    pub fn take(&mut self, line: &Line<'a>, taking: Taking) {
        match line.record {
            Some(Record::End) => self.end(taking),
            Some(Record::TestName(name)) => self.test = name,
            record => {
                if self.start == 0 {
                    self.start = line.number;
                }
                if let Some(Record::SourceFile(path)) = record {
                    self.path = path;
                }
            }
        }
    }

    /// No section is open, after the end of this one.
    fn end(&mut self, taking: Taking) {
        let test = match taking {
            Taking::AsWritten => b"",
            Taking::AsGeninfo => self.test,
        };
        *self = OpenSection {
            test,
            ..OpenSection::default()
        };
    }

    /// The calls of a function in the section before a line. FN sets them to 0.
    pub fn calls_before(&self, text: &[u8], line: u64, function: &[u8]) -> u64 {
        let is_before = |number: &u32| u64::from(*number) < line;
        let before = records(text).take_while(|(number, _)| is_before(number));
        let mut calls = 0_u64;
        for (_, record) in before.filter(|&(number, _)| number >= self.start) {
            match record {
                Record::Calls { count, name } if name == function => {
                    calls = calls.saturating_add(count);
                }
                Record::Function { name, .. } if name == function => calls = 0,
                _ => {}
            }
        }
        calls
    }
}

#[cfg(test)]
mod tests {
    use super::*;

    const TEXT: &[u8] =
        b"TN:s\nSF:a\nFNDA:7,f\nend_of_record\nTN:t\nLF:1\nSF:b\nFNDA:1,f\nFN:1,f\nFNDA:2,f\nFNDA:3,f\n";

    #[test]
    fn the_section_of_each_line() {
        let at = |line| OpenSection::at(TEXT, line, Taking::AsWritten);
        let open =
            |test: &'static [u8], path: &'static [u8], start| OpenSection { test, path, start };
        assert_eq!(at(1), open(b"", b"", 0));
        assert_eq!(at(2), open(b"s", b"", 0));
        assert_eq!(at(4), open(b"s", b"a", 2));
        assert_eq!(at(5), open(b"", b"", 0));
        assert_eq!(at(7), open(b"t", b"", 6));
        assert_eq!(at(99), open(b"t", b"b", 6));
        let later = OpenSection::at(TEXT, 5, Taking::AsGeninfo);
        assert_eq!(later, open(b"s", b"", 0));
    }

    #[test]
    fn calls_of_a_function_in_the_section() {
        let calls =
            |line| OpenSection::at(TEXT, line, Taking::AsWritten).calls_before(TEXT, line, b"f");
        assert_eq!([8, 9, 10, 11, 12].map(calls), [0, 1, 0, 2, 5]);
    }
}
