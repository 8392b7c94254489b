//! Every line of a file that is refused, for `--check`: the library tells the first alone.
//!
//! Each line is read by the library's call, and one that is refused is left out when those after it are looked at. What only all lines of a
//! file together show (9 and 10) is not found here.

use crate::explain::{ended_words, line_words, open_words, unended_words};
use crate::failure::Failure;
use crate::forms::Reader;
use crate::items::Taking;
use crate::open::OpenSection;
use crate::record::{lines, without_end, Line, Record};
use crate::source::Sources;
use lcov_sys::{Refusal, WORDS};
use std::borrow::Cow;

/// A line of a file that is refused, and the section in which it stands.
pub struct LineFault<'a> {
    /// From 1.
    pub line: u64,
    cause: Cause,
    /// As the file has it.
    bytes: &'a [u8],
    open: OpenSection<'a>,
}

enum Cause {
    /// The library's number, and the field.
    Refused(u32, u64),
    /// What this command refuses by itself.
    Unread(String),
}

impl LineFault<'_> {
    /// With the lines that follow the refusal's own; `place` is that of the file among the sources.
    pub fn failure(self, sources: Sources, place: usize, taking: Taking) -> Failure {
        let path = sources.files[place].path().to_owned();
        let (number, field) = match self.cause {
            Cause::Refused(number, field) => (number, field),
            Cause::Unread(what) => return Failure::Unread(path, self.line, what),
        };
        let refusal = Refusal {
            number,
            text: place,
            line: self.line,
            field,
            needed: 0,
        };
        let open = || open_words(&self.open, sources);
        let words = match number {
            7 | 25 => unended_words(self.line, self.bytes, &open()),
            8 => ended_words(&open()),
            _ => line_words(&refusal, self.bytes, taking, sources.rewriting.tags()),
        };
        Failure::Explained(Box::new(Failure::Refused(path, refusal)), words)
    }
}

/// Those of a file, in order: `text` is what the library is to read of it, and `own` the file as it is, line by line.
pub fn line_faults<'a>(text: &'a [u8], own: &'a [u8], taking: Taking) -> Vec<LineFault<'a>> {
    let mut walk = Walk {
        taking,
        open: OpenSection::default(),
        has_path: false,
        reader: Reader::default(),
        all: Vec::new(),
    };
    let mut last = 0;
    for (line, own) in lines(text).zip(own.split_inclusive(|&byte| byte == b'\n')) {
        last = line.number;
        match walk.cause(&line, &text[line.start..line.end]) {
            Some(cause) => walk.add(line.number, own, cause),
            None => walk.take(&line),
        }
    }
    if walk.open.start > 0 {
        walk.add(last + 1, b"", Cause::Refused(8, 0));
    }
    walk.all
}

/// The lines before this one, as far as they matter to it.
struct Walk<'a> {
    taking: Taking,
    open: OpenSection<'a>,
    has_path: bool,
    reader: Reader,
    all: Vec<LineFault<'a>>,
}

impl<'a> Walk<'a> {
    fn take(&mut self, line: &Line<'a>) {
        self.open.take(line, self.taking);
        let is_path = matches!(line.record, Some(Record::SourceFile(_)));
        self.has_path = self.open.start > 0 && (self.has_path || is_path);
        if line.record == Some(Record::End) {
            self.reader = Reader::default();
        }
    }

    fn add(&mut self, line: u32, bytes: &'a [u8], cause: Cause) {
        self.all.push(LineFault {
            line: line.into(),
            cause,
            bytes: without_end(bytes),
            open: self.open,
        });
    }

    fn cause(&mut self, line: &Line, bytes: &[u8]) -> Option<Cause> {
        let words = match (line.record, self.taking) {
            (None, Taking::AsGeninfo) => {
                let read = self.reader.read(bytes);
                if let Some(what) = read.fault {
                    return Some(Cause::Unread(what));
                }
                read.text
            }
            _ => Cow::Borrowed(bytes),
        };
        let mut words = words.split_inclusive(|&byte| byte == b'\n');
        words.find_map(refused).or(match line.record {
            Some(Record::TestName(_)) if self.open.start > 0 => Some(Cause::Refused(7, 0)),
            Some(Record::SourceFile(_)) if self.has_path => Some(Cause::Refused(25, 0)),
            _ => None,
        })
    }
}

/// Why the library refuses a line by itself.
fn refused(line: &[u8]) -> Option<Cause> {
    let mut answer = [0; WORDS];
    let number = lcov_sys::read_line(without_end(line), &mut answer);
    (number > 0).then_some(Cause::Refused(number, answer[2]))
}
