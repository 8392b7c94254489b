//! Pieces of files, and the texts and groups that the library is given. Which bytes are in which piece, and which pieces are in a group, is
//! for `cutting`.

use crate::forms::Forms;
use crate::order::{ordered, Run};
use std::ops::Range;

/// What one section of a file says, or a part of it.
#[derive(Debug, Clone, PartialEq, Eq)]
pub struct Piece {
    /// Where the file has the test name; none if the piece is the whole file.
    pub test: Option<Range<usize>>,
    pub path: Range<usize>,
    /// At least the number of entries that the library reads from it.
    pub entries: usize,
    pub body: Body,
    /// The body's lines in the order that is fast, where it is another.
    pub runs: Vec<Run>,
}

/// What follows the TN line.
#[derive(Debug, Clone, PartialEq, Eq)]
pub enum Body {
    /// Lines of the file, and the number of the first.
    Lines(Range<usize>, u32),
    /// Lines that are made of those of the file, the line of the file for each, and the one after the section.
    Made(Vec<u8>, Vec<u32>),
}

impl Piece {
    pub fn whole(text: &[u8], entries: usize) -> Self {
        Piece {
            test: None,
            path: 0..0,
            entries,
            body: Body::Lines(0..text.len(), 1),
            runs: Vec::new(),
        }
    }

    /// What the library is to read of it.
    pub fn text<'a>(&'a self, file: &'a [u8], origin: Origin) -> Text<'a> {
        Text {
            origin,
            test: self.test.clone().map(|test| &file[test]),
            path: &file[self.path.clone()],
            body: self.body(file),
            runs: (file, &self.runs),
            entries: self.entries,
        }
    }

    pub fn body<'a>(&'a self, file: &'a [u8]) -> &'a [u8] {
        match &self.body {
            Body::Lines(bytes, _) => &file[bytes.clone()],
            Body::Made(text, _) => text,
        }
    }

    /// The line of the file that a line of the piece, from 1 with the TN line, is.
    pub fn line_in_file(&self, line: u64) -> u64 {
        let place = match self.test {
            Some(_) => line.saturating_sub(2),
            None => line.saturating_sub(1),
        };
        match &self.body {
            Body::Lines(_, first) => u64::from(*first) + place,
            Body::Made(_, lines) => {
                let last = lines.len() - 1;
                u64::from(lines[(place as usize).min(last)])
            }
        }
    }
}

/// Where a part of the text is. An empty part may be of no text: `TN` and `SF` alone have no body.
pub fn range_of(part: &[u8], text: &[u8]) -> Range<usize> {
    if part.is_empty() {
        return 0..0;
    }
    let start = part.as_ptr() as usize - text.as_ptr() as usize;
    start..start + part.len()
}

/// A line that this command refuses by itself.
#[derive(Debug, Clone, PartialEq, Eq)]
pub struct Fault {
    pub line: u32,
    pub what: String,
}

/// The pieces of a file in order, and what is to be told of it.
#[derive(Debug, Default)]
pub struct Pieces {
    pub pieces: Vec<Piece>,
    pub forms: Forms,
    pub fault: Option<Fault>,
    /// The first branch whose block might be that of an exception.
    pub large_block: Option<u32>,
}

/// Where a text comes from.
#[derive(Debug, Clone, Copy, PartialEq, Eq, PartialOrd, Ord)]
pub enum Origin {
    /// Gathered before, and written by the library.
    Joined,
    /// A file and its piece, by their numbers.
    Piece { file: usize, piece: usize },
}

/// A text for the library: a TN line, where there is a test name, and a body.
#[derive(Debug, Clone, Copy)]
pub struct Text<'a> {
    pub origin: Origin,
    pub test: Option<&'a [u8]>,
    pub path: &'a [u8],
    pub body: &'a [u8],
    /// The file, and those of its lines that are the body in the order that is fast; none where the body is in that order.
    pub runs: (&'a [u8], &'a [Run]),
    pub entries: usize,
}

impl Text<'_> {
    /// Every line ends with byte 10, so that another text may follow.
    pub fn write(&self, bytes: &mut Vec<u8>) {
        self.write_name(bytes);
        bytes.extend_from_slice(self.body);
        if self.test.is_some() {
            end_line(bytes);
        }
    }

    /// The same in the order that is fast.
    pub fn write_ordered(&self, bytes: &mut Vec<u8>) {
        let (file, runs) = self.runs;
        match self.origin {
            Origin::Joined => self.write_runs(self.body, &ordered(self.body, 0), bytes),
            Origin::Piece { .. } => self.write_runs(file, runs, bytes),
        }
    }

    fn write_runs(&self, file: &[u8], runs: &[Run], bytes: &mut Vec<u8>) {
        if runs.is_empty() {
            return self.write(bytes);
        }
        self.write_name(bytes);
        for run in runs {
            bytes.extend_from_slice(&file[run.range()]);
            end_line(bytes);
        }
    }

    fn write_name(&self, bytes: &mut Vec<u8>) {
        if let Some(test) = self.test {
            bytes.extend_from_slice(b"TN:");
            bytes.extend_from_slice(test);
            bytes.push(b'\n');
        }
    }
}

fn end_line(bytes: &mut Vec<u8>) {
    if bytes.last() != Some(&b'\n') {
        bytes.push(b'\n');
    }
}

/// The texts of one test name and path, in order.
pub struct Group<'a> {
    pub texts: Vec<Text<'a>>,
}

impl<'a> Group<'a> {
    pub fn test(&self) -> &'a [u8] {
        self.texts[0].test.unwrap_or_default()
    }

    pub fn path(&self) -> &'a [u8] {
        self.texts[0].path
    }

    pub fn entries(&self) -> usize {
        let entries = self.texts.iter().map(|text| text.entries);
        entries.fold(0, usize::saturating_add)
    }

    pub fn key(&self) -> (&'a [u8], &'a [u8]) {
        (self.test(), self.path())
    }
}

/// At least the number of entries that the library reads from the groups.
pub fn entries_of(groups: &[Group]) -> usize {
    let entries = groups.iter().map(Group::entries);
    entries.fold(0, usize::saturating_add)
}
