//! How often each kind of answer came.

use crate::expected::{Basis, Expected};
use crate::interface::{EQUAL, GREATER, KIND, LESS};
use crate::lines::LAYOUTS;
use std::fmt;

/// Numbers of SPEC 9.1, and 0 for an answer.
pub const NUMBERS: usize = 30;

/// The first of them that refuse a lone line, from 1.
pub const LINE_REFUSALS: usize = 6;

/// What each number says; those that no line, text or bundle can give are empty.
pub const NAMES: [&str; NUMBERS] = [
    "answered",
    "tag unknown",
    "field missing",
    "too many fields",
    "number empty",
    "bad digit",
    "number too large",
    "TN in a section",
    "ends in a section",
    "sum of calls",
    "too many entries",
    "starts differ",
    "checksums differ",
    "sum of runs",
    "output too short",
    "",
    "bundle ill formed",
    "",
    "ranges ill formed",
    "plus sign",
    "revision twice",
    "",
    "",
    "end before start",
    "width outside",
    "second SF",
    "",
    "",
    "",
    "labs ill formed",
];

#[derive(Default)]
pub struct Tally {
    /// By kind, in the order of `RecordKind`.
    pub read: [u64; LAYOUTS.len()],
    /// By number, from 1.
    pub refused: [u64; LINE_REFUSALS],
    /// Lines that are not UTF-8: read, and refused.
    pub outside: [u64; 2],
    /// Lines that the Rust answers otherwise: a number has a plus sign.
    pub apart: u64,
    /// FN with an end line, by the number of the answer.
    pub with_end: [u64; NUMBERS],
    /// Pairs of paths by their order.
    pub paths: [u64; 3],
    /// Lines asked again with every length of answer and of output.
    pub thorough: u64,
    /// Calls refused because the output was too short.
    pub too_short: u64,
}

impl Tally {
    pub fn count_line(&mut self, expected: &Expected) {
        let number = expected.read.number as usize;
        let counted = match (expected.basis, expected.outside, number) {
            (Basis::Refusal, ..) => &mut self.apart,
            (Basis::Ends, ..) => &mut self.with_end[number],
            (Basis::Starts | Basis::Page | Basis::Windows, ..) => {
                unreachable!("no line is filtered, has a page or windows")
            }
            (Basis::Rust, true, 0) => &mut self.outside[0],
            (Basis::Rust, true, _) => &mut self.outside[1],
            (Basis::Rust, false, 0) => &mut self.read[expected.read.words[KIND] as usize - 1],
            (Basis::Rust, false, number) => &mut self.refused[number - 1],
        };
        *counted += 1;
    }

    pub fn count_paths(&mut self, order: u32) {
        self.paths[order as usize] += 1;
    }

    /// Those that were compared with the Rust.
    pub fn lines(&self) -> u64 {
        self.read.iter().sum::<u64>()
            + self.refused.iter().sum::<u64>()
            + self.outside.iter().sum::<u64>()
    }

    pub fn asked(&self) -> u64 {
        self.lines() + self.apart + self.with_end.iter().sum::<u64>()
    }

    pub fn pairs(&self) -> u64 {
        self.paths.iter().sum()
    }
}

impl fmt::Display for Tally {
    fn fmt(&self, f: &mut fmt::Formatter) -> fmt::Result {
        for (layout, count) in LAYOUTS.iter().zip(self.read) {
            row(f, &format!("read {}", layout.tag), &[count])?;
        }
        for (number, count) in (1..).zip(self.refused) {
            row(f, &format!("refused {number} {}", NAMES[number]), &[count])?;
        }
        rows(
            f,
            &[
                ("outside, read", self.outside[0]),
                ("outside, refused", self.outside[1]),
                ("lines", self.lines()),
                ("plus sign, 19", self.apart),
            ],
        )?;
        numbered(f, "end line", self.with_end.map(|count| [count]))?;
        rows(
            f,
            &[
                ("all lines", self.asked()),
                ("  of them with every length", self.thorough),
                ("  outputs too short", self.too_short),
                ("paths, less", self.paths[LESS as usize]),
                ("paths, equal", self.paths[EQUAL as usize]),
                ("paths, greater", self.paths[GREATER as usize]),
            ],
        )
    }
}

/// What the Rust answers otherwise for some reason: a row for each number that came.
pub fn numbered<const N: usize>(
    f: &mut fmt::Formatter,
    why: &str,
    counts: [[u64; N]; NUMBERS],
) -> fmt::Result {
    let came = counts
        .iter()
        .enumerate()
        .filter(|(_, cells)| cells.iter().any(|&cell| cell > 0));
    for (number, cells) in came {
        row(f, &format!("{why}, {number} {}", NAMES[number]), cells)?;
    }
    Ok(())
}

/// A row for each count.
pub fn rows(f: &mut fmt::Formatter, counts: &[(&str, u64)]) -> fmt::Result {
    counts
        .iter()
        .try_for_each(|&(what, count)| row(f, what, &[count]))
}

/// What was counted, and the cells beside it.
pub fn row(f: &mut fmt::Formatter, what: &str, cells: &[impl fmt::Display]) -> fmt::Result {
    write!(f, "{what:<30}")?;
    for cell in cells {
        write!(f, "{cell:>10}")?;
    }
    writeln!(f)
}
