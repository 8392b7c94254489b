//! Texts: `Report::from_reader`, `Report::merge`, `Report::merge_lossy` and `Report::into_records`.

use crate::fault::{unless_overflow, utf8, Fault};
use crate::line::print_record;
use crate::report::ParseError;
use crate::{reader, Report};
use std::cell::Cell;
use std::cmp::Ordering;
use std::path::Path;

#[derive(Debug, Clone, Copy, PartialEq, Eq)]
pub enum Mode {
    Checked,
    Lossy,
}

/// A text is cut at each byte 10; an empty last piece is no line.
fn lines(text: &str) -> impl Iterator<Item = &str> {
    text.split_terminator('\n')
}

pub fn read_text(text: &[u8]) -> Result<Report, Fault> {
    report_of(utf8(text)?)
}

fn report_of(text: &str) -> Result<Report, Fault> {
    unless_overflow(|| {
        // The Rust does not tell where it met a fault. It takes no line before it needs it, so the last one taken is the place.
        let taken = Cell::new(("", 0));
        let records = lines(text).enumerate().map(|(before, line)| {
            taken.set((line, before + 1));
            line.parse().map_err(reader::Error::Record)
        });
        Report::from_reader(records).map_err(|error| {
            let (line, number) = taken.get();
            fault_of_text(line, number, error)
        })
    })
}

fn fault_of_text(line: &str, number: usize, error: ParseError) -> Fault {
    match error {
        ParseError::Read(reader::Error::Record(error)) => {
            Fault::of_line(line, &error).on_line(number)
        }
        ParseError::Read(reader::Error::Io(error)) => unreachable!("no file is opened: {error}"),
        ParseError::UnexpectedRecord { .. } => Fault::numbered(7).on_line(number),
        ParseError::UnexpectedEof => Fault::numbered(8).on_line(number + 1),
    }
}

/// Each record as a line, with byte 10 after it.
pub fn print_report(report: Report) -> Vec<u8> {
    let mut printed = Vec::new();
    for record in report.into_records() {
        printed.extend(print_record(&record));
        printed.push(b'\n');
    }
    printed
}

/// Each text in turn is read and merged into one report, which is printed.
pub fn gather(mode: Mode, texts: &[&[u8]]) -> Result<Vec<u8>, Fault> {
    let texts = texts
        .iter()
        .map(|text| utf8(text))
        .collect::<Result<Vec<_>, _>>()?;
    let mut joined = Report::new();
    for (index, text) in texts.into_iter().enumerate() {
        report_of(text)
            .and_then(|report| merge(mode, &mut joined, report))
            .map_err(|fault| fault.in_text(index))?;
    }
    Ok(print_report(joined))
}

fn merge(mode: Mode, joined: &mut Report, report: Report) -> Result<(), Fault> {
    unless_overflow(|| match mode {
        Mode::Checked => joined.merge(report).map_err(Fault::of_merge),
        Mode::Lossy => {
            joined.merge_lossy(report);
            Ok(())
        }
    })
}

/// Paths in the order of a section's key.
pub fn compare_paths(a: &[u8], b: &[u8]) -> Result<Ordering, Fault> {
    Ok(Path::new(utf8(a)?).cmp(Path::new(utf8(b)?)))
}
