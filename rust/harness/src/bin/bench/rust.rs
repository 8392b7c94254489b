//! What the Rust does with texts and bundles.

use harness::interface::LABS;
use harness::reports::bundles;
use oracle::filter::line_num::LineNum;
use oracle::{reader, Report};
use std::fmt::Write;
use std::hint::black_box;

pub fn read_text(text: &[u8]) -> String {
    print(report(text))
}

/// A text is checked to be UTF-8, as the Rust's own reader does line by line.
pub fn report(text: &[u8]) -> Report {
    let text = std::str::from_utf8(text).expect("a sound text");
    let records = text
        .split_terminator('\n')
        .map(|line| line.parse().map_err(reader::Error::Record));
    Report::from_reader(records).expect("a sound text")
}

pub fn filter(text: &[u8], held: &LineNum) -> String {
    let mut report = report(text);
    for section in report.sections.values_mut() {
        held.apply(section);
    }
    print(report)
}

pub fn gather(bundle: &[u8]) -> String {
    print(joined(&bundles::decoded(bundle).expect("a sound bundle")))
}

/// For each text its window's texts are read and joined, and the lines counted.
pub fn windows(width: usize, bundle: &[u8]) -> String {
    let texts = bundles::decoded(bundle).expect("a sound bundle");
    let mut out = String::new();
    for last in 0..texts.len() {
        let first = (last + 1).saturating_sub(width);
        let (hit, found) = hit_and_found(&joined(&texts[first..=last]));
        writeln!(out, "{hit}/{found}").expect("a string takes all");
    }
    out
}

/// The texts of each lab are read and joined, and the entries counted; then all texts are gathered.
pub fn gather_labs(bundle: &[u8], labs: &[u8]) -> String {
    let texts = bundles::decoded(bundle).expect("a sound bundle");
    for lab in 1..=LABS {
        let sent = texts.iter().zip(labs);
        let own = sent.filter(|(_, number)| usize::from(**number) == lab);
        let own: Vec<&[u8]> = own.map(|(text, _)| *text).collect();
        black_box(entries(&joined(&own)));
    }
    print(joined(&texts))
}

fn entries(report: &Report) -> usize {
    let sections = report.sections.values();
    sections
        .map(|section| 1 + section.functions.len() + section.branches.len() + section.lines.len())
        .sum()
}

fn joined(texts: &[&[u8]]) -> Report {
    let mut joined = Report::new();
    for text in texts {
        joined
            .merge(report(text))
            .expect("no start or checksum differs");
    }
    joined
}

fn hit_and_found(report: &Report) -> (usize, usize) {
    let (mut hit, mut found) = (0, 0);
    for line in report
        .sections
        .values()
        .flat_map(|section| section.lines.values())
    {
        hit += usize::from(line.count > 0);
        found += 1;
    }
    (hit, found)
}

fn print(report: Report) -> String {
    let mut out = String::new();
    for record in report.into_records() {
        writeln!(out, "{record}").expect("a string takes all");
    }
    out
}
