//! Real tracefiles: sets of them gathered, single ones read, and the time that a line of each kind takes.

use crate::archives::{self, File};
use crate::compared::{gather_row, gather_row_by, read_row};
use crate::sides::Sides;
use crate::table::{grouped, Table, Unit};
use harness::interface::{Lent, MAX_ENTRIES, OUTPUT_TOO_SHORT, WORDS, WORDS_PER_ENTRY};
use harness::reports::bundles;
use harness::reports::workloads::real::{under_one_name, PARTS};
use harness::{Build, Gatherer};

#[derive(Clone, Copy, PartialEq, Eq)]
enum Naming {
    AsWritten,
    OneName,
}

struct Archive {
    name: &'static str,
    /// So many files are gathered at most.
    files: usize,
    namings: &'static [Naming],
}

const ARCHIVES: [Archive; 3] = [
    Archive {
        name: "recogniser-gcc",
        files: 60,
        namings: &[Naming::OneName],
    },
    Archive {
        name: "recogniser-clang",
        files: 49,
        namings: &[Naming::AsWritten],
    },
    Archive {
        name: "jsoncpp-gcc",
        files: 20,
        namings: &[Naming::AsWritten, Naming::OneName],
    },
];

/// The files of an archive that both sides read; an archive with none is no set.
struct Set {
    archive: &'static Archive,
    files: Vec<File>,
}

/// Texts of a set that are gathered together.
struct Chosen {
    what: String,
    naming: Naming,
    texts: Vec<Vec<u8>>,
    /// How many files the set has.
    files: usize,
}

pub fn measure(sides: &Sides) {
    let sets: Vec<Set> = ARCHIVES
        .iter()
        .filter_map(|archive| set_of(sides, archive))
        .collect();
    if sets.is_empty() {
        return;
    }
    let chosen: Vec<Chosen> = sets.iter().flat_map(|set| chosen_of(sides, set)).collect();
    let table = Table::new(sides, Unit::Milliseconds);
    for chosen in &chosen {
        chosen_row(&table, chosen);
    }
    for set in &sets {
        largest_row(&table, set);
    }
    let table = Table::new(sides, Unit::Nanoseconds);
    for chosen in &chosen {
        if chosen.naming == Naming::OneName {
            part_rows(&table, chosen);
        }
    }
}

// ---- what is measured

/// Says so where the archive is missing.
fn set_of(sides: &Sides, archive: &'static Archive) -> Option<Set> {
    let files = archives::files_of(archive.name).and_then(|mut files| {
        files.retain(|file| is_read(sides, &file.text));
        let none = "both sides read none of its files".to_owned();
        (!files.is_empty()).then_some(files).ok_or(none)
    });
    match files {
        Ok(files) => Some(Set { archive, files }),
        Err(why) => {
            println!("\n{} is not measured: {why}", archive.name);
            None
        }
    }
}

fn chosen_of(sides: &Sides, set: &Set) -> Vec<Chosen> {
    let chosen = set.archive.namings.iter().map(|&naming| {
        let texts = set.files.iter().map(|file| match naming {
            Naming::AsWritten => file.text.clone(),
            Naming::OneName => under_one_name(&file.text),
        });
        let how = match naming {
            Naming::AsWritten => "",
            Naming::OneName => " under one name",
        };
        Chosen {
            what: format!("{}{how}", set.archive.name),
            naming,
            texts: gathered_together(sides, texts, set.archive.files),
            files: set.files.len(),
        }
    });
    chosen.collect()
}

/// So many of the texts at most, in their order. One that is refused beside those before it is left out: its functions start elsewhere, or
/// there are too many entries.
fn gathered_together(
    sides: &Sides,
    texts: impl Iterator<Item = Vec<u8>>,
    most: usize,
) -> Vec<Vec<u8>> {
    let mut together = Vec::new();
    for text in texts {
        if together.len() < most {
            together.push(text);
            let bundle = bundles::of(&together);
            if !is_taken(sides, |port, lent| port.gather_with(&bundle, lent)) {
                together.pop();
            }
        }
    }
    together
}

/// By both sides.
fn is_read(sides: &Sides, text: &[u8]) -> bool {
    oracle::read_text(text).is_ok() && is_taken(sides, |port, lent| port.read_text(text, lent))
}

/// By each build of the port. With an empty output a call that refuses nothing else tells how long the report is.
fn is_taken(sides: &Sides, ask: impl Fn(&Build, Lent) -> u32) -> bool {
    let mut scratch = vec![0; MAX_ENTRIES * WORDS_PER_ENTRY];
    let mut numbers = sides.ports().into_iter().map(|(_, builds)| {
        let lent = Lent {
            scratch: &mut scratch,
            out: &mut [],
            marks: &mut [],
            answer: &mut [0; WORDS],
        };
        ask(&builds[0], lent)
    });
    numbers.all(|number| number == 0 || number == OUTPUT_TOO_SHORT)
}

// ---- rows

fn chosen_row(table: &Table, chosen: &Chosen) {
    let Chosen { what, texts, .. } = chosen;
    let bytes = texts.iter().map(Vec::len).sum();
    let what = format!(
        "gather {what}, {} of {} files, {}",
        texts.len(),
        chosen.files,
        megabytes(bytes)
    );
    gather_row(table, &what, &bundles::of(texts));
}

fn largest_row(table: &Table, set: &Set) {
    let largest = set.files.iter().max_by_key(|file| file.text.len());
    let File { name, text } = largest.expect("a set has files");
    let archive = set.archive.name;
    let what = format!("read {name} of {archive}, {}", megabytes(text.len()));
    read_row(table, &what, text);
}

/// The time of a gather of the lines of one kind alone, for each of them.
fn part_rows(table: &Table, chosen: &Chosen) {
    for part in PARTS {
        let texts: Vec<Vec<u8>> = chosen.texts.iter().map(|text| part.of(text)).collect();
        let lines = texts.iter().map(|text| part.count(text)).sum();
        let what = format!("{}, {} {}", chosen.what, grouped(lines), part.name());
        gather_row_by(table, &what, &bundles::of(&texts), lines);
    }
}

fn megabytes(bytes: usize) -> String {
    format!("{:.2} MB", bytes as f64 / 1e6)
}
