//! SPEC 3's readings, filters and gathers once more, with what the Rust does not have: the number of entries, sums that pass their type, and
//! the end lines of functions.
//!
//! The maps are the Rust's, so that keys are its keys; what is done with them is written here from SPEC 3 alone.

use crate::ends::{self, Read};
use crate::interface::Starts;
use oracle::report::section::{branch, function, line, Key, Value};
use oracle::{Fault, Mode, Record, Refusal, Report};
use std::collections::btree_map::{BTreeMap, Entry};

pub const SUM_OF_CALLS: u32 = 9;
pub const TOO_MANY_ENTRIES: u32 = 10;
const STARTS_DIFFER: u32 = 11;
const CHECKSUMS_DIFFER: u32 = 12;
pub const SUM_OF_RUNS: u32 = 13;
pub const SECOND_PATH: u32 = 25;

/// How many entries there may be, and the most that there were.
pub struct Entries {
    limit: usize,
    pub most: usize,
}

impl Entries {
    pub fn limited(limit: usize) -> Self {
        Entries { limit, most: 0 }
    }

    fn count(&mut self, entries: usize) -> Result<(), u32> {
        self.most = self.most.max(entries);
        if entries > self.limit {
            Err(TOO_MANY_ENTRIES)
        } else {
            Ok(())
        }
    }
}

/// A section as the Rust has it, and the end lines of its functions by their names.
#[derive(Clone, Default)]
pub struct Section {
    value: Value,
    ends: BTreeMap<String, u32>,
}

pub type Sections = BTreeMap<Key, Section>;

/// What is kept, or the first refusal.
pub type Told = Result<Sections, Refusal>;

pub fn gather(mode: Mode, texts: &[&[u8]], entries: &mut Entries) -> Told {
    let mut joined = Sections::new();
    for (index, text) in texts.iter().enumerate() {
        let sections = read(text, entries).map_err(|refusal| Refusal {
            text: index,
            ..refusal
        })?;
        join_sections(mode, &mut joined, sections)
            .and_then(|()| entries.count(entries_of(&joined)))
            .map_err(|number| Refusal {
                text: index,
                ..refusal(number, 0)
            })?;
    }
    Ok(joined)
}

fn refusal(number: u32, line: usize) -> Refusal {
    Refusal {
        line,
        ..Refusal::numbered(number)
    }
}

// ---- reading

pub fn read(text: &[u8], entries: &mut Entries) -> Told {
    let mut reading = Reading::default();
    let mut number = 0;
    for line in lines(text) {
        number += 1;
        let read = ends::read_line(line).map_err(|fault| on_line(fault, number))?;
        reading
            .take(read)
            .and_then(|()| entries.count(reading.entries()))
            .map_err(|fault| refusal(fault, number))?;
    }
    if reading.open.is_some() {
        return Err(refusal(8, number + 1));
    }
    Ok(reading.kept)
}

/// Cut at each byte 10; an empty last piece is no line.
pub fn lines(text: &[u8]) -> impl Iterator<Item = &[u8]> {
    let whole = text.strip_suffix(b"\n").unwrap_or(text);
    let none = usize::from(text.is_empty());
    whole.split(|&byte| byte == b'\n').skip(none)
}

fn on_line(fault: Fault, line: usize) -> Refusal {
    match fault {
        Fault::Refused(refusal) => Refusal { line, ..refusal },
        Fault::Outside => unreachable!("texts that are not UTF-8 are not asked"),
    }
}

/// The state between two lines.
#[derive(Default)]
struct Reading {
    kept: Sections,
    kept_entries: usize,
    name: String,
    /// The open section's SF.
    path: Option<std::path::PathBuf>,
    /// The section from its first line other than TN.
    open: Option<Section>,
}

impl Reading {
    fn entries(&self) -> usize {
        self.kept_entries + self.open.as_ref().map_or(0, entries_in)
    }

    fn take(&mut self, Read { record, end }: Read) -> Result<(), u32> {
        if let Record::TestName { name } = record {
            if self.open.is_some() {
                return Err(7);
            }
            self.name = name;
            return Ok(());
        }
        let open = self.open.get_or_insert_default();
        match record {
            Record::SourceFile { path } => self.name_section(path)?,
            Record::EndOfRecord => self.close(),
            Record::FunctionName { name, start_line } => open.start(name, start_line, end),
            record => take_item(&mut open.value, record)?,
        }
        Ok(())
    }

    /// A section has one SF, which the Rust does not ask for.
    fn name_section(&mut self, path: std::path::PathBuf) -> Result<(), u32> {
        match self.path.replace(path) {
            None => Ok(()),
            Some(_) => Err(SECOND_PATH),
        }
    }

    fn close(&mut self) {
        let key = Key {
            test_name: std::mem::take(&mut self.name),
            source_file: self.path.take().unwrap_or_default(),
        };
        let closed = self.open.take().unwrap_or_default();
        if entries_in(&closed) == 1 {
            return;
        }
        match self.kept.entry(key) {
            // the first spelling stays
            Entry::Occupied(mut kept) => drop(kept.insert(closed)),
            Entry::Vacant(free) => drop(free.insert(closed)),
        }
        self.kept_entries = entries_of(&self.kept);
    }
}

impl Section {
    /// FN replaces all that was known of its function: an end line by none if it gives none.
    fn start(&mut self, name: String, start_line: u32, end: Option<u32>) {
        self.set_end(&name, end);
        let value = function::Value {
            start_line: Some(start_line),
            count: 0,
        };
        self.value.functions.insert(function::Key { name }, value);
    }

    fn set_end(&mut self, name: &str, end: Option<u32>) {
        match end {
            Some(end) => self.ends.insert(name.to_owned(), end),
            None => self.ends.remove(name),
        };
    }
}

fn take_item(open: &mut Value, record: Record) -> Result<(), u32> {
    match record {
        Record::FunctionData { name, count } => {
            let value = open.functions.entry(function::Key { name }).or_default();
            value.count = value.count.checked_add(count).ok_or(SUM_OF_CALLS)?;
        }
        Record::BranchData {
            line,
            block,
            branch,
            taken,
        } => {
            let key = branch::Key {
                line,
                block,
                branch,
            };
            open.branches.insert(key, branch::Value { taken });
        }
        Record::LineData {
            line,
            count,
            checksum,
        } => {
            let value = line::Value { count, checksum };
            open.lines.insert(line::Key { line }, value);
        }
        _ => {}
    }
    Ok(())
}

// ---- filtering

/// The end of a function that gives none, by its start and the starts behind it in printing order.
pub type EndOf = fn(u32, &[u32]) -> u32;

pub fn end_by(starts: Starts) -> EndOf {
    match starts {
        Starts::All => |_, behind| before(behind.first()),
        Starts::Distinct => {
            |start, behind| before(behind.iter().filter(|&&next| next > start).min())
        }
    }
}

/// 0 stays 0.
fn before(next: Option<&u32>) -> u32 {
    next.map_or(u32::MAX, |next| next.saturating_sub(1))
}

/// Keeps what the pairs hold, in each section; a section that is emptied stays.
pub fn filter(sections: &mut Sections, pairs: &[[u32; 2]], end_of: EndOf) {
    let is_held = |from: u32, to: u32| pairs.iter().any(|&[start, end]| start <= to && end >= from);
    for section in sections.values_mut() {
        let gone = functions_that_go(section, is_held, end_of);
        let value = &mut section.value;
        value.functions.retain(|key, _| !gone.contains(&key.name));
        value.branches.retain(|key, _| is_held(key.line, key.line));
        value.lines.retain(|key, _| is_held(key.line, key.line));
    }
}

/// Those without a start; and in printing order, by start and then name, those whose lines up to their end are not held: their own end line,
/// or else the one that is reckoned.
fn functions_that_go(
    section: &Section,
    is_held: impl Fn(u32, u32) -> bool,
    end_of: EndOf,
) -> Vec<String> {
    let mut started = Vec::new();
    let mut gone = Vec::new();
    for (key, value) in &section.value.functions {
        match value.start_line {
            Some(start) => started.push((start, key.name.clone())),
            None => gone.push(key.name.clone()),
        }
    }
    started.sort();
    let starts: Vec<u32> = started.iter().map(|&(start, _)| start).collect();
    for (place, (start, name)) in started.iter().enumerate() {
        let reckoned = end_of(*start, &starts[place + 1..]);
        let end = section.ends.get(name).copied().unwrap_or(reckoned);
        if !is_held(*start, end) {
            gone.push(name.clone());
        }
    }
    gone
}

// ---- counting

pub fn entries_of(sections: &Sections) -> usize {
    sections.values().map(entries_in).sum()
}

/// The section itself, and all that is in it. An end line is no entry.
fn entries_in(section: &Section) -> usize {
    let Value {
        functions,
        branches,
        lines,
    } = &section.value;
    1 + functions.len() + branches.len() + lines.len()
}

/// The lines that are hit and found, of all sections.
pub fn hit_and_found(sections: &Sections) -> (u64, u64) {
    let lines = || sections.values().flat_map(|kept| kept.value.lines.values());
    let hit = lines().filter(|line| line.count > 0);
    (hit.count() as u64, lines().count() as u64)
}

// ---- merging

fn join_sections(mode: Mode, joined: &mut Sections, other: Sections) -> Result<(), u32> {
    join(joined, other, |section, later| {
        join_ends(mode, section, &later);
        let (kept, new) = (&mut section.value, later.value);
        join(&mut kept.functions, new.functions, |kept, new| {
            join_function(mode, kept, new)
        })?;
        join(&mut kept.branches, new.branches, join_branch)?;
        join(&mut kept.lines, new.lines, |kept, new| {
            join_line(mode, kept, new)
        })
    })
}

/// A later section that gives a start of a function gives its end line, or none, with it. A check keeps the larger of both, and what only
/// one gives.
fn join_ends(mode: Mode, section: &mut Section, later: &Section) {
    for (function::Key { name }, value) in &later.value.functions {
        if value.start_line.is_some() {
            let new = later.ends.get(name).copied();
            let end = match mode {
                Mode::Checked => new.max(section.ends.get(name).copied()),
                Mode::Lossy => new,
            };
            section.set_end(name, end);
        }
    }
}

/// Key by key in order; new entries are taken over, and a key's earlier spelling stays.
fn join<K: Ord, V>(
    joined: &mut BTreeMap<K, V>,
    other: BTreeMap<K, V>,
    combine: impl Fn(&mut V, V) -> Result<(), u32>,
) -> Result<(), u32> {
    for (key, value) in other {
        match joined.entry(key) {
            Entry::Vacant(free) => drop(free.insert(value)),
            Entry::Occupied(mut kept) => combine(kept.get_mut(), value)?,
        }
    }
    Ok(())
}

fn join_function(mode: Mode, kept: &mut function::Value, new: function::Value) -> Result<(), u32> {
    kept.start_line = join_given(mode, kept.start_line, new.start_line).ok_or(STARTS_DIFFER)?;
    kept.count = kept.count.saturating_add(new.count);
    Ok(())
}

fn join_branch(kept: &mut branch::Value, new: branch::Value) -> Result<(), u32> {
    kept.taken = match (kept.taken, new.taken) {
        (Some(a), Some(b)) => Some(a.checked_add(b).ok_or(SUM_OF_RUNS)?),
        (a, b) => a.or(b),
    };
    Ok(())
}

fn join_line(mode: Mode, kept: &mut line::Value, new: line::Value) -> Result<(), u32> {
    let checksum = kept.checksum.take();
    kept.checksum = join_given(mode, checksum, new.checksum).ok_or(CHECKSUMS_DIFFER)?;
    kept.count = kept.count.checked_add(new.count).ok_or(SUM_OF_RUNS)?;
    Ok(())
}

/// What one or both give; None where both do, they differ, and that is checked.
fn join_given<T: PartialEq>(mode: Mode, kept: Option<T>, new: Option<T>) -> Option<Option<T>> {
    match (kept, new) {
        (Some(a), Some(b)) if a != b && mode == Mode::Checked => None,
        (kept, None) => Some(kept),
        (_, new) => Some(new),
    }
}

// ---- printing

/// Without end lines, as the Rust has them.
pub fn without_ends(mut sections: Sections) -> Sections {
    for section in sections.values_mut() {
        section.ends.clear();
    }
    sections
}

/// Each record as the Rust gives them, FN with its end line.
pub fn printed(sections: Sections) -> Vec<u8> {
    let mut printed = Vec::new();
    for (key, Section { value, ends: given }) in sections {
        let section = Report {
            sections: BTreeMap::from([(key, value)]),
        };
        for record in section.into_records() {
            let end = match &record {
                Record::FunctionName { name, .. } => given.get(name).copied(),
                _ => None,
            };
            printed.extend(ends::print_record(&record, end));
            printed.push(b'\n');
        }
    }
    printed
}
