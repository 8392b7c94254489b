//! Sections cut to ranges of lines.

use crate::choice::choose;
use crate::failure::Failure;
use crate::path::canonical;
use crate::sections::{path_of, printed_sections};
use crate::tracefile::Tracefile;
use crate::workspace::Workspace;
use lcov_sys::{Refusal, MAX_ENTRIES, WORDS};
use std::collections::{BTreeMap, BTreeSet};
use std::ffi::{OsStr, OsString};
use std::os::unix::ffi::OsStrExt;
use std::path::PathBuf;

/// `FILE:RANGES`.
pub struct Cut {
    file: OsString,
    ranges: Vec<[u32; 2]>,
}

impl Cut {
    pub fn parse(word: &OsStr) -> Result<Self, Failure> {
        let bytes = word.as_bytes();
        let wrong = || Failure::Usage(format!("--lines wants FILE:RANGES, not {}", word.display()));
        let colon = bytes
            .iter()
            .rposition(|&byte| byte == b':')
            .ok_or_else(wrong)?;
        let ranges = std::str::from_utf8(&bytes[colon + 1..]).map_err(|_| wrong())?;
        let ranges = ranges
            .split(',')
            .map(|range| range_of(range).ok_or_else(wrong))
            .collect::<Result<_, _>>()?;
        Ok(Cut {
            file: OsStr::from_bytes(&bytes[..colon]).to_owned(),
            ranges,
        })
    }

    /// The path that is meant, in canonical form.
    fn chosen<'a>(&self, paths: &'a [Vec<u8>]) -> Result<&'a [u8], Failure> {
        choose(self.file.as_bytes(), paths).map_err(Failure::Choice)
    }
}

/// Which starts end the functions before them that give no end line.
#[derive(Debug, Clone, Copy, PartialEq, Eq)]
pub enum Starts {
    /// The next one, also where it is equal.
    All,
    /// The next greater one, so that functions of one start end together.
    Distinct,
}

/// A list of ranges, as the port joins them.
struct List {
    pairs: Vec<[u32; 2]>,
    used: usize,
}

impl List {
    /// There is a pair for each range, so the list is never full.
    fn of(ranges: &[[u32; 2]]) -> Self {
        let mut list = List {
            pairs: vec![[0, 0]; ranges.len()],
            used: 0,
        };
        for &[start, end] in ranges {
            let mut answer = [0; WORDS];
            let number =
                lcov_sys::insert_range(&mut list.pairs, list.used, start, end, &mut answer);
            let used = Refusal::unless_answered(number, answer);
            list.used = used.expect("a well-formed list with room") as usize;
        }
        list
    }
}

/// `7`, `10-20` or `100-`; none where it ends before it starts.
fn range_of(range: &str) -> Option<[u32; 2]> {
    let pair = match range.split_once('-') {
        None => [line_of(range)?; 2],
        Some((start, "")) => [line_of(start)?, u32::MAX],
        Some((start, end)) => [line_of(start)?, line_of(end)?],
    };
    (pair[0] <= pair[1]).then_some(pair)
}

/// A line number has digits alone, as in a tracefile.
fn line_of(digits: &str) -> Option<u32> {
    let number = digits.parse().ok()?;
    (!digits.starts_with('+')).then_some(number)
}

/// The tracefile with each section of a file that is to be cut cut to all lines that are named for it.
pub fn keep(joined: Tracefile, cuts: &[Cut], starts: Starts) -> Result<Tracefile, Failure> {
    if cuts.is_empty() {
        return Ok(joined);
    }
    let mut workspace = Workspace::default();
    let mut kept = Vec::new();
    let slices = joined.slices();
    let paths = paths_of(&slices);
    let mut ranges: BTreeMap<&[u8], Vec<[u32; 2]>> = BTreeMap::new();
    for cut in cuts {
        let all = ranges.entry(cut.chosen(&paths)?).or_default();
        all.extend(&cut.ranges);
    }
    for section in slices.iter().flat_map(|slice| printed_sections(slice)) {
        match ranges.get(&canonical(path_of(section))[..]) {
            Some(ranges) => {
                let list = List::of(ranges);
                kept.extend(cut_to(section, &list, starts, &mut workspace)?);
            }
            None => kept.extend(section),
        }
    }
    Ok(Tracefile::whole(vec![kept]))
}

/// Each path once, however many test names have it.
fn paths_of(slices: &[&[u8]]) -> Vec<Vec<u8>> {
    let sections = slices.iter().flat_map(|slice| printed_sections(slice));
    let paths: BTreeSet<Vec<u8>> = sections
        .map(|section| canonical(path_of(section)))
        .collect();
    paths.into_iter().collect()
}

fn cut_to<'a>(
    section: &[u8],
    list: &List,
    starts: Starts,
    workspace: &'a mut Workspace,
) -> Result<&'a [u8], Failure> {
    let filter = match starts {
        Starts::All => lcov_sys::filter,
        Starts::Distinct => lcov_sys::filter_distinct_starts,
    };
    let call = |scratch: &mut [u64], out: &mut [u8], answer: &mut [u64]| {
        filter(section, &list.pairs, list.used, scratch, out, answer)
    };
    let path = PathBuf::from(OsStr::from_bytes(path_of(section)));
    workspace
        .written(call, section.len(), MAX_ENTRIES)
        .map_err(|refusal| Failure::Refused(path, refusal))
}
