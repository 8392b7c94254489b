//! What `--totals` prints, the page of totals of what is written, and the numbers that `--windows` and `--quota` need.
//!
//! The library counts. Some neighbouring sections are the only text of a bundle, and its page has a line for each of them: the page of what a
//! gather wrote is that of the gather. A section has at most 65,534 items, since the library wrote it, so each fits one call. Of the last
//! lines, which have the sums of each call, the sums are added here.

use crate::bundle::Bundle;
use crate::counts::Counts;
use crate::failure::Failure;
use crate::gathering::batches;
use crate::parallel;
use crate::sections::{path_of, printed_sections};
use crate::table;
use crate::tracefile::Tracefile;
use crate::workspace::Workspace;
use std::ffi::OsStr;
use std::os::unix::ffi::OsStrExt;
use std::path::PathBuf;

/// How totals are printed.
#[derive(Debug, Clone, Copy, PartialEq, Eq)]
pub enum Form {
    /// As the library prints them.
    Page,
    /// For people.
    Table,
}

/// A section, and how many lines it has, which is at least the number of its entries.
struct Section<'a> {
    bytes: &'a [u8],
    lines: usize,
}

/// TN, SF and end_of_record: `--lines` left no more, and the library drops it when it reads it.
const EMPTIED: usize = 3;

/// The lines of all sections that are not emptied, in order, and the sums.
struct Page {
    lines: Vec<u8>,
    sums: Counts,
}

/// The totals of a tracefile in default tags.
pub fn printed(tracefile: &Tracefile, form: Form, threads: usize) -> Result<Vec<u8>, Failure> {
    let sections = sections_of(tracefile);
    let page = page_of(&sections, threads)?;
    match form {
        Form::Page => Ok([&page.lines[..], page.sums.to_string().as_bytes(), b"\n"].concat()),
        Form::Table => {
            let sections = sections.iter().map(|section| section.bytes);
            Ok(table::of(sections.zip(lines(&page.lines)), page.sums))
        }
    }
}

/// The sums alone.
pub fn sums(tracefile: &Tracefile, threads: usize) -> Result<Counts, Failure> {
    Ok(page_of(&sections_of(tracefile), threads)?.sums)
}

/// The sections, and all functions, branches and lines in them.
pub fn entries(tracefile: &Tracefile, threads: usize) -> Result<u64, Failure> {
    let sections = sections_of(tracefile);
    let sums = page_of(&sections, threads)?.sums;
    let items = [sums.functions, sums.branches, sums.lines].map(|count| count.found);
    Ok(items.iter().sum::<u64>() + sections.len() as u64)
}

fn sections_of(tracefile: &Tracefile) -> Vec<Section<'_>> {
    let slices = tracefile.slices().into_iter();
    let sections = slices.flat_map(printed_sections).map(|bytes| Section {
        bytes,
        lines: memchr::memchr_iter(b'\n', bytes).count(),
    });
    sections.filter(|section| section.lines > EMPTIED).collect()
}

fn page_of(sections: &[Section], threads: usize) -> Result<Page, Failure> {
    let batches = batches(sections.iter().map(|section| section.lines));
    let mut counters: Vec<Counter> = Vec::new();
    counters.resize_with(threads.max(1), Counter::default);
    let pages = parallel::map(&mut counters, batches.len(), |counter, batch| {
        counter.count(&sections[batches[batch].clone()])
    });
    let mut all = Page {
        lines: Vec::new(),
        sums: Counts::default(),
    };
    for page in pages {
        let page = page?;
        all.lines.extend(page.lines);
        all.sums += page.sums;
    }
    Ok(all)
}

/// What a thread needs to have sections counted.
#[derive(Default)]
struct Counter {
    workspace: Workspace,
    bundle: Bundle,
}

impl Counter {
    fn count(&mut self, sections: &[Section]) -> Result<Page, Failure> {
        let path = || PathBuf::from(OsStr::from_bytes(path_of(sections[0].bytes)));
        self.bundle.clear();
        let is_short = self.bundle.add(|bytes| {
            let sections = sections.iter();
            sections.for_each(|section| bytes.extend_from_slice(section.bytes));
        });
        if !is_short {
            return Err(Failure::TooLong(path()));
        }
        let bundle = self.bundle.finish();
        let entries = sections.iter().map(|section| section.lines).sum();
        let page = self
            .workspace
            .written(
                |scratch, out, answer| lcov_sys::totals(bundle, scratch, out, answer),
                bundle.len(),
                entries,
            )
            .map_err(|refusal| Failure::Refused(path(), refusal))?;
        Ok(Page::of(page, sections.len()))
    }
}

impl Page {
    /// A page as the library writes it, with a line for each of so many sections.
    fn of(page: &[u8], sections: usize) -> Self {
        let all: Vec<&[u8]> = lines(page).collect();
        let (last, before) = all.split_last().expect("a page has a last line");
        assert_eq!(before.len(), sections, "each section has a line");
        Page {
            sums: Counts::of(last).expect("the last line has the sums"),
            lines: before.concat(),
        }
    }
}

fn lines(page: &[u8]) -> impl Iterator<Item = &[u8]> {
    page.split_inclusive(|&byte| byte == b'\n')
}
