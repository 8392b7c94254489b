//! The gather of any number of tracefiles, in rounds.
//!
//! A round reads some files, cuts them into pieces, puts the pieces of one test name and path together, after the section that was gathered
//! before, and has the library gather each such group. What was gathered is kept by test name and path, so that a section which no file of
//! the round has is not looked at. Threads share the files and then the groups of a round; what is written does not depend on their number
//! (docs/AUDIT.md, "How the command uses it").

use crate::audit::Sums;
use crate::cutting::group;
use crate::failure::{name, Failure};
use crate::first_refusal::Round;
use crate::guard::Replacements;
use crate::input::{self, Inputs, Span};
use crate::loaded::Loaded;
use crate::meaning::Meaning;
use crate::parallel;
use crate::piece::{entries_of, Group};
use crate::reporter::Reporter;
use crate::source::Sources;
use crate::store::{Place, Store};
use crate::tracefile::Tracefile;
use crate::worker::Worker;
use lcov_sys::MAX_TEXTS;
use std::cmp::Reverse;
use std::ops::Range;
use std::path::{Path, PathBuf};
use std::sync::atomic::{AtomicUsize, Ordering};

/// The length of a round, in the command.
pub const ROUND: u64 = 24 << 20;

/// Groups are gathered together up to so many entries, since a call has a cost of its own; more leave the processor's caches.
const BATCH: usize = 4_096;

#[derive(Debug, Clone, Copy, PartialEq, Eq)]
pub enum Mode {
    Checked,
    Lossy,
}

/// How files are taken.
#[derive(Debug, Clone, Copy, PartialEq, Eq)]
pub struct Reading {
    pub mode: Mode,
    pub meaning: Meaning,
    pub threads: usize,
    /// How many bytes a round takes before it begins no further file.
    pub round: u64,
}

/// The joined tracefile, the sums over the files, and what the guard found.
pub struct Gathered {
    pub joined: Tracefile,
    pub read: Sums,
    pub replaced: Replacements,
}

struct Gathering<'a> {
    sources: Sources<'a>,
    reading: Reading,
    reporter: &'a Reporter,
    inputs: Inputs,
    workers: Vec<Worker>,
    /// How many files are read.
    done: AtomicUsize,
    read: Sums,
    replaced: Replacements,
    blocks: Blocks,
}

/// The first file with a block of an exception, and the first with a block that might be one's, with its line.
#[derive(Default)]
struct Blocks {
    exception: Option<PathBuf>,
    large: Option<(PathBuf, u32)>,
}

/// What the library wrote of neighbouring groups, and where its sections are.
type Written = (Vec<u8>, Vec<Place>);

/// A refusal by the library is told before what the guard found: the guard speaks only of files that the library takes.
pub fn gather(
    sources: Sources,
    reading: Reading,
    start: Sums,
    reporter: &Reporter,
) -> Result<Gathered, Failure> {
    let mut gathering = Gathering {
        sources,
        reading,
        reporter,
        inputs: Inputs::default(),
        workers: (0..reading.threads.max(1)).map(Worker::new).collect(),
        done: AtomicUsize::new(0),
        read: start,
        replaced: Replacements::default(),
        blocks: Blocks::default(),
    };
    let joined = gathering.gather()?;
    Ok(Gathered {
        joined,
        read: gathering.read,
        replaced: gathering.replaced,
    })
}

impl Gathering<'_> {
    /// All rounds. What was gathered before is a text of a bundle too, so that later rounds have one file less.
    fn gather(&mut self) -> Result<Tracefile, Failure> {
        let (files, length) = (self.sources.files, self.reading.round);
        let mut span = input::round(files, length, MAX_TEXTS);
        if span.files == files.len() {
            let written = self.round(0, span, &Store::default(), |_| Vec::new())?;
            let parts = written.into_iter().map(|(bytes, _)| bytes);
            return Ok(Tracefile::whole(parts.collect()));
        }
        let mut store: Store = Store::default();
        let mut start = 0;
        while start < files.len() {
            let written = self.round(start, span, &store, |bytes| store.places(bytes))?;
            for (bytes, places) in written {
                store.put(bytes, places);
            }
            store.pack();
            start += span.files;
            span = input::round(&files[start..], length, MAX_TEXTS - 1);
        }
        Ok(store.finish())
    }

    /// What the library writes of the files from `start` on, each section after what `store` has of it.
    fn round(
        &mut self,
        start: usize,
        span: Span,
        store: &Store,
        places: impl Fn(&[u8]) -> Vec<Place> + Sync,
    ) -> Result<Vec<Written>, Failure> {
        let (sources, files) = self.read_round(start, span)?;
        let texts = sources.iter().enumerate();
        let mut groups =
            group(texts.flat_map(|(file, source)| source.texts(source.bytes(&files), file)));
        for group in &mut groups {
            let before = store.find(group.test(), group.path());
            group.texts.splice(0..0, before);
        }
        let is_refused = |source: &Loaded| {
            let fault = &source.scanned.cut.fault;
            fault.is_some() || source.refused.is_some()
        };
        let written = if sources.iter().any(is_refused) {
            None
        } else {
            self.gather_all(&groups, places)
        };
        let Some(written) = written else {
            return Err(self.first_refusal(&sources, &files, &groups));
        };
        drop(groups);
        for (worker, files) in self.workers.iter_mut().zip(files) {
            worker.end_round(files);
        }
        self.take_all(sources)?;
        Ok(written)
    }

    fn first_refusal(
        &mut self,
        sources: &[Loaded],
        files: &[Vec<u8>],
        groups: &[Group],
    ) -> Failure {
        let round = Round {
            sources,
            files,
            groups,
            mode: self.reading.mode,
        };
        let found = round.find(&mut self.workers[0]);
        // Groups that are taken one by one can only be too long together.
        found.unwrap_or_else(|| Failure::TooLong(sources[0].path.clone()))
    }

    /// What is told and added up of files that the library takes.
    fn take_all(&mut self, sources: Vec<Loaded>) -> Result<(), Failure> {
        for source in &sources {
            self.check_blocks(source)?;
        }
        for source in sources {
            self.tell(&source);
            self.read += source.scanned.sums;
            self.replaced.append(source.scanned.replaced);
        }
        Ok(())
    }

    /// The files of a round, and the memory of the workers that has them.
    fn read_round(
        &mut self,
        start: usize,
        span: Span,
    ) -> Result<(Vec<Loaded>, Vec<Vec<u8>>), Failure> {
        let workers = self.workers.iter_mut();
        workers.for_each(|worker| worker.begin_round(span.bytes));
        let sources = self.read_all(start..start + span.files)?;
        let workers = self.workers.iter_mut();
        let files = workers.map(|worker| std::mem::take(&mut worker.files));
        Ok((sources, files.collect()))
    }

    /// The files, each read and cut by one of the threads.
    fn read_all(&mut self, files: Range<usize>) -> Result<Vec<Loaded>, Failure> {
        let (sources, reading) = (self.sources, self.reading);
        let (done, reporter) = (&self.done, self.reporter);
        let read = parallel::map(&mut self.workers, files.len(), |worker, file| {
            let loaded = Loaded::read(sources, files.start + file, reading, worker)?;
            reporter.advance(done.fetch_add(1, Ordering::Relaxed) + 1);
            Ok(loaded)
        });
        let mut all = Vec::with_capacity(read.len());
        for read in read {
            let (loaded, identity) = read?;
            let source = &sources.files[loaded.place];
            self.inputs.note(source, identity, self.reporter);
            all.push(loaded);
        }
        Ok(all)
    }

    /// What is written of the groups, in order; none if one is refused. Large batches are begun first, so that none is left to one thread at
    /// the end.
    fn gather_all(
        &mut self,
        groups: &[Group],
        places: impl Fn(&[u8]) -> Vec<Place> + Sync,
    ) -> Option<Vec<Written>> {
        let batches = batches(groups.iter().map(Group::entries));
        let mode = self.reading.mode;
        let mut order: Vec<usize> = (0..batches.len()).collect();
        order.sort_by_cached_key(|&batch| Reverse(entries_of(&groups[batches[batch].clone()])));
        let written = parallel::map(&mut self.workers, batches.len(), |worker, place| {
            let groups = &groups[batches[order[place]].clone()];
            let bytes = worker.gather(groups, mode).ok()?;
            let places = places(&bytes);
            Some((bytes, places))
        });
        let mut parts: Vec<Written> = Vec::new();
        parts.resize_with(batches.len(), Written::default);
        for (batch, written) in order.into_iter().zip(written) {
            parts[batch] = written?;
        }
        Some(parts)
    }

    /// What is told of a file that is taken.
    fn tell(&self, source: &Loaded) {
        let file = name(&source.path);
        if source.scanned.is_empty {
            self.reporter
                .note(format_args!("{file}: the file is empty"));
        } else if !source.scanned.has_items {
            let what = "the file has no functions, branches and lines";
            self.reporter.note(format_args!("{file}: {what}"));
        }
        for what in source.scanned.cut.forms.notes() {
            self.reporter.note(format_args!("{file}: {what}"));
        }
    }

    /// No block may be that of a branch and of an exception.
    fn check_blocks(&mut self, source: &Loaded) -> Result<(), Failure> {
        let cut = &source.scanned.cut;
        let blocks = &mut self.blocks;
        if let Some(line) = cut.large_block {
            blocks.large.get_or_insert((source.path.clone(), line));
        }
        if cut.forms.exceptions > 0 {
            blocks.exception.get_or_insert(source.path.clone());
        }
        match blocks {
            Blocks {
                exception: Some(other),
                large: Some((path, line)),
            } => Err(ambiguous(path, *line, other)),
            _ => Ok(()),
        }
    }
}

/// A branch and an exception's branch would be added.
fn ambiguous(path: &Path, line: u32, other: &Path) -> Failure {
    let what = format!(
        "the block is one that exceptions (e0, ..) of {} have; gather the two apart",
        name(other)
    );
    Failure::Unread(path.to_owned(), u64::from(line), what)
}

/// Neighbours that are handed to one call, given the entries of each. Only one by itself may have more than [`BATCH`] entries, so that the
/// library's limit is met by a section and not by a batch.
pub fn batches(all: impl Iterator<Item = usize>) -> Vec<Range<usize>> {
    let mut batches: Vec<Range<usize>> = Vec::new();
    let mut entries = 0;
    for (place, own) in all.enumerate() {
        match batches.last_mut() {
            Some(batch) if own.saturating_add(entries) <= BATCH => {
                batch.end = place + 1;
                entries += own;
            }
            _ => {
                batches.push(place..place + 1);
                entries = own;
            }
        }
    }
    batches
}
