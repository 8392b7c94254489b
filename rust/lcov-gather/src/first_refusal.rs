//! The refusal that one gather of all files would give, of a round of files that is refused.
//!
//! One gather takes the files in turn (SPEC 9.3): it reads a file, line by line, then merges it, and refuses the first key in order whose
//! values cannot be joined; then it counts entries. So the first file with a fault is told; of its faults the first line that is refused;
//! else the first section in key order that is.

use crate::failure::Failure;
use crate::gathering::Mode;
use crate::loaded::Loaded;
use crate::piece::{Group, Origin, Piece, Text};
use crate::worker::{Stop, Worker};
use lcov_sys::{Fault, Refusal};

/// The files of a round, by their places in it, and the groups of what was gathered before and of their pieces.
pub struct Round<'a> {
    pub sources: &'a [Loaded],
    /// What the workers have read.
    pub files: &'a [Vec<u8>],
    pub groups: &'a [Group<'a>],
    pub mode: Mode,
}

/// A fault of a file: what is tried first is less.
type Rank = (usize, Stage);

#[derive(Debug, Clone, Copy, PartialEq, Eq, PartialOrd, Ord)]
enum Stage {
    Reading,
    Merging,
    Counting,
}

impl Round<'_> {
    /// None if nothing is refused.
    pub fn find(&self, worker: &mut Worker) -> Option<Failure> {
        let reading =
            (0..self.sources.len()).find_map(|file| Some((file, self.in_reading(file, worker)?)));
        let before = reading.as_ref().map_or(usize::MAX, |(file, _)| *file);
        let merging = self.in_merging(before, worker);
        merging.or(reading.map(|(_, failure)| failure))
    }

    /// The first line of a file that is refused.
    fn in_reading(&self, file: usize, worker: &mut Worker) -> Option<Failure> {
        let source = &self.sources[file];
        if let Some(stop) = source.refused {
            return Some(self.failure(stop, file));
        }
        let cut = &source.scanned.cut;
        let mut first: Option<(u64, Failure)> = None;
        for piece in &cut.pieces {
            let refused = self.refused_piece(source, piece, worker);
            let Some((line, failure)) = refused else {
                continue;
            };
            if first.as_ref().is_none_or(|(earlier, _)| line < *earlier) {
                first = Some((line, failure));
            }
        }
        if let Some(fault) = &cut.fault {
            let line = u64::from(fault.line);
            if first.as_ref().is_none_or(|(earlier, _)| line <= *earlier) {
                let path = source.path.clone();
                return Some(Failure::Unread(path, line, fault.what.clone()));
            }
        }
        first.map(|(_, failure)| failure)
    }

    fn refused_piece(
        &self,
        source: &Loaded,
        piece: &Piece,
        worker: &mut Worker,
    ) -> Option<(u64, Failure)> {
        // The lines are in the order of the file, so that the first one is refused that is.
        let text = Text {
            runs: (b"", &[]),
            ..piece.text(
                source.bytes(self.files),
                Origin::Piece { file: 0, piece: 0 },
            )
        };
        let group = Group { texts: vec![text] };
        let path = source.path.clone();
        match worker.gather(&[group], self.mode).err()? {
            Stop::TooLong { .. } => Some((0, Failure::TooLong(path))),
            Stop::Refused { refusal, .. } => {
                let line = piece.line_in_file(refusal.line);
                let text = source.place;
                let refusal = Refusal {
                    text,
                    line,
                    ..refusal
                };
                Some((line, Failure::Refused(path, refusal)))
            }
        }
    }

    /// The first file before this one that cannot be merged, and the first of its sections in key order.
    fn in_merging(&self, before: usize, worker: &mut Worker) -> Option<Failure> {
        let mut first: Option<(Rank, Failure)> = None;
        for group in self.groups {
            let Some(stop) = worker.gather(std::slice::from_ref(group), self.mode).err() else {
                continue;
            };
            let (Stop::Refused { text, .. } | Stop::TooLong { text }) = stop;
            let Origin::Piece { file, .. } = group.texts[text].origin else {
                continue;
            };
            let stage = stage_of(stop);
            let is_first = first.as_ref().is_none_or(|(rank, _)| (file, stage) < *rank);
            if file < before && stage != Stage::Reading && is_first {
                first = Some(((file, stage), self.in_group(stop, group, file)));
            }
        }
        first.map(|(_, failure)| failure)
    }

    /// A section that comes twice in a file adds here, and the library would replace it. So what is refused of it is told as the guard found
    /// it.
    fn in_group(&self, stop: Stop, group: &Group, file: usize) -> Failure {
        let replaced = &self.sources[file].scanned.replaced;
        let is_own =
            |text: &&Text| matches!(text.origin, Origin::Piece { file: of, .. } if of == file);
        let comes_again = group.texts.iter().filter(is_own).count() > 1;
        if comes_again && !replaced.is_empty() {
            return Failure::Replaced(replaced.clone());
        }
        self.failure(stop, file)
    }

    fn failure(&self, stop: Stop, file: usize) -> Failure {
        let source = &self.sources[file];
        let path = source.path.clone();
        match stop {
            Stop::TooLong { .. } => Failure::TooLong(path),
            Stop::Refused { refusal, .. } => {
                let text = source.place;
                Failure::Refused(path, Refusal { text, ..refusal })
            }
        }
    }
}

fn stage_of(stop: Stop) -> Stage {
    match stop {
        Stop::Refused { refusal, .. } if refusal.line > 0 => Stage::Reading,
        Stop::Refused { refusal, .. } if refusal.fault() != Some(Fault::TooManyEntries) => {
            Stage::Merging
        }
        _ => Stage::Counting,
    }
}
