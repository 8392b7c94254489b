//! A file of a round: read, looked at and cut.

use crate::cutting::{cut_printed, group};
use crate::failure::Failure;
use crate::gathering::{Mode, Reading};
use crate::meaning::Meaning;
use crate::piece::{Group, Origin, Piece, Text};
use crate::rewrite::{without_names, Rewriting};
use crate::scan::{scan, Scanned};
use crate::source::{Identity, Source, Sources};
use crate::worker::{Stop, Worker};
use std::ops::Range;
use std::path::PathBuf;

pub struct Loaded {
    /// Among all files of the run.
    pub place: usize,
    pub path: PathBuf,
    /// The worker that read it.
    pub worker: usize,
    /// Where that worker has what the pieces are cut from: the file, or what the library wrote of it by itself.
    pub range: Range<usize>,
    pub scanned: Scanned,
    /// Why the library refused the file by itself; then it has no pieces.
    pub refused: Option<Stop>,
}

impl Loaded {
    pub fn read(
        sources: Sources,
        place: usize,
        reading: Reading,
        worker: &mut Worker,
    ) -> Result<(Self, Identity), Failure> {
        let source = &sources.files[place];
        let start = worker.files.len();
        let identity = read(source, sources.rewriting, worker)?;
        let range = start..worker.files.len();
        let path = source.path().to_owned();
        if u32::try_from(range.len()).is_err() {
            return Err(Failure::TooLong(path));
        }
        let bytes = &worker.files[range.clone()];
        source.count(bytes);
        let scanned = scan(bytes, &source.name(), reading.meaning, sources.guard());
        let mut loaded = Loaded {
            place,
            path,
            worker: worker.number,
            range,
            scanned,
            refused: None,
        };
        if reading.meaning == Meaning::AsWritten && loaded.has_section_twice(bytes) {
            loaded.read_alone(sources.rewriting, reading.mode, worker);
        }
        Ok((loaded, identity))
    }

    /// Given what all workers have read.
    pub fn bytes<'a>(&self, files: &'a [Vec<u8>]) -> &'a [u8] {
        &files[self.worker][self.range.clone()]
    }

    /// The pieces of the bytes. `file` is the place of this file in its round.
    pub fn texts<'a>(&'a self, bytes: &'a [u8], file: usize) -> impl Iterator<Item = Text<'a>> {
        let pieces = self.scanned.cut.pieces.iter().enumerate();
        pieces.map(move |(piece, own)| own.text(bytes, Origin::Piece { file, piece }))
    }

    /// Pieces would add what replaces an earlier section of the file. What is replaced inside a section is in one piece.
    fn has_section_twice(&self, bytes: &[u8]) -> bool {
        let groups = group(self.texts(bytes, 0));
        groups.iter().any(|group| group.texts.len() > 1)
    }

    /// What the library writes of the file has each section once, and reads back as the same report (SPEC 10.3).
    fn read_alone(&mut self, rewriting: &Rewriting, mode: Mode, worker: &mut Worker) {
        let mut bytes = worker.files.split_off(self.range.start);
        if rewriting.has_one_name() {
            bytes = without_names(&bytes);
        }
        let pieces = std::mem::take(&mut self.scanned.cut.pieces);
        let entries = pieces.iter().map(|piece| piece.entries);
        let whole = Piece::whole(&bytes, entries.fold(0, usize::saturating_add));
        let texts = vec![whole.text(&bytes, Origin::Piece { file: 0, piece: 0 })];
        match worker.gather(&[Group { texts }], mode) {
            Ok(written) => {
                self.scanned.cut.pieces = cut_printed(&written);
                worker.files.extend(written);
            }
            Err(stop) => self.refused = Some(stop),
        }
        self.range.end = worker.files.len();
    }
}

/// A file with its tags and paths as they are changed.
fn read(source: &Source, rewriting: &Rewriting, worker: &mut Worker) -> Result<Identity, Failure> {
    if !rewriting.changes_lines() {
        return source.read(&mut worker.files);
    }
    worker.spare.clear();
    let identity = source.read(&mut worker.spare)?;
    worker.files.extend(rewriting.change_lines(&worker.spare));
    Ok(identity)
}
