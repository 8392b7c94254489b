//! Groups of texts gathered by the library.

use crate::bundle::Bundle;
use crate::gathering::Mode;
use crate::memory::FileMemory;
use crate::piece::{entries_of, Group};
use crate::workspace::Workspace;
use lcov_sys::Refusal;

/// What a thread needs to read files and to gather groups.
#[derive(Default)]
pub struct Worker {
    /// The worker's number, and the files of the round that it has read, one after the other.
    pub number: usize,
    pub files: Vec<u8>,
    memory: FileMemory,
    /// For a file that is read before it is rewritten.
    pub spare: Vec<u8>,
    workspace: Workspace,
    bundle: Bundle,
}

/// Why groups are not gathered. `text` is the place of the text at fault in its group.
#[derive(Debug, Clone, Copy, PartialEq, Eq)]
pub enum Stop {
    Refused {
        refusal: Refusal,
        text: usize,
    },
    /// The bundle is too long for its u32 numbers.
    TooLong {
        text: usize,
    },
}

impl Worker {
    pub fn new(number: usize) -> Self {
        Worker {
            number,
            ..Worker::default()
        }
    }

    /// Makes room for the files of a round, which have so many bytes together.
    pub fn begin_round(&mut self, bytes: u64) {
        self.files = self.memory.take(bytes);
    }

    /// The files of the round that this worker has read, once they are no longer needed.
    pub fn end_round(&mut self, files: Vec<u8>) {
        self.memory.give_back(files);
    }

    /// What the library writes of these groups, which are in the order of their keys.
    ///
    /// Text k of a bundle has the k-th texts of all groups. Where there are more than a bundle names, what was written comes first in the
    /// next bundle: the total is that of one gather of all (docs/AUDIT.md, "How the command uses it").
    pub fn gather(&mut self, groups: &[Group], mode: Mode) -> Result<Vec<u8>, Stop> {
        let depth = groups.iter().map(|group| group.texts.len()).max();
        let depth = depth.unwrap_or(0);
        let entries = entries_of(groups);
        let mut done = 0;
        let mut joined = Vec::new();
        while done < depth {
            self.bundle.clear();
            let earlier = usize::from(done > 0);
            if done > 0 && !self.bundle.add(|bytes| bytes.extend_from_slice(&joined)) {
                return Err(Stop::TooLong { text: done });
            }
            let first = done;
            while done < depth && !self.bundle.is_full() {
                self.add(groups, done)?;
                done += 1;
            }
            let text_of = |refusal: Refusal| (first + refusal.text).saturating_sub(earlier);
            joined = self.call(mode, entries).map_err(|refusal| Stop::Refused {
                text: text_of(refusal),
                refusal,
            })?;
        }
        Ok(joined)
    }

    fn add(&mut self, groups: &[Group], place: usize) -> Result<(), Stop> {
        let is_short = self.bundle.add(|bytes| {
            for text in groups.iter().filter_map(|group| group.texts.get(place)) {
                text.write_ordered(bytes);
            }
        });
        is_short.then_some(()).ok_or(Stop::TooLong { text: place })
    }

    fn call(&mut self, mode: Mode, entries: usize) -> Result<Vec<u8>, Refusal> {
        let bundle = self.bundle.finish();
        let written = self.workspace.written(
            |scratch, out, answer| match mode {
                Mode::Checked => lcov_sys::gather_with(bundle, scratch, out, answer),
                Mode::Lossy => lcov_sys::gather_lossy(bundle, scratch, out, answer),
            },
            bundle.len(),
            entries,
        )?;
        Ok(written.to_vec())
    }
}
