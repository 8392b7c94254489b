//! A tracefile that can be read more than once.

use crate::failure::{name, Failure};
use crate::guard::Guard;
use crate::numbers::Numbers;
use crate::rewrite::Rewriting;
use crate::unzip::{self, ReadError};
use std::fs::File;
use std::io;
use std::os::fd::AsFd;
use std::os::unix::fs::MetadataExt;
use std::path::{Path, PathBuf};
use std::sync::OnceLock;

/// One byte more than a bundle may hold: a file without an end, such as a device, is not read further.
const LONGEST: u64 = 1 << 32;

/// Device and inode.
pub type Identity = (u64, u64);

/// The files of a run in order, and what is changed in them.
#[derive(Clone, Copy)]
pub struct Sources<'a> {
    pub files: &'a [Source],
    pub rewriting: &'a Rewriting,
}

impl Sources<'_> {
    /// A guard for one of the files.
    pub fn guard<'t>(&self) -> Guard<'t> {
        Guard::new(self.rewriting.has_one_name())
    }

    /// A file as the library is to read it.
    pub fn text(&self, place: usize) -> Result<Vec<u8>, Failure> {
        Ok(self.rewriting.rewrite(self.own_text(place)?))
    }

    /// A file as it is. The text has its lines, some with other tags, test names and paths.
    pub fn own_text(&self, place: usize) -> Result<Vec<u8>, Failure> {
        let mut text = Vec::new();
        self.files[place].read(&mut text)?;
        Ok(text)
    }
}

/// What can't be read again is kept: standard input, a fifo, a device.
pub struct Source {
    path: PathBuf,
    kept: OnceLock<(Identity, Vec<u8>)>,
    /// What `--stats` tells of it; none where that is not asked for.
    numbers: Option<OnceLock<Numbers>>,
}

impl Source {
    pub fn new(path: PathBuf) -> Self {
        Source {
            path,
            kept: OnceLock::new(),
            numbers: None,
        }
    }

    /// One whose numbers are counted when it is gathered.
    pub fn counting(path: PathBuf) -> Self {
        Source {
            numbers: Some(OnceLock::new()),
            ..Source::new(path)
        }
    }

    /// Counts the numbers of the file, given as the library is to read it, where that is asked for.
    pub fn count(&self, text: &[u8]) {
        if let Some(numbers) = &self.numbers {
            numbers.get_or_init(|| Numbers::of(text));
        }
    }

    /// None where they are not counted, or it was not gathered.
    pub fn numbers(&self) -> Option<Numbers> {
        self.numbers.as_ref()?.get().copied()
    }

    pub fn path(&self) -> &Path {
        &self.path
    }

    pub fn name(&self) -> String {
        name(&self.path)
    }

    pub fn is_input(&self) -> bool {
        is_input(&self.path)
    }

    pub fn is_named_gzip(&self) -> bool {
        self.path
            .extension()
            .is_some_and(|extension| extension == "gz")
    }

    /// Appends the file, gunzipped.
    pub fn read(&self, bytes: &mut Vec<u8>) -> Result<Identity, Failure> {
        if let Some((identity, kept)) = self.kept.get() {
            bytes.extend_from_slice(kept);
            return Ok(*identity);
        }
        let failed = |error| Failure::File(self.path.clone(), error);
        let file = open(&self.path).map_err(failed)?;
        let data = file.metadata().map_err(failed)?;
        let start = bytes.len();
        let len = data.len().min(LONGEST) as usize + 1;
        let room = bytes.try_reserve(len);
        room.map_err(|_| failed(io::ErrorKind::OutOfMemory.into()))?;
        unzip::read_to_end(file, LONGEST, bytes).map_err(|error| match error {
            ReadError::Io(error) => failed(error),
            ReadError::Damaged(error) => Failure::Damaged(self.path.clone(), error),
        })?;
        let identity = (data.dev(), data.ino());
        if !data.is_file() || is_input(&self.path) {
            let _ = self.kept.set((identity, bytes[start..].to_vec()));
        }
        Ok(identity)
    }
}

fn is_input(path: &Path) -> bool {
    path == Path::new("-")
}

fn open(path: &Path) -> io::Result<File> {
    if is_input(path) {
        let input = io::stdin();
        return input.as_fd().try_clone_to_owned().map(File::from);
    }
    File::open(path)
}
