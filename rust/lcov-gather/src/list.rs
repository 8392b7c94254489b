//! The files of a run: those that are named, then those that a list names; or those that are chosen of a list with revisions.

use crate::failure::Failure;
use crate::options::Options;
use crate::revisions;
use std::ffi::OsStr;
use std::fs;
use std::io::{self, Read};
use std::os::unix::ffi::OsStrExt;
use std::path::{Path, PathBuf};

/// A file that names tracefiles, and how it does.
pub struct List {
    pub path: PathBuf,
    pub names: Names,
}

#[derive(Clone, Copy)]
pub enum Names {
    /// One a line.
    Lines,
    /// A byte 0 ends each.
    UpToZero,
    /// One a line, with its run and revision: of each run the highest is read.
    Revisions,
}

pub fn files(options: &Options) -> Result<Vec<PathBuf>, Failure> {
    let mut files = options.files.clone();
    let list = options.list.as_ref();
    if let Some(List { path, names }) = list {
        let text = read(path)?;
        match names {
            Names::Lines => files.extend(paths(&text, b'\n')),
            Names::UpToZero => files.extend(paths(&text, 0)),
            Names::Revisions => files.extend(revisions::files(path, &text)?),
        }
    }
    let read = files.iter().chain(list.map(|list| &list.path));
    let from_input = read.filter(|file| is_input(file)).count();
    if from_input > 1 {
        let what = "standard input can be read only once";
        return Err(Failure::Usage(what.into()));
    }
    if files.is_empty() {
        return Err(Failure::Usage("no tracefile is named".into()));
    }
    Ok(files)
}

fn is_input(path: &Path) -> bool {
    path == Path::new("-")
}

fn read(list: &Path) -> Result<Vec<u8>, Failure> {
    let mut text = Vec::new();
    let read = match is_input(list) {
        true => io::stdin().read_to_end(&mut text).map(|_| text),
        false => fs::read(list),
    };
    read.map_err(|error| Failure::File(list.to_owned(), error))
}

/// The pieces that are not empty: no file has an empty name.
fn paths(text: &[u8], separator: u8) -> impl Iterator<Item = PathBuf> + '_ {
    text.split(move |&byte| byte == separator)
        .filter(|piece| !piece.is_empty())
        .map(|piece| PathBuf::from(OsStr::from_bytes(piece)))
}
