//! Stand-in for the reader of files, which the port leaves out. `Error` is what a line that can't be read hands up.

use crate::record::{ParseRecordError, Record};
use std::io;
use std::path::Path;

#[derive(Debug, thiserror::Error)]
pub enum Error {
    #[error("no input: {}", _0)]
    Io(#[source] io::Error),
    #[error("no record: {}", _0)]
    Record(#[from] ParseRecordError),
}

/// `Report::from_file` names it; no file is opened, so there is none.
#[derive(Debug)]
pub enum Reader {}

impl Reader {
    pub fn open_file<P: AsRef<Path>>(_path: P) -> io::Result<Self> {
        Err(io::ErrorKind::Unsupported.into())
    }
}

impl Iterator for Reader {
    type Item = Result<Record, Error>;

    fn next(&mut self) -> Option<Self::Item> {
        match *self {}
    }
}
