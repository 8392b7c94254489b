//! Why there is no output, and the exit status that says so.

use crate::audit::Difference;
use crate::choice::ChoiceError;
use crate::guard::Replacements;
use crate::shown::shown;
use crate::wrong::Wrong;
use lcov_sys::Refusal;
use std::fmt;
use std::io;
use std::os::unix::ffi::OsStrExt;
use std::path::{Path, PathBuf};

#[derive(Debug)]
pub enum Failure {
    /// The words of the command line make no sense.
    Usage(String),
    /// A file can't be read or written.
    File(PathBuf, io::Error),
    /// Gzip data that is cut or changed.
    Damaged(PathBuf, io::Error),
    /// Too long for a bundle, whose lengths are u32.
    TooLong(PathBuf),
    /// A tracefile, or what came of it, is refused by the library.
    Refused(PathBuf, Refusal),
    /// A refusal, and the lines that follow it.
    Explained(Box<Failure>, String),
    /// All that is told of one file, the first refusal first.
    Several(Vec<Failure>),
    /// Everything is left out, as this says, so there is nothing to write.
    NothingLeft(&'static str),
    /// A line of a tracefile is refused by this command: its number, and what is wrong.
    Unread(PathBuf, u64, String),
    /// Something in a tracefile would replace something else, so the guard refuses it.
    Replaced(Replacements),
    /// The counts of the files are not those of the result.
    Audit(Box<Difference>),
    /// The file of `--tags` gives no table, or the list of `--revisions` no choice.
    Wrong(PathBuf, Wrong),
    /// The file that is to be cut is not that of one section, or of none.
    Choice(ChoiceError),
}

impl Failure {
    /// Whether it is about what a tracefile holds, and not about whether it can be read.
    pub fn is_of_content(&self) -> bool {
        matches!(self, Failure::Damaged(..) | Failure::TooLong(_)) || self.status() == 1
    }

    /// The line that is refused; none where it is not a line.
    pub fn line(&self) -> Option<u64> {
        match self {
            Failure::Explained(failure, _) => failure.line(),
            Failure::Refused(_, refusal) => Some(refusal.line).filter(|&line| line > 0),
            Failure::Unread(_, line, _) => Some(*line),
            _ => None,
        }
    }

    pub fn status(&self) -> u8 {
        match self {
            Failure::Refused(..)
            | Failure::Unread(..)
            | Failure::Replaced(_)
            | Failure::NothingLeft(_) => 1,
            Failure::Explained(failure, _) => failure.status(),
            Failure::Several(all) => all.iter().map(Failure::status).max().unwrap_or(1),
            Failure::Audit(_) => 3,
            _ => 2,
        }
    }
}

/// `-` is what a user typed for it.
pub fn name(path: &Path) -> String {
    if path == Path::new("-") {
        "standard input".to_owned()
    } else {
        shown(path.as_os_str().as_bytes())
    }
}

impl fmt::Display for Failure {
    fn fmt(&self, f: &mut fmt::Formatter) -> fmt::Result {
        match self {
            Failure::Usage(what) => write!(f, "{what}\ntry 'lcov-gather --help'"),
            Failure::File(path, error) => write!(f, "{}: {error}", name(path)),
            Failure::Damaged(path, error) => {
                write!(
                    f,
                    "{}: the gzip data is damaged or cut: {error}",
                    name(path)
                )
            }
            Failure::TooLong(path) => {
                write!(f, "{}: 4 GiB or longer with what is gathered", name(path))
            }
            Failure::Unread(path, line, what) => write!(f, "{}:{line}: {what}", name(path)),
            Failure::NothingLeft(what) => write!(f, "{what}; nothing is written"),
            Failure::Explained(failure, lines) => write!(f, "{failure}{lines}"),
            Failure::Several(all) => {
                let all: Vec<String> = all.iter().map(Failure::to_string).collect();
                write!(f, "{}", all.join("\nlcov-gather: "))
            }
            Failure::Wrong(path, wrong) => write!(f, "{}{wrong}", name(path)),
            Failure::Choice(error) => write!(f, "{error}"),
            Failure::Replaced(replaced) => write!(f, "{replaced}"),
            Failure::Audit(difference) => write!(f, "{difference}; nothing is written"),
            Failure::Refused(path, refusal) => {
                write!(f, "{}:", name(path))?;
                if refusal.line > 0 {
                    write!(f, "{}:", refusal.line)?;
                }
                if refusal.field > 0 {
                    write!(f, " field {}:", refusal.field)?;
                }
                write!(f, " {} (refusal {})", refusal.meaning(), refusal.number)
            }
        }
    }
}
