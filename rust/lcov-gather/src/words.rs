//! Sections and conflicts in words.

use crate::items::{Given, Key};
use crate::joined::{Cause, Conflict, Place};
use crate::shown::shown;
use crate::source::Sources;

pub fn section_words(test: &[u8], path: &[u8], sources: Sources) -> String {
    let path = match path {
        b"" => "the section without a path".to_owned(),
        _ => format!("the section of {}", shown(path)),
    };
    match sources.rewriting.test_name_of(test) {
        b"" => path,
        test => format!("{path} under the test name {}", shown(test)),
    }
}

/// What is in conflict, with a byte 10 before each line.
pub fn conflict_words(conflict: &Conflict, sources: Sources) -> String {
    let (test, path) = &conflict.section;
    let section = section_words(test, path, sources);
    let what = match &conflict.key {
        Key::Function(name) => format!("function {}", shown(name)),
        Key::Line(line) => format!("line {line}"),
        Key::Branch([line, block, branch]) => format!("branch {line},{block},{branch}"),
    };
    let at = |place: &Place| format!("{}:{}", sources.files[place.file].name(), place.line);
    let values = match &conflict.cause {
        Cause::Given { earlier, later } => format!(
            "{} by {}, {} by {}",
            given_words(&earlier.0),
            at(&earlier.1),
            given_words(&later.0),
            at(&later.1)
        ),
        Cause::Sum { so_far, added } => format!(
            "the sum so far is {}, last added to at {}, and {} adds {}",
            so_far.0,
            at(&so_far.1),
            at(&added.1),
            added.0
        ),
    };
    format!("\n  {what} in {section}: {values}")
}

fn given_words(given: &Given) -> String {
    match given {
        Given::Start(line) => format!("start line {line}"),
        Given::Checksum(checksum) => format!("checksum '{}'", shown(checksum)),
    }
}
