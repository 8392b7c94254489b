//! Which files a round reads, and which of them came before.

use crate::failure::name;
use crate::reporter::Reporter;
use crate::source::{Identity, Source};
use std::collections::hash_map::{Entry, HashMap};
use std::fs;
use std::path::PathBuf;

/// Gzip data is counted as so many times as long, which tracefiles seldom pass.
const PACKED: u64 = 16;

/// The first files of a run or of what is left of it: how many, and about how many bytes they have.
#[derive(Debug, Clone, Copy, PartialEq, Eq)]
pub struct Span {
    pub files: usize,
    pub bytes: u64,
}

/// The files for one round, which has at most so many and begins none past so many bytes. How long a fifo or standard input is shows only
/// when it is read, so it is the last of its round.
pub fn round(files: &[Source], most: u64, most_files: usize) -> Span {
    let mut span = Span { files: 0, bytes: 0 };
    for source in &files[..files.len().min(most_files)] {
        span.files += 1;
        span.bytes = span.bytes.saturating_add(len_of(source).unwrap_or(most));
        if span.bytes >= most {
            break;
        }
    }
    span
}

/// None of what has no length. A file that can't be read has none to count.
fn len_of(source: &Source) -> Option<u64> {
    if source.is_input() {
        return None;
    }
    match fs::metadata(source.path()) {
        Ok(data) if data.is_file() && source.is_named_gzip() => Some(PACKED * data.len()),
        Ok(data) if data.is_file() => Some(data.len()),
        Ok(_) => None,
        Err(_) => Some(0),
    }
}

/// The files read so far, with the names under which they came first.
#[derive(Default)]
pub struct Inputs(HashMap<Identity, PathBuf>);

impl Inputs {
    /// A file that was read before is counted again, and that is told: it may be a mistake.
    pub fn note(&mut self, source: &Source, identity: Identity, reporter: &Reporter) {
        match self.0.entry(identity) {
            Entry::Vacant(place) => {
                place.insert(source.path().to_owned());
            }
            Entry::Occupied(place) => {
                let (later, first) = (source.name(), name(place.get()));
                reporter.note(format_args!(
                    "{later}: the same file as {first}, counted once more"
                ));
            }
        }
    }
}

#[cfg(test)]
mod tests {
    use super::*;
    use std::path::Path;
    use tempfile::TempDir;

    /// Files of these lengths, and the folder that has them.
    fn files(lens: &[u64], names: impl Fn(usize) -> String) -> (TempDir, Vec<Source>) {
        let folder = tempfile::tempdir().unwrap();
        let files = lens.iter().enumerate().map(|(k, &len)| {
            let path = folder.path().join(names(k));
            fs::File::create(&path).unwrap().set_len(len).unwrap();
            Source::new(path)
        });
        let files = files.collect();
        (folder, files)
    }

    #[test]
    fn a_round_has_at_most_so_many_files() {
        let (_folder, files) = files(&[0; 200], |k| k.to_string());
        assert_eq!(round(&files, 1 << 20, 64).files, 64);
        assert_eq!(round(&files[100..], 1 << 20, 63).files, 63);
        assert_eq!(round(&files[137..], 1 << 20, 63).files, 63);
        assert_eq!(round(&files[150..], 1 << 20, 63).files, 50);
        assert_eq!(round(&[], 1 << 20, 64).files, 0);
    }

    #[test]
    fn a_round_begins_no_file_past_so_many_bytes() {
        let (_folder, plain) = files(&[40, 59, 1, 300, 10], |k| k.to_string());
        assert_eq!(round(&plain, 100, 64).files, 3);
        assert_eq!(round(&plain, 101, 64).files, 4);
        assert_eq!(round(&plain, 100, 2).files, 2);
        assert_eq!(round(&plain, 1, 64).files, 1);
        assert_eq!(round(&plain[3..], 100, 64).files, 1);
        let (_folder, packed) = files(&[3, 3, 3, 3], |k| format!("{k}.gz"));
        assert_eq!(round(&packed, 100, 64).files, 3);
        assert_eq!(round(&packed, 100, 64).bytes, 144);
        assert_eq!(round(&plain, 101, 64).bytes, 400);
    }

    #[test]
    fn what_has_no_length_is_the_last_of_its_round() {
        let (folder, mut files) = files(&[1; 4], |k| k.to_string());
        files[1] = Source::new(PathBuf::from("-"));
        files[2] = Source::new(Path::new("/dev/null").to_owned());
        files[3] = Source::new(folder.path().join("missing"));
        assert_eq!(round(&files, 1 << 20, 64).files, 2);
        assert_eq!(round(&files[2..], 1 << 20, 64).files, 1);
        assert_eq!(round(&files[3..], 1 << 20, 64).files, 1);
    }
}
