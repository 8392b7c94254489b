//! The path of a section that a user means by its end.

use crate::path::canonical;
use crate::shown::shown;
use std::cmp::Reverse;
use std::fmt;

/// So many paths are shown where several have the end, or the name of the file.
const SHOWN: usize = 10;

/// So many are shown that are only alike.
const ALIKE: usize = 3;

/// Why no path is chosen: several end so, or none does.
#[derive(Debug, PartialEq, Eq)]
pub struct ChoiceError {
    wanted: Vec<u8>,
    /// All that end so.
    fitting: usize,
    /// Some that the user may mean, in canonical form.
    candidates: Vec<Vec<u8>>,
}

/// The one path among `paths` that is equal to `wanted`, or else ends with its components. All are in canonical form, and no path comes
/// twice.
pub fn choose<'a>(wanted: &[u8], paths: &'a [Vec<u8>]) -> Result<&'a [u8], ChoiceError> {
    let form = canonical(wanted);
    if let Some(path) = paths.iter().find(|path| **path == form) {
        return Ok(path);
    }
    let end = form.strip_prefix(b"./").unwrap_or(&form);
    let fitting: Vec<&Vec<u8>> = paths.iter().filter(|path| ends_with(path, end)).collect();
    if let [path] = fitting[..] {
        return Ok(path);
    }
    let mut candidates = match fitting.len() {
        0 => nearest(end, paths),
        _ => fitting.iter().copied().cloned().collect(),
    };
    candidates.truncate(SHOWN);
    Err(ChoiceError {
        wanted: wanted.to_vec(),
        fitting: fitting.len(),
        candidates,
    })
}

/// By whole components; a path from the root is no end of another.
fn ends_with(path: &[u8], end: &[u8]) -> bool {
    let before = path.strip_suffix(end);
    !end.is_empty()
        && !end.starts_with(b"/")
        && before.is_some_and(|before| before.is_empty() || before.ends_with(b"/"))
}

/// Those of the same file name, the longest common end first; otherwise the few with the most alike ones.
fn nearest(wanted: &[u8], paths: &[Vec<u8>]) -> Vec<Vec<u8>> {
    let mut same: Vec<&Vec<u8>> = paths
        .iter()
        .filter(|path| file_name(path) == file_name(wanted))
        .collect();
    if !same.is_empty() {
        same.sort_by_key(|path| Reverse(common_end(path, wanted)));
        return same.into_iter().cloned().collect();
    }
    let mut all: Vec<(usize, usize, &Vec<u8>)> = paths
        .iter()
        .map(|path| {
            let of_names = distance(file_name(path), file_name(wanted));
            (of_names, distance(path, wanted), path)
        })
        .collect();
    all.sort();
    let alike = all.into_iter().take(ALIKE);
    alike.map(|(_, _, path)| path.clone()).collect()
}

fn file_name(path: &[u8]) -> &[u8] {
    path.rsplit(|&byte| byte == b'/').next().unwrap_or(path)
}

fn common_end(a: &[u8], b: &[u8]) -> usize {
    let pieces = |path| <[u8]>::rsplit(path, |&byte| byte == b'/');
    let same = pieces(a).zip(pieces(b)).take_while(|(a, b)| a == b);
    same.count()
}

fn distance(a: &[u8], b: &[u8]) -> usize {
    strsim::levenshtein(&String::from_utf8_lossy(a), &String::from_utf8_lossy(b))
}

impl fmt::Display for ChoiceError {
    fn fmt(&self, f: &mut fmt::Formatter) -> fmt::Result {
        let wanted = shown(&self.wanted);
        match self.fitting {
            0 => write!(f, "no section is of the file {wanted}")?,
            paths => write!(
                f,
                "the paths of {paths} files end with {wanted}; name more of the one that is meant"
            )?,
        }
        if self.fitting == 0 && !self.candidates.is_empty() {
            write!(f, "; the nearest are")?;
        }
        for path in &self.candidates {
            write!(f, "\n  {}", shown(path))?;
        }
        match self.fitting.saturating_sub(self.candidates.len()) {
            0 => Ok(()),
            more => write!(f, "\n  and {more} more"),
        }
    }
}

#[cfg(test)]
mod tests {
    use super::*;

    fn paths(paths: &[&str]) -> Vec<Vec<u8>> {
        paths
            .iter()
            .map(|path| canonical(path.as_bytes()))
            .collect()
    }

    fn chosen(wanted: &str, among: &[&str]) -> Result<String, Vec<String>> {
        let text = |bytes: &[u8]| String::from_utf8(bytes.to_vec()).unwrap();
        match choose(wanted.as_bytes(), &paths(among)) {
            Ok(path) => Ok(text(path)),
            Err(error) => Err(error.candidates.iter().map(|path| text(path)).collect()),
        }
    }

    #[test]
    fn whole_components_at_the_end() {
        let all = ["/build/x/src/a.c", "/build/x/lib/b.c"];
        for wanted in [
            "a.c",
            "src/a.c",
            "./src//a.c",
            "build/x/src/a.c",
            "/build/x/./src/a.c",
        ] {
            assert_eq!(chosen(wanted, &all).unwrap(), all[0], "{wanted}");
        }
        for wanted in [
            "c", "rc/a.c", ".c", "/src/a.c", "/a.c", "", "/", "x/a.c", "src",
        ] {
            assert!(chosen(wanted, &all).is_err(), "{wanted}");
        }
    }

    #[test]
    fn an_exact_path_goes_before_an_end() {
        let all = ["/x/src/a.c", "src/a.c", "/y/src/a.c"];
        assert_eq!(chosen("src/./a.c", &all).unwrap(), "src/a.c");
        assert_eq!(chosen("a.c", &all).unwrap_err(), all);
    }

    #[test]
    fn candidates_where_none_fits() {
        let all = [
            "/x/src/decode.c",
            "/x/lib/decode.c",
            "/x/main.c",
            "/x/encode.c",
            "/x/long_name.c",
        ];
        let same_name = ["/x/lib/decode.c", "/x/src/decode.c"];
        assert_eq!(chosen("y/lib/decode.c", &all).unwrap_err(), same_name);
        let alike = ["/x/lib/decode.c", "/x/src/decode.c", "/x/encode.c"];
        assert_eq!(chosen("lib/decoder.c", &all).unwrap_err(), alike);
        assert!(chosen("a", &[]).unwrap_err().is_empty());
    }

    #[test]
    fn many_candidates_are_counted() {
        let many: Vec<String> = (0..13).map(|k| format!("/{k}/a.c")).collect();
        let many: Vec<&str> = many.iter().map(String::as_str).collect();
        let message = choose(b"a.c", &paths(&many)).unwrap_err().to_string();
        assert!(
            message.starts_with("the paths of 13 files end with a.c"),
            "{message}"
        );
        assert!(message.ends_with("\n  /9/a.c\n  and 3 more"), "{message}");
    }
}
