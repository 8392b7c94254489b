//! What is changed in a tracefile before it is read: tags, test names, and the beginnings of paths.
//!
//! Lines keep their numbers, so that a refusal names a line of the file. For one test name no line can be added to the sections that have no
//! TN, so all sections get the empty name, which those have too, and the result gets the name that was asked for.

use crate::failure::Failure;
use crate::record::without_end;
use crate::sections::printed_sections;
use crate::tags::Tags;
use crate::tracefile::Tracefile;
use std::borrow::Cow;
use std::ffi::{OsStr, OsString};
use std::os::unix::ffi::{OsStrExt, OsStringExt};
use std::sync::atomic::{AtomicBool, Ordering};

/// `FROM=TO`.
#[derive(Debug)]
pub struct PathMap {
    from: Vec<u8>,
    to: Vec<u8>,
    /// Whether a path began with `from`.
    is_used: AtomicBool,
}

impl PathMap {
    fn parse(word: &OsStr) -> Result<Self, Failure> {
        let bytes = word.as_bytes();
        let equals = bytes.iter().position(|&byte| byte == b'=');
        match equals {
            Some(equals) if equals > 0 && !has_control(bytes) => Ok(PathMap {
                from: bytes[..equals].to_vec(),
                to: bytes[equals + 1..].to_vec(),
                is_used: AtomicBool::new(false),
            }),
            _ => Err(wrong(
                "--map-path wants FROM=TO without control bytes",
                word,
            )),
        }
    }

    pub fn from(&self) -> &OsStr {
        OsStr::from_bytes(&self.from)
    }

    /// The path with `to` in place of `from`, if it begins so.
    fn map(&self, path: &[u8]) -> Option<Vec<u8>> {
        let rest = rest_after(&self.from, path)?;
        self.is_used.store(true, Ordering::Relaxed);
        let needs_slash = !self.to.is_empty() && !rest.is_empty() && !self.to.ends_with(b"/");
        let slash = if needs_slash { &b"/"[..] } else { b"" };
        Some([&self.to, slash, rest].concat())
    }
}

/// What options ask for.
#[derive(Debug, Default)]
pub struct Rewriting {
    test_name: Option<Vec<u8>>,
    maps: Vec<PathMap>,
    tags: Option<Tags>,
}

impl Rewriting {
    pub fn new(
        test_name: Option<OsString>,
        maps: impl Iterator<Item = OsString>,
    ) -> Result<Self, Failure> {
        if let Some(name) = test_name
            .as_ref()
            .filter(|name| has_control(name.as_bytes()))
        {
            return Err(wrong(
                "--test-name wants a name without control bytes",
                name,
            ));
        }
        Ok(Rewriting {
            test_name: test_name.map(OsString::into_vec),
            maps: maps
                .map(|map| PathMap::parse(&map))
                .collect::<Result<_, _>>()?,
            tags: None,
        })
    }

    /// The same with the house's tags, where there are some.
    pub fn with_tags(self, tags: Option<Tags>) -> Self {
        Rewriting { tags, ..self }
    }

    pub fn tags(&self) -> Option<&Tags> {
        self.tags.as_ref()
    }

    /// Whether all sections get one test name.
    pub fn has_one_name(&self) -> bool {
        self.test_name.is_some()
    }

    /// The bytes of a file as they are to be read.
    pub fn rewrite(&self, text: Vec<u8>) -> Vec<u8> {
        let text = match self.changes_lines() {
            true => self.change_lines(&text),
            false => text,
        };
        match self.has_one_name() {
            true => without_names(&text),
            false => text,
        }
    }

    /// Whether tags or paths are changed.
    pub fn changes_lines(&self) -> bool {
        self.tags.is_some() || !self.maps.is_empty()
    }

    /// The text with the default tags and other paths. It keeps its test names, which the cutter leaves out where all sections get one.
    pub fn change_lines(&self, text: &[u8]) -> Vec<u8> {
        match &self.tags {
            None => self.map_paths(text),
            Some(tags) if self.maps.is_empty() => tags.read(text),
            Some(tags) => self.map_paths(&tags.read(text)),
        }
    }

    fn map_paths(&self, text: &[u8]) -> Vec<u8> {
        replace_lines(text, b"SF:", |line| {
            let path = self.map(line.strip_prefix(b"SF:")?)?;
            Some(Cow::Owned([b"SF:", &path[..]].concat()))
        })
    }

    /// The first map that applies counts.
    fn map(&self, path: &[u8]) -> Option<Vec<u8>> {
        self.maps.iter().find_map(|map| map.map(path))
    }

    /// The result with the test name that was asked for.
    pub fn name_tests(&self, joined: Tracefile) -> Tracefile {
        match &self.test_name {
            Some(name) => joined.map(|sections| named(sections, name)),
            None => joined,
        }
    }

    /// The result with the house's tags.
    pub fn write_tags(&self, joined: Tracefile) -> Tracefile {
        match &self.tags {
            Some(tags) => joined.map(|sections| tags.write(sections)),
            None => joined,
        }
    }

    /// The test name that a section of a rewritten file gets in the result.
    pub fn test_name_of<'a>(&'a self, section: &'a [u8]) -> &'a [u8] {
        self.test_name.as_deref().unwrap_or(section)
    }

    /// The maps whose beginning no path of any file had.
    pub fn unused(&self) -> impl Iterator<Item = &PathMap> {
        let maps = self.maps.iter();
        maps.filter(|map| !map.is_used.load(Ordering::Relaxed))
    }
}

/// Sections of the empty test name, with this one.
fn named(sections: &[u8], name: &[u8]) -> Vec<u8> {
    let mut named = Vec::with_capacity(sections.len() + sections.len() / 8);
    for section in printed_sections(sections) {
        named.extend_from_slice(b"TN:");
        named.extend_from_slice(name);
        named.extend_from_slice(section.strip_prefix(b"TN:").unwrap_or(section));
    }
    named
}

/// The text with the empty name in all TN lines.
pub fn without_names(text: &[u8]) -> Vec<u8> {
    replace_lines(text, b"TN", |line| {
        let is_name = line == b"TN" || line.starts_with(b"TN:");
        is_name.then_some(Cow::Borrowed(b"TN:"))
    })
}

/// The text with some of its lines replaced, of those that begin so: they are few, and the others need not be cut.
fn replace_lines<'a>(
    text: &'a [u8],
    tag: &[u8],
    replace: impl Fn(&'a [u8]) -> Option<Cow<'a, [u8]>>,
) -> Vec<u8> {
    let mut changed = Vec::with_capacity(text.len());
    let mut done = 0;
    let later = [b"\n", tag].concat();
    let starts = memchr::memmem::find_iter(text, &later).map(|place| place + 1);
    for start in text.starts_with(tag).then_some(0).into_iter().chain(starts) {
        let rest = &text[start..];
        let len = memchr::memchr(b'\n', rest).map_or(rest.len(), |end| end + 1);
        let line = without_end(&rest[..len]);
        if let Some(other) = replace(line) {
            changed.extend_from_slice(&text[done..start]);
            changed.extend_from_slice(&other);
            done = start + line.len();
        }
    }
    changed.extend_from_slice(&text[done..]);
    changed
}

fn wrong(what: &str, word: &OsStr) -> Failure {
    Failure::Usage(format!("{what}, not {}", word.as_bytes().escape_ascii()))
}

fn has_control(bytes: &[u8]) -> bool {
    bytes.iter().any(u8::is_ascii_control)
}

/// What follows the components of `from` at the beginning of `path`, if they are there.
fn rest_after<'a>(from: &[u8], path: &'a [u8]) -> Option<&'a [u8]> {
    let mut found = components(path);
    for (_, wanted) in components(from) {
        let (_, component) = found.next()?;
        if component != wanted {
            return None;
        }
    }
    let rest = found.next().map_or(path.len(), |(start, _)| start);
    Some(&path[rest..])
}

/// The components of a path with their places (SPEC 4.2); the root is a slash.
fn components(path: &[u8]) -> impl Iterator<Item = (usize, &[u8])> {
    let root = path.starts_with(b"/").then_some((0, &b"/"[..]));
    let mut start = 0;
    let pieces = path.split(|&byte| byte == b'/').map(move |piece| {
        let place = start;
        start += piece.len() + 1;
        (place, piece)
    });
    let vanishes = |place: usize, piece: &[u8]| piece.is_empty() || (piece == b"." && place > 0);
    let rest = pieces.filter(move |&(place, piece)| !vanishes(place, piece));
    root.into_iter().chain(rest)
}

#[cfg(test)]
mod tests {
    use super::*;
    use crate::path::canonical;

    fn rewriting(test_name: Option<&str>, maps: &[&str]) -> Rewriting {
        let maps = maps.iter().map(OsString::from);
        Rewriting::new(test_name.map(OsString::from), maps).unwrap()
    }

    fn rewritten(rewriting: &Rewriting, text: &str) -> String {
        String::from_utf8(rewriting.rewrite(text.as_bytes().to_vec())).unwrap()
    }

    #[test]
    fn nothing_is_asked_for_and_nothing_is_changed() {
        let text = b"TN:a\nSF:/b/c\n";
        assert_eq!(Rewriting::default().rewrite(text.to_vec()), text);
        let same = Rewriting::default().name_tests(Tracefile::whole(vec![text.to_vec()]));
        assert_eq!(same.slices(), [text]);
    }

    #[test]
    fn every_test_name_becomes_the_empty_one_and_lines_stay() {
        let one = rewriting(Some("all"), &[]);
        let text = "TN:a\nSF:TN:x\nFN:1,TN:y\nTN\r\nTNT:a\nend_of_record\n\nTN:b\r\n\nTN:c";
        let expected = "TN:\nSF:TN:x\nFN:1,TN:y\nTN:\r\nTNT:a\nend_of_record\n\nTN:\r\n\nTN:";
        assert_eq!(rewritten(&one, text), expected);
        assert_eq!(rewritten(&one, ""), "");
    }

    #[test]
    fn the_result_gets_the_name() {
        let report = b"TN:\nSF:TN:\nDA:1,1\nend_of_record\nTN:\nSF:\nend_of_record\n";
        let report = Tracefile::whole(vec![report.to_vec()]);
        let named = rewriting(Some("all"), &[]).name_tests(report);
        let expected = "TN:all\nSF:TN:\nDA:1,1\nend_of_record\nTN:all\nSF:\nend_of_record\n";
        assert_eq!(named.slices(), [expected.as_bytes()]);
    }

    #[test]
    fn leading_components_are_replaced() {
        for (map, path, expected) in [
            ("/build=/src", "/build/a.c", "/src/a.c"),
            ("/build/=/src/", "//build/./a//b.c", "/src/a//b.c"),
            ("/build=/src", "/build", "/src"),
            ("/build=/src", "/builder/a.c", "/builder/a.c"),
            ("/build=/src", "build/a.c", "build/a.c"),
            ("/build=/src", "/x/build/a.c", "/x/build/a.c"),
            ("/build/x=y", "/build", "/build"),
            ("/build=", "/build/./a.c", "a.c"),
            ("/=/mnt", "/a.c", "/mnt/a.c"),
            ("/=", "/a.c", "a.c"),
            (".=/src", "./a.c", "/src/a.c"),
            (".=/src", "a.c", "a.c"),
            ("lib=a=b", "lib/x", "a=b/x"),
            ("..=up", "../x", "up/x"),
            ("a=b", "", ""),
        ] {
            let text = format!("SF:{path}\r\nSF:{path}");
            let changed = rewritten(&rewriting(None, &[map]), &text);
            assert_eq!(changed, format!("SF:{expected}\r\nSF:{expected}"), "{map}");
        }
    }

    #[test]
    fn the_first_map_that_applies_counts_and_unused_ones_are_known() {
        let maps = rewriting(None, &["/a/b=/x", "/a=/y", "/y=/z", "/a/b/c=/w"]);
        let changed = rewritten(&maps, "TN:t\nSF:/a/b/c\nSF:/a/c\n");
        assert_eq!(changed, "TN:t\nSF:/x/c\nSF:/y/c\n");
        let unused: Vec<_> = maps.unused().map(PathMap::from).collect();
        assert_eq!(unused, ["/y", "/a/b/c"]);
    }

    #[test]
    fn control_bytes_and_missing_parts_are_refused() {
        for map in ["/a", "=/b", "", "a\n=b", "a=b\x7f", "a=\tb"] {
            let maps = [OsString::from(map)].into_iter();
            assert!(Rewriting::new(None, maps).is_err(), "{map:?}");
        }
        for name in ["a\nb", "\0", "a\r"] {
            let name = Some(OsString::from(name));
            assert!(Rewriting::new(name, [].into_iter()).is_err());
        }
    }

    /// The components joined again are the form that is tested against the library.
    #[test]
    fn components_are_those_of_the_library() {
        for path in [
            "", "/", "//a/./b/", "./a", "a/../b", ".", "/.", "a//.b/..", "././x",
        ] {
            let joined: Vec<&[u8]> = components(path.as_bytes())
                .map(|(_, piece)| piece)
                .collect();
            let joined = joined.join(&b'/');
            let joined = match joined.strip_prefix(b"//") {
                Some(rest) => [b"/", rest].concat(),
                None => joined,
            };
            assert_eq!(joined, canonical(path.as_bytes()), "{path}");
        }
    }
}
