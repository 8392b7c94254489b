//! The functions, branches and lines of one file, with the lines on which they stand.
//!
//! They are read by `record`, apart from the library, to explain what the library refuses and to find conflicts before it does.

use crate::path::canonical;
use crate::record::{records, Record};
use std::collections::HashMap;

/// How the records of a file are taken.
#[derive(Debug, Clone, Copy, PartialEq, Eq)]
pub enum Taking {
    /// As the library reads (SPEC 3.2): a test name holds for one section, and what comes again replaces what came before.
    AsWritten,
    /// As geninfo means it: a test name holds up to the next, and what comes again adds.
    AsGeninfo,
}

/// In the order in which the library goes through a section.
#[derive(Debug, Clone, PartialEq, Eq, PartialOrd, Ord, Hash)]
pub enum Key {
    Function(Vec<u8>),
    /// Line, block and branch.
    Branch([u32; 3]),
    Line(u32),
}

/// What must agree between files.
#[derive(Debug, Clone, PartialEq, Eq)]
pub enum Given {
    Start(u32),
    Checksum(Vec<u8>),
}

#[derive(Debug, Clone, PartialEq, Eq)]
pub struct Item {
    pub key: Key,
    pub given: Option<Given>,
    /// That of a line or branch; the calls of a function stop at the greatest number and are no matter here.
    pub count: u64,
    /// Where it stands in the file.
    pub line: u32,
}

/// Test name and path in canonical form.
pub type SectionKey = (Vec<u8>, Vec<u8>);

#[derive(Debug, PartialEq, Eq)]
pub struct Section {
    pub key: SectionKey,
    pub items: Vec<Item>,
}

/// The sections that the library keeps of a text, up to the first line that is no record. No key comes twice among them, and with
/// [`Taking::AsWritten`] none comes twice among the items of a section.
pub fn sections(text: &[u8], taking: Taking) -> Vec<Section> {
    let mut file = File::new(taking);
    for (line, record) in records(text) {
        file.take(line, record);
    }
    file.kept
}

struct File<'a> {
    taking: Taking,
    test: &'a [u8],
    path: &'a [u8],
    open: Items,
    kept: Vec<Section>,
    /// The places of the keys in `kept`.
    places: HashMap<SectionKey, usize>,
}

impl<'a> File<'a> {
    fn new(taking: Taking) -> Self {
        File {
            taking,
            test: b"",
            path: b"",
            open: Items::default(),
            kept: Vec::new(),
            places: HashMap::new(),
        }
    }

    fn take(&mut self, line: u32, record: Record<'a>) {
        match record {
            Record::TestName(name) => self.test = name,
            Record::SourceFile(path) => self.path = path,
            Record::End => self.end(),
            _ => {
                let item = item_of(line, record);
                if let Some(item) = item {
                    self.open.add(item, self.taking);
                }
            }
        }
    }

    fn end(&mut self) {
        let items = std::mem::take(&mut self.open).list;
        let key = (self.test.to_vec(), canonical(self.path));
        self.path = b"";
        if self.taking == Taking::AsWritten {
            self.test = b"";
        }
        if items.is_empty() {
            return;
        }
        match (self.places.get(&key), self.taking) {
            (Some(&place), Taking::AsWritten) => self.kept[place].items = items,
            (Some(&place), Taking::AsGeninfo) => self.kept[place].items.extend(items),
            (None, _) => {
                self.places.insert(key.clone(), self.kept.len());
                self.kept.push(Section { key, items });
            }
        }
    }
}

/// The items of the open section.
#[derive(Default)]
struct Items {
    list: Vec<Item>,
    /// The places of the keys in the list.
    places: HashMap<Key, usize>,
}

impl Items {
    fn add(&mut self, item: Item, taking: Taking) {
        if taking == Taking::AsGeninfo {
            return self.list.push(item);
        }
        match self.places.get(&item.key) {
            // Calls leave the start line as it is.
            Some(_) if matches!(item.key, Key::Function(_)) && item.given.is_none() => {}
            Some(&place) => self.list[place] = item,
            None => {
                self.places.insert(item.key.clone(), self.list.len());
                self.list.push(item);
            }
        }
    }
}

fn item_of(line: u32, record: Record) -> Option<Item> {
    let (key, given, count) = match record {
        Record::Function { start, name, .. } => {
            (Key::Function(name.to_vec()), Some(Given::Start(start)), 0)
        }
        Record::Calls { name, .. } => (Key::Function(name.to_vec()), None, 0),
        Record::Branch { key, taken } => (Key::Branch(key), None, taken.unwrap_or(0)),
        Record::Line {
            line,
            count,
            checksum,
        } => {
            let given = checksum.map(|checksum| Given::Checksum(checksum.to_vec()));
            (Key::Line(line), given, count)
        }
        _ => return None,
    };
    Some(Item {
        key,
        given,
        count,
        line,
    })
}

#[cfg(test)]
mod tests {
    use super::*;

    /// Test name, path and the lines of the items.
    fn read(text: &str, taking: Taking) -> Vec<(String, String, Vec<u32>)> {
        let words = |bytes: &[u8]| String::from_utf8(bytes.to_vec()).unwrap();
        let sections = sections(text.as_bytes(), taking);
        let sections = sections.iter().map(|section| {
            let lines = section.items.iter().map(|item| item.line).collect();
            (words(&section.key.0), words(&section.key.1), lines)
        });
        sections.collect()
    }

    const TEXT: &str = "TN:t\nSF:a//b\nFN:3,f\nFNDA:1,f\nFNDA:1,g\nDA:1,1\nDA:1,2\nend_of_record\n\
        SF:c\nBRDA:1,0,0,-\nend_of_record\nSF:empty\nLF:0\nend_of_record\n\
        TN:t\nSF:a/b\nDA:2,1\nend_of_record\nSF:open\nDA:1,1\n";

    #[test]
    fn as_written_what_comes_again_replaces() {
        let found = read(TEXT, Taking::AsWritten);
        let section = |test: &str, path: &str, lines: &[u32]| {
            (test.to_owned(), path.to_owned(), lines.to_vec())
        };
        assert_eq!(found, [section("t", "a/b", &[17]), section("", "c", &[10])]);
        let alone = read(
            TEXT.split_inclusive("SF:c").next().unwrap(),
            Taking::AsWritten,
        );
        assert_eq!(alone, [section("t", "a/b", &[3, 5, 7])]);
    }

    #[test]
    fn as_geninfo_it_adds() {
        let found = read(TEXT, Taking::AsGeninfo);
        let section = |path: &str, lines: &[u32]| ("t".to_owned(), path.to_owned(), lines.to_vec());
        let expected = [section("a/b", &[3, 4, 5, 6, 7, 17]), section("c", &[10])];
        assert_eq!(found, expected);
    }
}
