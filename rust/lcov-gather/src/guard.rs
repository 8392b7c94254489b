//! The guard: finds where the reading of one file would let one thing replace another, so that counts or a test name are lost.
//!
//! The library reads as SPEC 3.2 says: a later section, DA or BRDA with the key of an earlier one replaces it, FN sets a function's
//! count to 0, and a test name, also the empty one, holds for one section. A section without functions, branches and lines is dropped and
//! replaces nothing.

use crate::path::canonical;
use crate::record::{records, ItemRun, Record};
use crate::shown::shown;
use std::collections::HashMap;
use std::fmt;

/// How many replacements a gather tells one by one.
const SHOWN: usize = 10;

/// The replacements in all files.
#[derive(Debug, Clone)]
pub struct Replacements {
    /// So many are told one by one; of the others the number is told.
    most: usize,
    shown: Vec<String>,
    total: u64,
}

impl Default for Replacements {
    fn default() -> Self {
        Replacements::up_to(SHOWN)
    }
}

impl Replacements {
    /// Each of them is told.
    pub fn all() -> Self {
        Replacements::up_to(usize::MAX)
    }

    fn up_to(most: usize) -> Self {
        Replacements {
            most,
            shown: Vec::new(),
            total: 0,
        }
    }

    pub fn is_empty(&self) -> bool {
        self.total == 0
    }

    /// Those of a later file.
    pub fn append(&mut self, later: Replacements) {
        let room = self.most - self.shown.len();
        self.shown.extend(later.shown.into_iter().take(room));
        self.total += later.total;
    }

    fn add(&mut self, file: &str, found: &Found) {
        self.total += 1;
        if self.shown.len() < self.most {
            self.shown.push(found.message(file));
        }
    }
}

impl fmt::Display for Replacements {
    fn fmt(&self, f: &mut fmt::Formatter) -> fmt::Result {
        for message in &self.shown {
            write!(f, "{message}\nlcov-gather: ")?;
        }
        let more = self.total - self.shown.len() as u64;
        if more > 0 {
            write!(f, "and {more} more\nlcov-gather: ")?;
        }
        write!(
            f,
            "refused, since counts or test names may be lost; --as-geninfo adds them up, --as-written takes the file as it is"
        )
    }
}

/// What is replaced, or lost.
#[derive(Debug, Clone, Copy, PartialEq, Eq)]
enum What<'a> {
    Section(&'a [u8]),
    TestName(&'a [u8]),
    Function(&'a [u8]),
    Branch([u32; 3]),
    Line(u32),
}

/// A later and an earlier line of a file.
#[derive(Debug, Clone, Copy, PartialEq, Eq)]
struct Found<'a> {
    later: u32,
    earlier: u32,
    what: What<'a>,
}

impl<'a> Found<'a> {
    fn new(later: u32, earlier: u32, what: What<'a>) -> Self {
        Found {
            later,
            earlier,
            what,
        }
    }

    fn message(&self, file: &str) -> String {
        let earlier = format!("{file}:{}", self.earlier);
        let words = match self.what {
            What::Section(path) => {
                format!("{} replaces the one at {earlier}", section_of(path))
            }
            What::TestName(path) => {
                format!(
                    "{} has no TN, and the TN at {earlier} is not for it",
                    section_of(path)
                )
            }
            What::Function(name) => {
                let name = shown(name);
                format!("FN sets the count of {name}, given at {earlier}, to 0")
            }
            What::Branch([line, block, branch]) => {
                format!("BRDA:{line},{block},{branch} replaces the one at {earlier}")
            }
            What::Line(line) => format!("DA:{line} replaces the one at {earlier}"),
        };
        format!("{file}:{}: {words}", self.later)
    }
}

fn section_of(path: &[u8]) -> String {
    if path.is_empty() {
        "the section without a path".to_owned()
    } else {
        format!("the section of {}", shown(path))
    }
}

/// The keys of a section's lines or branches with the places where they came.
struct Keys<'a, K> {
    /// Tools write the keys in order. Then none comes twice, and the places are not looked for.
    runs: Vec<ItemRun<'a, K>>,
    /// Of lines that are in no run.
    places: Vec<(K, u32)>,
    last: Option<K>,
    is_unordered: bool,
}

impl<K> Default for Keys<'_, K> {
    fn default() -> Self {
        Keys {
            runs: Vec::new(),
            places: Vec::new(),
            last: None,
            is_unordered: false,
        }
    }
}

impl<'a, K: Ord + Copy> Keys<'a, K> {
    fn add(&mut self, key: K, place: u32) {
        self.is_unordered |= self.last >= Some(key);
        self.last = Some(key);
        self.places.push((key, place));
    }

    fn add_run(&mut self, run: &ItemRun<'a, K>) {
        self.is_unordered |= self.last >= Some(run.first);
        self.last = Some(run.last);
        self.runs.push(*run);
    }

    /// Calls for each key that came before: key, later place, earlier place. No key is left.
    fn take_repeated(
        &mut self,
        key_of: impl Fn(Record) -> Option<K>,
        mut repeated: impl FnMut(K, u32, u32),
    ) {
        if self.is_unordered {
            for run in &self.runs {
                let keys = records(run.bytes).filter_map(|(_, record)| key_of(record));
                self.places.extend(keys.zip(run.number..));
            }
            self.places.sort_unstable();
            for pair in self.places.windows(2) {
                if pair[0].0 == pair[1].0 {
                    repeated(pair[0].0, pair[1].1, pair[0].1);
                }
            }
        }
        self.runs.clear();
        self.places.clear();
        self.last = None;
        self.is_unordered = false;
    }
}

fn line_of(record: Record) -> Option<u32> {
    match record {
        Record::Line { line, .. } => Some(line),
        _ => None,
    }
}

fn branch_of(record: Record) -> Option<[u32; 3]> {
    match record {
        Record::Branch { key, .. } => Some(key),
        _ => None,
    }
}

/// The section that is open.
#[derive(Default)]
struct Section<'a> {
    test: Option<&'a [u8]>,
    path: &'a [u8],
    /// The line of the last SF, or the first line where there is none; 0 where no section is open.
    place: u32,
    has_items: bool,
}

/// The guard of one file, which takes its records in order.
#[derive(Default)]
pub struct Guard<'a> {
    section: Section<'a>,
    lines: Keys<'a, u32>,
    branches: Keys<'a, [u32; 3]>,
    /// The functions of the open section whose count is above 0, with the FNDA that made it so.
    called: HashMap<&'a [u8], u32>,
    /// Test name and path of each kept section, with its last place.
    sections: HashMap<(&'a [u8], Vec<u8>), u32>,
    /// The line of the last TN of the file.
    last_test: Option<u32>,
    /// All sections get one test name, whether they have a TN or not.
    has_one_name: bool,
    /// What is found in the open section.
    found: Vec<Found<'a>>,
}

impl<'a> Guard<'a> {
    pub fn new(has_one_name: bool) -> Self {
        Guard {
            has_one_name,
            ..Guard::default()
        }
    }

    pub fn has_one_name(&self) -> bool {
        self.has_one_name
    }

    /// Takes the record at a place. The replacements of a section are told when it ends: a file that ends inside a section is refused by
    /// the library.
    pub fn take(&mut self, place: u32, record: Record<'a>, file: &str, all: &mut Replacements) {
        match record {
            Record::TestName(name) => {
                self.section.test = Some(if self.has_one_name { b"" } else { name });
                self.last_test = Some(place);
                return;
            }
            Record::End => return self.end(file, all),
            _ => {}
        }
        if self.section.place == 0 {
            self.section.place = place;
        }
        self.section.has_items |= record.is_item();
        self.enter(place, record);
    }

    /// Takes DA lines at once.
    pub fn take_lines(&mut self, run: &ItemRun<'a, u32>) {
        self.begin(run.number);
        self.lines.add_run(run);
    }

    /// Takes BRDA lines at once.
    pub fn take_branches(&mut self, run: &ItemRun<'a, [u32; 3]>) {
        self.begin(run.number);
        self.branches.add_run(run);
    }

    /// An item, with which a section may begin.
    fn begin(&mut self, place: u32) {
        if self.section.place == 0 {
            self.section.place = place;
        }
        self.section.has_items = true;
    }

    fn enter(&mut self, place: u32, record: Record<'a>) {
        match record {
            Record::SourceFile(path) => {
                self.section.path = path;
                self.section.place = place;
            }
            Record::Line { line, .. } => self.lines.add(line, place),
            Record::Branch { key, .. } => self.branches.add(key, place),
            Record::Calls { count, name } if count > 0 => {
                self.called.entry(name).or_insert(place);
            }
            Record::Function { name, .. } => {
                if let Some(earlier) = self.called.remove(name) {
                    let what = What::Function(name);
                    self.found.push(Found::new(place, earlier, what));
                }
            }
            _ => {}
        }
    }

    fn end(&mut self, file: &str, all: &mut Replacements) {
        let section = std::mem::take(&mut self.section);
        if !section.has_items {
            return;
        }
        // A new map, since clearing one takes as long as it once was large.
        self.called = HashMap::new();
        let found = &mut self.found;
        self.lines.take_repeated(line_of, |line, later, earlier| {
            found.push(Found::new(later, earlier, What::Line(line)));
        });
        self.branches
            .take_repeated(branch_of, |key, later, earlier| {
                found.push(Found::new(later, earlier, What::Branch(key)));
            });
        self.keep(&section);
        self.found.sort_by_key(|found| found.later);
        for found in self.found.drain(..) {
            all.add(file, &found);
        }
    }

    /// A section that is not dropped: whether it has its test name, and whether it came before.
    fn keep(&mut self, section: &Section<'a>) {
        let Section { path, place, .. } = *section;
        if let (None, Some(earlier), false) = (section.test, self.last_test, self.has_one_name) {
            let what = What::TestName(path);
            self.found.push(Found::new(place, earlier, what));
        }
        let key = (section.test.unwrap_or_default(), canonical(path));
        if let Some(earlier) = self.sections.insert(key, place) {
            let what = What::Section(path);
            self.found.push(Found::new(place, earlier, what));
        }
    }
}
