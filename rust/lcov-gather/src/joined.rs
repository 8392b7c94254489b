//! What the files joined so far give for each function, branch and line, and where the next file is in conflict with it.
//!
//! The library refuses the first conflict and names the file alone. Here all conflicts of a file are found, with both values and places.

use crate::items::{Given, Item, Key, Section, SectionKey};
use crate::key::compare_keys;
use lcov_sys::Fault;
use std::cmp::Ordering;
use std::collections::HashMap;

/// A file, from 0, and a line of it, from 1.
#[derive(Debug, Clone, Copy, PartialEq, Eq)]
pub struct Place {
    pub file: usize,
    pub line: u32,
}

/// What two files do not agree on: each value with its place.
#[derive(Debug, Clone, PartialEq, Eq)]
pub enum Cause {
    /// Start lines or checksums.
    Given {
        earlier: (Given, Place),
        later: (Given, Place),
    },
    /// The sum of the files before, and the last of them that added to it, and what the file adds.
    Sum {
        so_far: (u64, Place),
        added: (u64, Place),
    },
}

#[derive(Debug, Clone, PartialEq, Eq)]
pub struct Conflict {
    pub section: SectionKey,
    pub key: Key,
    pub cause: Cause,
}

impl Conflict {
    /// Why the library refuses it.
    pub fn fault(&self) -> Fault {
        match (&self.cause, &self.key) {
            (Cause::Sum { .. }, _) => Fault::CountOverflow,
            (_, Key::Function(_)) => Fault::UnmatchedFunctionLine,
            _ => Fault::UnmatchedChecksum,
        }
    }

    /// The order in which the library goes through a file.
    fn compare(&self, other: &Self) -> Ordering {
        let [own, others] =
            [&self.section, &other.section].map(|(test, path)| (&test[..], &path[..]));
        compare_keys(own, others).then_with(|| self.key.cmp(&other.key))
    }
}

#[derive(Debug, Clone, Default)]
struct Entry {
    given: Option<(Given, Place)>,
    sum: u64,
    /// Where the sum was last added to.
    last: Option<Place>,
}

impl Entry {
    fn add(&mut self, item: &Item, place: Place, is_lossy: bool) -> Result<(), Cause> {
        if let Some(given) = &item.given {
            match &self.given {
                Some(earlier) if earlier.0 != *given && !is_lossy => {
                    return Err(Cause::Given {
                        earlier: earlier.clone(),
                        later: (given.clone(), place),
                    });
                }
                Some(earlier) if earlier.0 == *given => {}
                _ => self.given = Some((given.clone(), place)),
            }
        }
        self.sum = self.sum.checked_add(item.count).ok_or(Cause::Sum {
            so_far: (self.sum, self.last.unwrap_or(place)),
            added: (item.count, place),
        })?;
        if item.count > 0 {
            self.last = Some(place);
        }
        Ok(())
    }
}

#[derive(Default)]
pub struct Joined {
    is_lossy: bool,
    entries: HashMap<SectionKey, HashMap<Key, Entry>>,
}

impl Joined {
    /// Lossy, start lines and checksums are in no conflict: the later wins.
    pub fn new(is_lossy: bool) -> Self {
        Joined {
            is_lossy,
            entries: HashMap::new(),
        }
    }

    /// Takes a file if it is in no conflict with those before. Otherwise its conflicts, in the library's order, and nothing of it is taken.
    pub fn take(&mut self, file: usize, sections: &[Section]) -> Result<(), Vec<Conflict>> {
        let mut conflicts = Vec::new();
        let mut changed = Vec::with_capacity(sections.len());
        for section in sections {
            changed.push(self.changed(file, section, &mut conflicts));
        }
        if !conflicts.is_empty() {
            conflicts.sort_by(Conflict::compare);
            return Err(conflicts);
        }
        for (section, changed) in sections.iter().zip(changed) {
            let entries = self.entries.entry(section.key.clone()).or_default();
            entries.extend(changed.into_iter().map(|(key, entry)| (key.clone(), entry)));
        }
        Ok(())
    }

    /// The entries of a section as they are once its items are added.
    fn changed<'a>(
        &self,
        file: usize,
        section: &'a Section,
        conflicts: &mut Vec<Conflict>,
    ) -> HashMap<&'a Key, Entry> {
        let before = self.entries.get(&section.key);
        let mut changed: HashMap<&Key, Entry> = HashMap::new();
        for item in &section.items {
            let earlier = || before.and_then(|entries| entries.get(&item.key)).cloned();
            let entry = changed
                .entry(&item.key)
                .or_insert_with(|| earlier().unwrap_or_default());
            let line = item.line;
            if let Err(cause) = entry.add(item, Place { file, line }, self.is_lossy) {
                conflicts.push(Conflict {
                    section: section.key.clone(),
                    key: item.key.clone(),
                    cause,
                });
            }
        }
        changed
    }
}

#[cfg(test)]
mod tests {
    use super::*;
    use crate::items::{sections, Taking};

    /// The numbers of the conflicts of each text, with the lines of both places.
    fn conflicts(texts: &[&str], is_lossy: bool, taking: Taking) -> Vec<Vec<(u32, Place, Place)>> {
        let mut joined = Joined::new(is_lossy);
        let mut all = Vec::new();
        for (file, text) in texts.iter().enumerate() {
            let text = format!("SF:x\n{}\nend_of_record\n", text.replace(' ', "\n"));
            let taken = joined.take(file, &sections(text.as_bytes(), taking));
            let found = taken.err().unwrap_or_default().into_iter();
            let found = found.map(|conflict| match &conflict.cause {
                Cause::Given { earlier, later } => (conflict.fault().number(), earlier.1, later.1),
                Cause::Sum { so_far, added } => (conflict.fault().number(), so_far.1, added.1),
            });
            all.push(found.collect());
        }
        all
    }

    fn at(file: usize, line: u32) -> Place {
        Place { file, line }
    }

    const GREATEST: &str = "DA:2,18446744073709551615";

    #[test]
    fn conflicts_in_the_order_of_keys() {
        let a = format!("DA:1,1,sum {GREATEST} FN:3,g FN:2,f BRDA:1,0,0,18446744073709551615");
        let b = "DA:2,1 DA:1,1,other BRDA:1,0,0,1 FN:4,g FN:5,f DA:9,9";
        let found = conflicts(&[&a, b], false, Taking::AsWritten);
        assert_eq!(
            found,
            [
                vec![],
                vec![
                    (11, at(0, 5), at(1, 6)),
                    (11, at(0, 4), at(1, 5)),
                    (13, at(0, 6), at(1, 4)),
                    (12, at(0, 2), at(1, 3)),
                    (13, at(0, 3), at(1, 2)),
                ]
            ]
        );
        let lossy = conflicts(&[&a, b], true, Taking::AsWritten);
        let numbers: Vec<u32> = lossy[1].iter().map(|conflict| conflict.0).collect();
        assert_eq!(numbers, [13, 13]);
    }

    #[test]
    fn a_file_in_conflict_leaves_nothing() {
        let found = conflicts(
            &[
                "FN:3,f",
                "FN:4,f DA:1,1,sum",
                "DA:1,1,other",
                "FN:3,f DA:1,1,sum",
            ],
            false,
            Taking::AsWritten,
        );
        assert_eq!(found[1], [(11, at(0, 2), at(1, 2))]);
        assert_eq!(found[2], []);
        assert_eq!(found[3], [(12, at(2, 2), at(3, 3))]);
    }

    #[test]
    fn lossy_the_later_start_line_is_the_one_that_counts() {
        let found = conflicts(
            &["FN:3,f", "FN:4,f", GREATEST, "DA:2,0", "DA:2,1"],
            true,
            Taking::AsWritten,
        );
        assert_eq!(
            found,
            [
                vec![],
                vec![],
                vec![],
                vec![],
                vec![(13, at(2, 2), at(4, 2))]
            ]
        );
    }

    #[test]
    fn as_geninfo_a_file_may_be_in_conflict_with_itself() {
        let text = format!("FN:3,f {GREATEST} DA:2,1 FN:4,f");
        let found = conflicts(&[&text], false, Taking::AsGeninfo);
        assert_eq!(
            found[0],
            [(11, at(0, 2), at(0, 5)), (13, at(0, 3), at(0, 4))]
        );
        assert_eq!(conflicts(&[&text], false, Taking::AsWritten)[0], []);
    }

    #[test]
    fn what_only_one_gives_is_no_conflict() {
        let found = conflicts(
            &["FNDA:1,f DA:1,1", "FN:3,f DA:1,1,-", "FNDA:1,f DA:1,1,sum"],
            false,
            Taking::AsWritten,
        );
        assert!(found.iter().all(Vec::is_empty), "{found:?}");
    }
}
