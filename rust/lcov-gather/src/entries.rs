//! How many entries the files have together: one for each section, function, branch and line.

use crate::items::{Key, Section, SectionKey};
use std::collections::{BTreeMap, HashSet};

#[derive(Default)]
pub struct Entries(BTreeMap<SectionKey, HashSet<Key>>);

impl Entries {
    pub fn add(&mut self, sections: Vec<Section>) {
        for section in sections {
            let keys = self.0.entry(section.key).or_default();
            keys.extend(section.items.into_iter().map(|item| item.key));
        }
    }

    pub fn total(&self) -> usize {
        self.0.values().map(|keys| 1 + keys.len()).sum()
    }

    /// The section with the most entries, and how many it has.
    pub fn largest(&self) -> Option<(&SectionKey, usize)> {
        let sizes = self.0.iter().map(|(key, keys)| (key, 1 + keys.len()));
        sizes.max_by_key(|&(_, size)| size)
    }
}

#[cfg(test)]
mod tests {
    use super::*;
    use crate::items::{sections, Taking};

    #[test]
    fn each_key_counts_once() {
        let mut entries = Entries::default();
        assert_eq!((entries.total(), entries.largest()), (0, None));
        let a = b"SF:a\nFN:1,f\nFNDA:1,f\nDA:1,1\nend_of_record\nSF:b\nDA:1,1\nend_of_record\n";
        let b = b"SF:b\nDA:1,1\nDA:2,1\nBRDA:1,0,0,-\nend_of_record\n";
        for text in [&a[..], b] {
            entries.add(sections(text, Taking::AsWritten));
        }
        assert_eq!(entries.total(), 7);
        let key = (b"".to_vec(), b"b".to_vec());
        assert_eq!(entries.largest(), Some((&key, 4)));
    }
}
