//! Stand-in for the filters' root: `FilterMap`, by which `LineNum` keeps the entries whose line is held.

pub mod line_num;

pub use self::line_num::LineNum;
use std::collections::BTreeMap;
use std::mem;

/// A map of which only the entries stay that a function gives back.
pub trait FilterMap {
    type Entry;

    fn filter_map<F>(&mut self, keep: F)
    where
        F: FnMut(Self::Entry) -> Option<Self::Entry>;
}

impl<K: Ord, V> FilterMap for BTreeMap<K, V> {
    type Entry = (K, V);

    fn filter_map<F>(&mut self, keep: F)
    where
        F: FnMut(Self::Entry) -> Option<Self::Entry>,
    {
        *self = mem::take(self).into_iter().filter_map(keep).collect();
    }
}
