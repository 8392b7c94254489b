//! What was gathered, by test name and path: a round takes from it the sections that its files have, and puts them back.
//!
//! The sections stay in the parts that the library wrote, and a table says where each is. A section that is gathered anew is in a new part,
//! and its old bytes are dead. A part without sections is freed at once; the others are packed when a fifth of all bytes is dead. So the
//! work is linear in what the rounds gather, however many sections no file touches.

use crate::key::compare_keys;
use crate::path::canonical;
use crate::piece::Text;
use crate::sections::{joined_text, key_of, printed_sections};
use crate::tracefile::Tracefile;
use lcov_sys::EQUAL;
use std::cmp::Ordering;
use std::collections::HashMap;
use std::hash::{BuildHasher, Hasher, RandomState};
use std::ops::Range;

/// No section.
const NONE: u32 = u32::MAX;

/// A section of what the library wrote: where it is, how many lines it has, and the hash of its key.
pub struct Place {
    range: Range<usize>,
    lines: u32,
    hash: u64,
}

struct Section {
    part: u32,
    lines: u32,
    range: Range<usize>,
    /// An earlier one with the same hash.
    next: u32,
}

#[derive(Default)]
struct Part {
    bytes: Vec<u8>,
    /// How many bytes are sections' that count.
    live: usize,
}

#[derive(Default)]
pub struct Store<S = RandomState> {
    hasher: S,
    parts: Vec<Part>,
    /// The numbers of the parts that are freed.
    free: Vec<u32>,
    sections: Vec<Section>,
    /// The last section with a hash.
    last: HashMap<u64, u32>,
    live: usize,
    dead: usize,
}

impl<S: BuildHasher> Store<S> {
    /// The sections of what the library wrote. Threads do this.
    pub fn places(&self, written: &[u8]) -> Vec<Place> {
        let mut start = 0;
        let places = printed_sections(written).map(|section| {
            let range = start..start + section.len();
            start = range.end;
            let (test, path) = key_of(section);
            Place {
                range,
                lines: memchr::memchr_iter(b'\n', section).count() as u32,
                hash: self.hash(test, path),
            }
        });
        places.collect()
    }

    /// Keeps what the library wrote, in place of earlier sections with the same keys.
    pub fn put(&mut self, written: Vec<u8>, places: Vec<Place>) {
        if written.is_empty() {
            return;
        }
        self.live += written.len();
        let part = Part {
            live: written.len(),
            bytes: written,
        };
        let number = match self.free.pop() {
            Some(number) => number,
            None => {
                self.parts.push(Part::default());
                self.parts.len() as u32 - 1
            }
        };
        self.parts[number as usize] = part;
        for place in places {
            self.put_section(number, place);
        }
    }

    fn put_section(&mut self, part: u32, place: Place) {
        let (test, path) = key_of(&self.parts[part as usize].bytes[place.range.clone()]);
        let before = self.number(place.hash, test, path);
        let mut section = Section {
            part,
            lines: place.lines,
            range: place.range,
            next: NONE,
        };
        match before {
            Some(number) => {
                let old = &mut self.sections[number];
                section.next = old.next;
                let old = std::mem::replace(old, section);
                self.let_go(old);
            }
            None => {
                let number = self.sections.len() as u32;
                section.next = self.last.insert(place.hash, number).unwrap_or(NONE);
                self.sections.push(section);
            }
        }
    }

    fn let_go(&mut self, old: Section) {
        let part = &mut self.parts[old.part as usize];
        part.live -= old.range.len();
        self.live -= old.range.len();
        self.dead += old.range.len();
        if part.live == 0 {
            self.dead -= part.bytes.len();
            *part = Part::default();
            self.free.push(old.part);
        }
    }

    /// What was gathered of a test name and path.
    pub fn find(&self, test: &[u8], path: &[u8]) -> Option<Text<'_>> {
        if self.sections.is_empty() {
            return None;
        }
        let number = self.number(self.hash(test, path), test, path)?;
        let lines = self.sections[number].lines as usize;
        Some(joined_text(self.bytes(number), lines))
    }

    fn number(&self, hash: u64, test: &[u8], path: &[u8]) -> Option<usize> {
        let mut next = self.last.get(&hash).copied().unwrap_or(NONE);
        while next != NONE {
            let number = next as usize;
            let own = key_of(self.bytes(number));
            if own.0 == test && lcov_sys::compare_paths(own.1, path) == EQUAL {
                return Some(number);
            }
            next = self.sections[number].next;
        }
        None
    }

    fn bytes(&self, number: usize) -> &[u8] {
        let section = &self.sections[number];
        &self.parts[section.part as usize].bytes[section.range.clone()]
    }

    fn hash(&self, test: &[u8], path: &[u8]) -> u64 {
        let mut hasher = self.hasher.build_hasher();
        hasher.write(test);
        hasher.write(b"\n");
        hasher.write(&canonical(path));
        hasher.finish()
    }

    /// Frees the dead bytes, where they are more than a quarter of the others.
    pub fn pack(&mut self) {
        if self.dead <= self.live / 4 {
            return;
        }
        let mut sections: Vec<&mut Section> = self.sections.iter_mut().collect();
        sections.sort_unstable_by_key(|section| (section.part, section.range.start));
        for sections in sections.chunk_by_mut(|a, b| a.part == b.part) {
            self.parts[sections[0].part as usize].pack(sections);
        }
        self.dead = 0;
    }

    /// The sections in key order. That no key comes twice is the library's word: `canonical` is written by hand.
    pub fn finish(self) -> Tracefile {
        let mut numbers: Vec<u32> = (0..self.sections.len() as u32).collect();
        let key = |number: u32| key_of(self.bytes(number as usize));
        numbers.sort_by(|&a, &b| compare_keys(key(a), key(b)));
        let is_less = |a: u32, b: u32| compare_keys(key(a), key(b)) == Ordering::Less;
        let is_ascending = numbers.windows(2).all(|pair| is_less(pair[0], pair[1]));
        assert!(is_ascending, "each section comes once");
        let mut slices: Vec<(usize, Range<usize>)> = Vec::new();
        for number in numbers {
            let Section { part, range, .. } = &self.sections[number as usize];
            match slices.last_mut() {
                Some((last, slice)) if *last == *part as usize && slice.end == range.start => {
                    slice.end = range.end;
                }
                _ => slices.push((*part as usize, range.clone())),
            }
        }
        let parts = self.parts.into_iter().map(|part| part.bytes);
        Tracefile::new(parts.collect(), slices)
    }
}

impl Part {
    /// Leaves these sections, which are all that count, in order.
    fn pack(&mut self, sections: &mut [&mut Section]) {
        if self.live == self.bytes.len() {
            return;
        }
        let mut end = 0;
        for section in sections {
            let range = section.range.clone();
            section.range = end..end + range.len();
            self.bytes.copy_within(range, end);
            end = section.range.end;
        }
        self.bytes.truncate(end);
        self.bytes.shrink_to_fit();
    }
}

#[cfg(test)]
mod tests {
    use super::*;
    use std::collections::BTreeMap;

    /// All keys have one hash.
    #[derive(Default)]
    struct Same;

    impl BuildHasher for Same {
        type Hasher = Self;

        fn build_hasher(&self) -> Same {
            Same
        }
    }

    impl Hasher for Same {
        fn write(&mut self, _: &[u8]) {}

        fn finish(&self) -> u64 {
            7
        }
    }

    fn section(test: &str, path: &str, lines: usize) -> String {
        let lines: String = (0..lines).map(|line| format!("DA:{line},1\n")).collect();
        format!("TN:{test}\nSF:{path}\n{lines}end_of_record\n")
    }

    fn put<S: BuildHasher>(store: &mut Store<S>, text: &str) {
        let places = store.places(text.as_bytes());
        store.put(text.as_bytes().to_vec(), places);
    }

    /// What a bundle would have of the section.
    fn found<S: BuildHasher>(store: &Store<S>, test: &str, path: &str) -> Option<String> {
        let text = store.find(test.as_bytes(), path.as_bytes())?;
        assert_eq!(text.test, Some(test.as_bytes()));
        let mut bytes = Vec::new();
        text.write(&mut bytes);
        Some(String::from_utf8(bytes).unwrap())
    }

    #[test]
    fn a_section_is_found_by_test_name_and_components() {
        let mut store: Store = Store::default();
        assert_eq!(found(&store, "", "a"), None);
        put(&mut store, "");
        let two = section("", "a//b", 2) + &section("t", "a/b", 3);
        put(&mut store, &two);
        assert_eq!(found(&store, "", "a/./b"), Some(section("", "a//b", 2)));
        assert_eq!(found(&store, "t", "a/b/"), Some(section("t", "a/b", 3)));
        assert_eq!(found(&store, "t", "./a/b"), None);
        assert_eq!(found(&store, "u", "a/b"), None);
        assert_eq!(store.find(b"t", b"a/b").unwrap().entries, 6);
        assert_eq!(store.finish().slices(), [two.as_bytes()]);
    }

    #[test]
    fn the_later_of_one_key_stays_and_order_is_that_of_keys() {
        let mut store: Store = Store::default();
        put(&mut store, &(section("t", "b", 1) + &section("t", "d", 1)));
        put(&mut store, &(section("", "z", 1) + &section("t", "c", 1)));
        put(&mut store, &section("t", "d/.", 5));
        let expected = [
            section("", "z", 1),
            section("t", "b", 1),
            section("t", "c", 1),
            section("t", "d/.", 5),
        ];
        assert_eq!(
            store.finish().slices().concat(),
            expected.concat().as_bytes()
        );
    }

    /// Puts sections of random keys and lengths, several at a time, and compares with an ordered map.
    fn compare_with_a_map<S: BuildHasher + Default>(rounds: usize) {
        let mut store: Store<S> = Store::default();
        let mut expected: BTreeMap<(String, usize), String> = BTreeMap::new();
        let mut random = 0x2545_f491_4f6c_dd1d_u64;
        let mut below = |bound: u64| {
            random ^= random << 13;
            random ^= random >> 7;
            random ^= random << 17;
            (random >> 11) as usize % bound as usize
        };
        for _ in 0..rounds {
            let mut round: BTreeMap<(String, usize), String> = BTreeMap::new();
            for _ in 0..below(9) {
                let key = (["", "t", "u"][below(3)].to_owned(), below(60));
                let path = format!("{}{:02}", ["d/", "d//"][below(2)], key.1);
                let text = section(&key.0, &path, below(20));
                round.insert(key, text);
            }
            put(&mut store, &round.values().cloned().collect::<String>());
            expected.extend(round);
            store.pack();
            let bytes: usize = store.parts.iter().map(|part| part.bytes.len()).sum();
            let live: usize = expected.values().map(String::len).sum();
            assert_eq!((store.live, store.live + store.dead), (live, bytes));
            assert!(bytes <= live + live / 4, "{bytes} {live}");
            for ((test, path), text) in &expected {
                let found = found(&store, test, &format!("d/{path:02}"));
                assert_eq!(found.as_ref(), Some(text));
            }
        }
        let expected: String = expected.into_values().collect();
        assert_eq!(store.finish().slices().concat(), expected.as_bytes());
    }

    #[test]
    fn many_puts_leave_what_a_map_would() {
        compare_with_a_map::<RandomState>(400);
    }

    #[test]
    fn keys_of_one_hash_stay_apart() {
        compare_with_a_map::<Same>(100);
    }

    #[test]
    #[should_panic(expected = "each section comes once")]
    fn a_key_that_comes_twice_is_noticed() {
        let mut store: Store = Store::default();
        let twice = section("t", "a", 1) + &section("t", "a/.", 1);
        let mut places = store.places(twice.as_bytes());
        places[1].hash ^= 1;
        store.put(twice.into_bytes(), places);
        store.finish();
    }
}
