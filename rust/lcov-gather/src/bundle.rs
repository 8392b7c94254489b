//! A bundle: n and T, n starts, n lengths, all little-endian u32, and T bytes of text.

use lcov_sys::MAX_TEXTS;
use std::ops::Range;

/// The head of a bundle that names as many texts as it may.
const LONGEST_HEAD: usize = 8 + 8 * MAX_TEXTS;

/// The texts are put behind the place of the longest head, and the head, when it is known, right before them.
pub struct Bundle {
    bytes: Vec<u8>,
    ends: Vec<usize>,
}

impl Bundle {
    pub fn new() -> Self {
        Bundle {
            bytes: vec![0; LONGEST_HEAD],
            ends: Vec::with_capacity(MAX_TEXTS),
        }
    }

    /// No text is left; the memory is.
    pub fn clear(&mut self) {
        self.bytes.truncate(LONGEST_HEAD);
        self.ends.clear();
    }

    /// Whether it names as many texts as it may.
    pub fn is_full(&self) -> bool {
        self.ends.len() == MAX_TEXTS
    }

    fn text_bytes(&self) -> usize {
        self.bytes.len() - LONGEST_HEAD
    }

    /// A text that `write` appends to what it is given. Whether the bundle is still short enough for its u32 numbers.
    pub fn add(&mut self, write: impl FnOnce(&mut Vec<u8>)) -> bool {
        write(&mut self.bytes);
        self.ends.push(self.bytes.len());
        u32::try_from(self.text_bytes()).is_ok()
    }

    /// The bundle as the library takes it.
    pub fn finish(&mut self) -> &[u8] {
        let n = self.ends.len();
        let head = LONGEST_HEAD - 8 - 8 * n;
        self.put(head, n);
        self.put(head + 4, self.text_bytes());
        for k in 0..n {
            let text = self.text(k);
            self.put(head + 8 + 4 * k, text.start - LONGEST_HEAD);
            self.put(head + 8 + 4 * (n + k), text.len());
        }
        &self.bytes[head..]
    }

    fn text(&self, k: usize) -> Range<usize> {
        let before = k.checked_sub(1).map_or(LONGEST_HEAD, |k| self.ends[k]);
        before..self.ends[k]
    }

    fn put(&mut self, at: usize, number: usize) {
        self.bytes[at..at + 4].copy_from_slice(&(number as u32).to_le_bytes());
    }
}

impl Default for Bundle {
    fn default() -> Self {
        Bundle::new()
    }
}

#[cfg(test)]
mod tests {
    use super::*;

    fn with(texts: &[&str]) -> Bundle {
        let mut bundle = Bundle::new();
        add_all(&mut bundle, texts);
        bundle
    }

    fn add_all(bundle: &mut Bundle, texts: &[&str]) {
        for text in texts {
            assert!(bundle.add(|bytes| bytes.extend_from_slice(text.as_bytes())));
        }
    }

    fn numbers(numbers: &[u32], text: &str) -> Vec<u8> {
        let words = numbers.iter().flat_map(|number| number.to_le_bytes());
        words.chain(text.bytes()).collect()
    }

    #[test]
    fn head_and_texts() {
        assert_eq!(with(&[]).finish(), numbers(&[0, 0], ""));
        let mut bundle = with(&["abc", "", "de"]);
        let expected = numbers(&[3, 5, 0, 3, 3, 3, 0, 2], "abcde");
        assert_eq!(bundle.finish(), expected);
        bundle.clear();
        add_all(&mut bundle, &["z"]);
        assert_eq!(bundle.finish(), numbers(&[1, 1, 0, 1], "z"));
    }

    #[test]
    fn full_at_64_texts() {
        let texts = vec!["x"; MAX_TEXTS];
        assert!(!with(&texts[1..]).is_full());
        assert!(with(&texts).is_full());
    }
}
