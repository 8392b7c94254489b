//! The joined tracefile: slices of what the library wrote, in key order. It is nowhere put together.

use std::ops::Range;

#[derive(Debug, Default)]
pub struct Tracefile {
    parts: Vec<Vec<u8>>,
    /// Each has whole sections: its part, and where it is there.
    slices: Vec<(usize, Range<usize>)>,
}

impl Tracefile {
    pub fn new(parts: Vec<Vec<u8>>, slices: Vec<(usize, Range<usize>)>) -> Self {
        Tracefile { parts, slices }
    }

    /// All parts, in this order.
    pub fn whole(parts: Vec<Vec<u8>>) -> Self {
        let slices = parts.iter().map(|part| 0..part.len());
        Tracefile {
            slices: slices.enumerate().collect(),
            parts,
        }
    }

    pub fn slices(&self) -> Vec<&[u8]> {
        let slices = self.slices.iter();
        slices
            .map(|(part, range)| &self.parts[*part][range.clone()])
            .collect()
    }

    /// Each slice as it is changed. A part is freed with its last slice, so that no two tracefiles are in memory.
    pub fn map(mut self, change: impl Fn(&[u8]) -> Vec<u8>) -> Self {
        let mut left = vec![0_usize; self.parts.len()];
        for (part, _) in &self.slices {
            left[*part] += 1;
        }
        let mut changed = Vec::with_capacity(self.slices.len());
        for (part, range) in self.slices {
            changed.push(change(&self.parts[part][range]));
            left[part] -= 1;
            if left[part] == 0 {
                self.parts[part] = Vec::new();
            }
        }
        Tracefile::whole(changed)
    }
}

#[cfg(test)]
mod tests {
    use super::*;

    #[test]
    fn slices_in_order_as_they_are_and_changed() {
        let parts = vec![b"abcd".to_vec(), b"".to_vec(), b"ef".to_vec()];
        let tracefile = Tracefile::new(parts.clone(), vec![(2, 0..2), (0, 2..4), (0, 0..2)]);
        assert_eq!(tracefile.slices(), [b"ef", b"cd", b"ab"]);
        let twice = tracefile.map(|slice| slice.repeat(2));
        assert_eq!(twice.slices(), [b"efef", b"cdcd", b"abab"]);
        assert_eq!(Tracefile::whole(parts).slices().concat(), b"abcdef");
    }
}
