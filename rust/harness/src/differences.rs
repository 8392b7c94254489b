//! The differences that a comparison met: how many, and some of them in full.

use std::fmt;

/// How many are shown.
const SHOWN: usize = 10;

pub struct Difference {
    pub asked: String,
    pub rust: String,
    pub port: String,
}

impl fmt::Display for Difference {
    fn fmt(&self, f: &mut fmt::Formatter) -> fmt::Result {
        writeln!(f, "{}", self.asked)?;
        writeln!(f, "  expected {}", self.rust)?;
        writeln!(f, "  port     {}", self.port)
    }
}

#[derive(Default)]
pub struct Differences {
    pub count: u64,
    /// Those of the smallest questions, each with the question's size; of one size the first.
    shown: Vec<(usize, Difference)>,
}

impl Differences {
    /// Counts a difference, which is made only if it is one of those to be shown.
    pub fn add(&mut self, size: usize, difference: impl FnOnce() -> Difference) {
        self.count += 1;
        if self.shown.get(SHOWN - 1).is_none_or(|last| size < last.0) {
            self.shown.push((size, difference()));
            self.shown.sort_by_key(|&(size, _)| size);
            self.shown.truncate(SHOWN);
        }
    }

    pub fn shown(&self) -> impl Iterator<Item = &Difference> {
        self.shown.iter().map(|(_, difference)| difference)
    }
}

#[cfg(test)]
mod tests {
    use super::*;

    /// What is shown of questions of these sizes: the size and the place of each.
    fn shown(sizes: &[usize]) -> Vec<String> {
        let mut differences = Differences::default();
        for (place, &size) in sizes.iter().enumerate() {
            differences.add(size, || Difference {
                asked: format!("{size} at {place}"),
                rust: String::new(),
                port: String::new(),
            });
        }
        assert_eq!(differences.count, sizes.len() as u64);
        differences.shown().map(|one| one.asked.clone()).collect()
    }

    #[test]
    fn the_smallest_are_shown_and_of_one_size_the_first() {
        assert_eq!(
            shown(&[3, 1, 3, 2]),
            ["1 at 1", "2 at 3", "3 at 0", "3 at 2"]
        );
        let many = shown(&[&[5; SHOWN][..], &[5, 4, 6]].concat());
        assert_eq!(many.len(), SHOWN);
        assert_eq!((many[0].as_str(), many[1].as_str()), ("4 at 11", "5 at 0"));
        assert_eq!(many[SHOWN - 1], "5 at 8");
    }
}
