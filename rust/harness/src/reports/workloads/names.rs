//! Names of functions, for the measure of speed.

use super::shuffle;
use crate::Rng;

/// What the names of a section's functions are like. No name comes twice.
#[derive(Debug, Clone, Copy, PartialEq, Eq)]
pub enum Names {
    /// Members of C++ classes as the compiler writes them, in no order.
    Mangled,
    /// C functions in the order of their source, which is not that of the names.
    Plain,
    /// In so many groups, in no order; the names of a group have the first 300 bytes in common.
    Prefixed { groups: usize },
    /// One pattern again and again, 1 to 200 bytes of it, and a number; in no order.
    Repeated,
}

/// The bytes that the names of a group have in common.
const SHARED: usize = 300;

const PATTERN: &str = "ab";

/// The most bytes of the pattern in a name.
const MOST_REPEATED: usize = 200;

const NAMESPACES: [&[&str]; 6] = [
    &["recogniser"],
    &["decoder", "search"],
    &["acoustic", "features"],
    &["language_model", "ngram"],
    &["recogniser", "util", "internal"],
    &["protocol", "wire"],
];

const CLASSES: [&str; 10] = [
    "Lattice",
    "Token",
    "BeamSearch",
    "FeatureBuffer",
    "State",
    "WordGraph",
    "Window",
    "Hypothesis",
    "LexiconTree",
    "Node",
];

const MEMBERS: [&str; 24] = [
    "score",
    "prune",
    "begin",
    "end",
    "size",
    "push_back",
    "emit",
    "reset",
    "commit",
    "find_best",
    "expand_all",
    "frame_count",
    "is_final",
    "weight",
    "set_weight",
    "read_from",
    "write_to",
    "advance",
    "clear",
    "reserve",
    "compare",
    "merge",
    "state_of",
    "next_frame",
];

const PARAMETERS: [&str; 8] = [
    "v",
    "i",
    "PKci",
    "PKfm",
    "ib",
    "RKSs",
    "RSt6vectorIfSaIfEE",
    "RKSt6vectorIfSaIfEEm",
];

const WORDS: [&str; 8] = [
    "score", "frame", "beam", "prune", "token", "lattice", "ngram", "dict",
];

impl Names {
    pub fn name(self) -> String {
        match self {
            Names::Mangled => "mangled".to_owned(),
            Names::Plain => "plain".to_owned(),
            Names::Prefixed { groups: 1 } => format!("the first {SHARED} bytes shared"),
            Names::Prefixed { groups } => {
                format!("{groups} groups, in each the first {SHARED} bytes shared")
            }
            Names::Repeated => "one pattern repeated".to_owned(),
        }
    }

    /// So many names.
    pub fn of(self, rng: &mut Rng, many: usize) -> Vec<String> {
        let mut numbers: Vec<usize> = (0..many).collect();
        shuffle(rng, &mut numbers);
        let mut named = |name: &dyn Fn(&mut Rng, usize) -> String| {
            numbers.iter().map(|&number| name(rng, number)).collect()
        };
        match self {
            Names::Mangled => named(&mangled),
            Names::Plain => named(&plain),
            Names::Repeated => named(&repeated),
            Names::Prefixed { groups } => {
                let prefixes: Vec<String> = (0..groups).map(prefix).collect();
                named(&|_, number| format!("{}{number}Ev", prefixes[number % groups]))
            }
        }
    }
}

/// The class of a number has a name of its own, and the number is one of its members.
fn mangled(rng: &mut Rng, number: usize) -> String {
    let class = number / MEMBERS.len();
    let own = format!("{}{class:04}", CLASSES[class % CLASSES.len()]);
    let mut name = "_ZN".to_owned();
    for part in NAMESPACES[class % NAMESPACES.len()] {
        name.push_str(&counted(part));
    }
    name.push_str(&counted(&own));
    name.push_str(&counted(MEMBERS[number % MEMBERS.len()]));
    name.push('E');
    name.push_str(rng.pick(&PARAMETERS));
    name
}

/// A part of a nested name: its length stands before it.
fn counted(part: &str) -> String {
    format!("{}{part}", part.len())
}

fn plain(rng: &mut Rng, number: usize) -> String {
    format!("{}_{}", rng.pick(&WORDS), 100_000 + number)
}

/// The first bytes of nested namespaces, other ones for each group.
fn prefix(group: usize) -> String {
    let mut rng = Rng::new(group as u64);
    let mut prefix = "_ZN".to_owned();
    while prefix.len() < SHARED {
        let part = format!("{}_{}", rng.pick(&WORDS), rng.pick(&MEMBERS));
        prefix.push_str(&counted(&part));
    }
    prefix.truncate(SHARED);
    prefix
}

fn repeated(rng: &mut Rng, number: usize) -> String {
    let len = 1 + rng.below(MOST_REPEATED);
    let mut name: String = PATTERN.chars().cycle().take(len).collect();
    name.push_str(&number.to_string());
    name
}

#[cfg(test)]
mod tests {
    use super::*;
    use std::collections::BTreeSet;

    const MANY: usize = 60_000;

    fn made(names: Names) -> Vec<String> {
        let made = names.of(&mut Rng::new(1), MANY);
        let different: BTreeSet<&String> = made.iter().collect();
        assert_eq!(different.len(), MANY, "{names:?}");
        assert!(!made.is_sorted(), "{names:?}");
        made
    }

    #[test]
    fn mangled_names_have_30_to_80_bytes() {
        let names = made(Names::Mangled);
        assert!(names.iter().all(|name| name.starts_with("_ZN")));
        let lens = || names.iter().map(String::len);
        assert!((30..40).contains(&lens().min().unwrap()));
        assert!((70..=80).contains(&lens().max().unwrap()));
    }

    #[test]
    fn plain_names_are_short() {
        assert!(made(Names::Plain).iter().all(|name| name.len() < 16));
    }

    #[test]
    fn a_group_has_its_first_bytes_in_common() {
        for groups in [1, 20] {
            let names = made(Names::Prefixed { groups });
            let firsts: BTreeSet<&str> = names.iter().map(|name| &name[..SHARED]).collect();
            assert_eq!(firsts.len(), groups);
        }
    }

    #[test]
    fn a_pattern_is_repeated() {
        for name in made(Names::Repeated) {
            let letters = name.trim_end_matches(|digit: char| digit.is_ascii_digit());
            assert!((1..=MOST_REPEATED).contains(&letters.len()));
            assert!(PATTERN.repeat(MOST_REPEATED).starts_with(letters));
        }
    }
}
