//! Functions, branches and lines in the orders in which geninfo and lcov write them, and in none.

use super::names::Names;
use super::{shuffle, Order};
use crate::reports::bundles;
use crate::Rng;

/// In which order a section gives the FN and FNDA of its functions.
#[derive(Debug, Clone, Copy, PartialEq, Eq)]
pub enum Layout {
    /// FN and FNDA of each function, as geninfo does.
    InTurn,
    /// All FN, then all FNDA in the same order, as lcov does.
    Grouped,
    /// All FN, then all FNDA in another order.
    Shuffled,
    /// No FN.
    CallsAlone,
}

impl Layout {
    pub fn name(self) -> &'static str {
        match self {
            Layout::InTurn => "FN and FNDA in turn",
            Layout::Grouped => "all FN, then all FNDA",
            Layout::Shuffled => "all FN, then all FNDA shuffled",
            Layout::CallsAlone => "FNDA alone",
        }
    }

    fn lines(self, rng: &mut Rng, names: &[String]) -> String {
        match self {
            Layout::InTurn => in_turn(rng, names),
            Layout::Grouped => starts(names) + &calls(rng, names),
            Layout::Shuffled => {
                let mut others = names.to_vec();
                shuffle(rng, &mut others);
                starts(names) + &calls(rng, &others)
            }
            Layout::CallsAlone => calls(rng, names),
        }
    }
}

const FILE: &str = "decoder/lattice.cc";

/// Counts are small.
const COUNTS: usize = 100;

/// A branch point has two branches of one block.
const BRANCHES: usize = 2;

fn section(path: &str, lines: &str) -> String {
    format!("TN:utterances\nSF:{path}\n{lines}end_of_record\n")
}

fn text(lines: &str) -> Vec<u8> {
    section(FILE, lines).into_bytes()
}

// ---- functions

fn start(place: usize, name: &str) -> String {
    format!("FN:{},{name}\n", 12 * place + 1)
}

fn call(rng: &mut Rng, name: &str) -> String {
    format!("FNDA:{},{name}\n", rng.below(COUNTS))
}

fn starts(names: &[String]) -> String {
    let places = names.iter().enumerate();
    places.map(|(place, name)| start(place, name)).collect()
}

fn calls(rng: &mut Rng, names: &[String]) -> String {
    names.iter().map(|name| call(rng, name)).collect()
}

fn in_turn(rng: &mut Rng, names: &[String]) -> String {
    let places = names.iter().enumerate();
    places
        .map(|(place, name)| start(place, name) + &call(rng, name))
        .collect()
}

/// A section of so many functions.
pub fn functions(rng: &mut Rng, names: Names, layout: Layout, many: usize) -> Vec<u8> {
    let names = names.of(rng, many);
    text(&layout.lines(rng, &names))
}

/// A section of so many functions: all FN, then so many FNDA, each of any function.
pub fn called_at_random(rng: &mut Rng, names: Names, many: usize, lines: usize) -> Vec<u8> {
    let names = names.of(rng, many);
    let mut written = starts(&names);
    for _ in 0..lines {
        let name = rng.below(many);
        written.push_str(&call(rng, &names[name]));
    }
    text(&written)
}

/// So many texts with the same functions, FN and FNDA in turn; counts differ.
pub fn same_functions(rng: &mut Rng, names: Names, texts: usize, many: usize) -> Vec<u8> {
    let names = names.of(rng, many);
    let texts: Vec<Vec<u8>> = (0..texts).map(|_| text(&in_turn(rng, &names))).collect();
    bundles::of(&texts)
}

// ---- branches

/// A section of so many branches of the lines in this order, each line with two blocks of two branches.
pub fn branches(rng: &mut Rng, order: Order, many: usize) -> Vec<u8> {
    const BLOCKS: usize = 2;
    let lines = order.numbers(rng, many / (BLOCKS * BRANCHES));
    let mut written = String::new();
    for line in lines {
        for block in 0..BLOCKS {
            written.push_str(&block_of(rng, line, block));
        }
    }
    text(&written)
}

/// The branches of a block. Those of a block that was never reached have no count.
fn block_of(rng: &mut Rng, line: usize, block: usize) -> String {
    let is_reached = !rng.one_in(3);
    let branches = (0..BRANCHES).map(|branch| {
        let taken = if is_reached {
            rng.below(COUNTS).to_string()
        } else {
            "-".to_owned()
        };
        format!("BRDA:{line},{block},{branch},{taken}\n")
    });
    branches.collect()
}

// ---- lines

fn line(rng: &mut Rng, line: usize) -> String {
    format!("DA:{line},{}\n", rng.below(COUNTS))
}

/// A section of so many DA, each of any of so many lines. With `all_first`, DA of each line in order come first.
pub fn repeated_lines(rng: &mut Rng, keys: usize, lines: usize, all_first: bool) -> Vec<u8> {
    let mut written = String::new();
    if all_first {
        written.extend((1..=keys).map(|key| line(rng, key)));
    }
    for _ in 0..lines {
        let key = 1 + rng.below(keys);
        written.push_str(&line(rng, key));
    }
    text(&written)
}

/// A section of so many DA in no order, and after each an FNDA of one of so many functions.
pub fn lines_and_calls(rng: &mut Rng, names: Names, lines: usize, functions: usize) -> Vec<u8> {
    let names = names.of(rng, functions);
    let mut written = String::new();
    for key in Order::Shuffled.numbers(rng, lines) {
        written.push_str(&line(rng, key));
        let name = rng.below(functions);
        written.push_str(&call(rng, &names[name]));
    }
    text(&written)
}

// ---- whole sections

/// What a section has.
#[derive(Debug, Clone, Copy)]
pub struct Sizes {
    pub functions: usize,
    /// Two at a line.
    pub branches: usize,
    pub lines: usize,
}

impl Sizes {
    /// With the section's own.
    pub fn entries(self) -> usize {
        1 + self.functions + self.branches + self.lines
    }
}

/// As geninfo 1.16 writes them: FN and FNDA in turn, then line by line its BRDA and its DA.
fn lines_of(rng: &mut Rng, sizes: Sizes, names: &[String]) -> String {
    let points = sizes.branches / BRANCHES;
    let mut written = in_turn(rng, names);
    for key in 1..=sizes.lines {
        if key % (sizes.lines / points) == 0 {
            written.push_str(&block_of(rng, key, 0));
        }
        written.push_str(&line(rng, key));
    }
    written
}

/// So many texts of the same file; counts differ.
pub fn same_file(rng: &mut Rng, texts: usize, sizes: Sizes) -> Vec<u8> {
    let names = Names::Mangled.of(rng, sizes.functions);
    let texts: Vec<Vec<u8>> = (0..texts)
        .map(|_| text(&lines_of(rng, sizes, &names)))
        .collect();
    bundles::of(&texts)
}

/// So many files in no order.
pub fn shuffled_files(rng: &mut Rng, files: usize, sizes: Sizes) -> Vec<u8> {
    let numbers = Order::Shuffled.numbers(rng, files);
    let sections = numbers.into_iter().map(|file| {
        let names = Names::Mangled.of(rng, sizes.functions);
        let path = format!("/build/decoder/part{file:06}.cc");
        section(&path, &lines_of(rng, sizes, &names))
    });
    sections.collect::<String>().into_bytes()
}

#[cfg(test)]
mod tests {
    use super::*;
    use crate::reports::expected::Expected;
    use crate::reports::Asked;
    use oracle::Mode;

    const LAYOUTS: [Layout; 4] = [
        Layout::InTurn,
        Layout::Grouped,
        Layout::Shuffled,
        Layout::CallsAlone,
    ];

    fn entries(asked: Asked) -> usize {
        let expected = Expected::of(asked).unwrap();
        assert!(expected.told.is_ok());
        expected.entries
    }

    fn read(text: &[u8]) -> usize {
        entries(Asked::Text(text))
    }

    fn gathered(bundle: &[u8]) -> usize {
        entries(Asked::Bundle(Mode::Checked, bundle))
    }

    fn with(text: &[u8], tag: &str) -> usize {
        let text = std::str::from_utf8(text).unwrap();
        text.lines().filter(|line| line.starts_with(tag)).count()
    }

    #[test]
    fn functions_have_an_entry_each() {
        let mut rng = Rng::new(1);
        for layout in LAYOUTS {
            let text = functions(&mut rng, Names::Mangled, layout, 100);
            assert_eq!(read(&text), 1 + 100, "{layout:?}");
            let starts = if layout == Layout::CallsAlone { 0 } else { 100 };
            assert_eq!((with(&text, "FN:"), with(&text, "FNDA:")), (starts, 100));
        }
        let random = called_at_random(&mut rng, Names::Mangled, 100, 300);
        assert_eq!(read(&random), 1 + 100);
        assert_eq!((with(&random, "FN:"), with(&random, "FNDA:")), (100, 300));
        let bundle = same_functions(&mut rng, Names::Mangled, 5, 100);
        assert_eq!(gathered(&bundle), 1 + 100);
    }

    #[test]
    fn the_layouts_differ_in_their_order_alone() {
        let tags = |layout| {
            let text = functions(&mut Rng::new(1), Names::Plain, layout, 2);
            let text = String::from_utf8(text).unwrap();
            let tags = text.lines().map(|line| line.split(':').next().unwrap());
            tags.skip(2).take(4).collect::<Vec<_>>().join(" ")
        };
        assert_eq!(tags(Layout::InTurn), "FN FNDA FN FNDA");
        assert_eq!(tags(Layout::Grouped), "FN FN FNDA FNDA");
        assert_eq!(tags(Layout::Shuffled), "FN FN FNDA FNDA");
    }

    #[test]
    fn branches_have_an_entry_each() {
        let mut rng = Rng::new(1);
        for order in [Order::Ascending, Order::Shuffled] {
            let text = branches(&mut rng, order, 400);
            assert_eq!((read(&text), with(&text, "BRDA:")), (1 + 400, 400));
        }
    }

    #[test]
    fn a_line_that_comes_again_has_one_entry() {
        let mut rng = Rng::new(1);
        let again = repeated_lines(&mut rng, 10, 1000, false);
        assert_eq!((read(&again), with(&again, "DA:")), (1 + 10, 1000));
        let after = repeated_lines(&mut rng, 100, 50, true);
        assert_eq!((read(&after), with(&after, "DA:")), (1 + 100, 150));
        let mixed = lines_and_calls(&mut rng, Names::Mangled, 500, 7);
        assert_eq!((read(&mixed), with(&mixed, "FNDA:")), (1 + 500 + 7, 500));
    }

    #[test]
    fn whole_sections_have_what_their_sizes_say() {
        let mut rng = Rng::new(1);
        let sizes = Sizes {
            functions: 3,
            branches: 4,
            lines: 8,
        };
        assert_eq!(gathered(&same_file(&mut rng, 5, sizes)), sizes.entries());
        let text = shuffled_files(&mut rng, 20, sizes);
        assert_eq!(read(&text), 20 * sizes.entries());
        assert_eq!((with(&text, "SF:"), with(&text, "BRDA:")), (20, 20 * 4));
    }
}
