//! Texts and bundles for the measure of speed.

pub mod geninfo;
pub mod names;
pub mod real;

use super::bundles;
use crate::Rng;

/// In which order a text gives its keys.
#[derive(Debug, Clone, Copy, PartialEq, Eq)]
pub enum Order {
    Ascending,
    Descending,
    Shuffled,
}

pub const ORDERS: [Order; 3] = [Order::Ascending, Order::Descending, Order::Shuffled];

impl Order {
    pub fn name(self) -> &'static str {
        match self {
            Order::Ascending => "ascending",
            Order::Descending => "descending",
            Order::Shuffled => "shuffled",
        }
    }

    /// The numbers from 1 to `many` in this order.
    fn numbers(self, rng: &mut Rng, many: usize) -> Vec<usize> {
        let mut numbers: Vec<usize> = (1..=many).collect();
        match self {
            Order::Ascending => {}
            Order::Descending => numbers.reverse(),
            Order::Shuffled => shuffle(rng, &mut numbers),
        }
        numbers
    }
}

pub(super) fn shuffle<T>(rng: &mut Rng, items: &mut [T]) {
    for last in (1..items.len()).rev() {
        items.swap(last, rng.below(last + 1));
    }
}

/// Lines of a file: the most entries for the fewest bytes.
const LINES_OF_A_FILE: usize = 3;

/// One file; so many entries with the section's own.
pub fn one_file(rng: &mut Rng, order: Order, entries: usize) -> Vec<u8> {
    let numbers = order.numbers(rng, entries - 1);
    section("decoder/lattice.cc", numbers.into_iter()).into_bytes()
}

/// Files of a section and three lines each, the files in this order.
pub fn many_files(rng: &mut Rng, order: Order, entries: usize) -> Vec<u8> {
    let files = entries / (1 + LINES_OF_A_FILE);
    let numbers = order.numbers(rng, files);
    let sections = numbers.into_iter().map(|file| {
        let path = format!("decoder/part{file:06}.cc");
        section(&path, 1..=LINES_OF_A_FILE)
    });
    sections.collect::<String>().into_bytes()
}

/// The same files twice, in two orders: first with three lines each, then with so many. Half of the lines are replaced.
pub fn replaced(rng: &mut Rng, entries: usize, lines: usize) -> Vec<u8> {
    let mut text = String::new();
    for lines in [LINES_OF_A_FILE, lines] {
        text.push_str(&shuffled_files(rng, entries, |_| lines));
    }
    text.into_bytes()
}

/// The same files so many times, each time in another order and with one to five lines: most replace a section of another size.
pub fn replaced_often(rng: &mut Rng, entries: usize, times: usize) -> Vec<u8> {
    let mut text = String::new();
    for _ in 0..times {
        text.push_str(&shuffled_files(rng, entries, |rng| {
            1 + rng.below(2 * LINES_OF_A_FILE - 1)
        }));
    }
    text.into_bytes()
}

/// As many files as have so many entries at three lines each, in a shuffled order, with so many lines each.
fn shuffled_files(rng: &mut Rng, entries: usize, lines: impl Fn(&mut Rng) -> usize) -> String {
    let files = entries / (1 + LINES_OF_A_FILE);
    let numbers = Order::Shuffled.numbers(rng, files);
    let sections = numbers.into_iter().map(|file| {
        let lines = lines(rng);
        section(&format!("decoder/part{file:06}.cc"), 1..=lines)
    });
    sections.collect()
}

fn section(path: &str, lines: impl Iterator<Item = usize>) -> String {
    let mut text = format!("TN:utterances\nSF:{path}\n");
    for line in lines {
        text.push_str(&format!("DA:{line},{}\n", line % 1000));
    }
    text.push_str("end_of_record\n");
    text
}

/// Files of ten functions with a start and a count, and thirty lines, the files in this order; a little fewer than so many entries.
pub fn functions(rng: &mut Rng, order: Order, entries: usize) -> Vec<u8> {
    let numbers = order.numbers(rng, entries / 41);
    let mut text = String::new();
    for file in numbers {
        text.push_str(&format!("TN:utterances\nSF:decoder/part{file:06}.cc\n"));
        for function in 0..10 {
            text.push_str(&format!(
                "FN:{},score_{function}\n",
                3 * function + file % 3
            ));
            text.push_str(&format!("FNDA:{file},score_{function}\n"));
        }
        for line in 1..=30 {
            text.push_str(&format!("DA:{line},{}\n", line * file % 1000));
        }
        text.push_str("end_of_record\n");
    }
    text.into_bytes()
}

/// One file of so many functions with a start and a count. `start` tells the start of each, from 1.
pub fn functions_starting(many: usize, start: impl Fn(usize) -> usize) -> Vec<u8> {
    let mut text = "TN:utterances\nSF:decoder/lattice.cc\n".to_owned();
    for function in 1..=many {
        text.push_str(&format!("FN:{},score_{function:06}\n", start(function)));
        text.push_str(&format!("FNDA:{function},score_{function:06}\n"));
    }
    text.push_str("end_of_record\n");
    text.into_bytes()
}

/// So many texts of so many entries each, all with the same keys.
pub fn same_keys(texts: usize, entries: usize) -> Vec<u8> {
    let text = section("decoder/lattice.cc", 1..entries);
    bundles::of(&vec![text; texts])
}

/// So many texts of so many entries each, no key in two of them.
pub fn no_shared_keys(texts: usize, entries: usize) -> Vec<u8> {
    let texts: Vec<String> = (0..texts)
        .map(|text| section(&format!("decoder/part{text:06}.cc"), 1..entries))
        .collect();
    bundles::of(&texts)
}

/// So many texts of so many entries each, whose lines take turns in one file.
pub fn interleaved(texts: usize, entries: usize) -> Vec<u8> {
    let lines = |text: usize| (1..entries).map(move |line| line * texts + text);
    let texts: Vec<String> = (0..texts)
        .map(|text| section("decoder/lattice.cc", lines(text)))
        .collect();
    bundles::of(&texts)
}

/// So many texts of so many entries each, in files of three lines, the same files in each text.
pub fn same_files(texts: usize, entries: usize) -> Vec<u8> {
    let text = many_files(&mut Rng::new(1), Order::Ascending, entries);
    bundles::of(&vec![text; texts])
}

/// The texts that fill a bundle of so many bytes: 250 entries, the same in each text.
pub fn filled(bytes: usize) -> Vec<u8> {
    const TEXTS: usize = 20;
    let text = section("decoder/lattice.cc", 1..250);
    let bundle = bundles::of(&vec![text; TEXTS]);
    assert!(bundle.len() <= bytes);
    bundle
}

#[cfg(test)]
mod tests {
    use super::*;
    use crate::reports::expected::Expected;
    use crate::reports::Asked;
    use oracle::Mode;

    fn entries(asked: Asked) -> usize {
        let expected = Expected::of(asked).unwrap();
        assert!(expected.told.is_ok());
        expected.entries
    }

    #[test]
    fn the_texts_have_so_many_entries() {
        for order in ORDERS {
            let mut rng = Rng::new(1);
            let one = one_file(&mut rng, order, 1000);
            assert_eq!(entries(Asked::Text(&one)), 1000);
            let many = many_files(&mut rng, order, 1000);
            assert_eq!(entries(Asked::Text(&many)), 1000);
        }
        // what is replaced is kept while the other section is open
        let twice = |lines| replaced(&mut Rng::new(1), 1000, lines);
        assert_eq!(entries(Asked::Text(&twice(3))), 1000 + 4);
        assert_eq!(entries(Asked::Text(&twice(2))), 1000 + 3);
        assert_eq!(entries(Asked::Text(&twice(4))), 1250 + 5 - 1);
        let often = replaced_often(&mut Rng::new(1), 1000, 4);
        let sections = often.windows(3).filter(|tag| tag == b"SF:").count();
        assert_eq!(sections, 4 * 250);
        let functions = functions(&mut Rng::new(1), Order::Ascending, 1000);
        assert_eq!(entries(Asked::Text(&functions)), 1000 / 41 * 41);
        let one_start = functions_starting(1000, |_| 4);
        assert_eq!(entries(Asked::Text(&one_start)), 1001);
        let bundled = |bundle: &[u8]| entries(Asked::Bundle(Mode::Checked, bundle));
        assert_eq!(bundled(&same_keys(5, 100)), 100);
        assert_eq!(bundled(&no_shared_keys(5, 100)), 500);
        assert_eq!(bundled(&interleaved(5, 100)), 1 + 5 * 99);
        assert_eq!(bundled(&same_files(5, 100)), 100);
        assert_eq!(bundled(&filled(65_536)), 250);
    }
}
