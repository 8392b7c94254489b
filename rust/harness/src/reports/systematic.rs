//! Bundles and texts that every run asks: all short sequences of a few texts, the limits on texts, entries and counts, and sections that come
//! again; and filters of all sections of a few functions.

use super::bundles::{self, MAX_TEXTS};
use super::workloads;
use crate::ranges::List;
use crate::Rng;

/// Each meets some of the others: in a path spelled otherwise, a start, end or checksum given or not, a sum near 2^64, or a fault.
const TEXTS: [&str; 18] = [
    "",
    "TN:a\n",
    "TN:a\nSF:a//b\nFN:3,f\nFNDA:2,f\nDA:3,2,c1\nDA:4,0\nend_of_record\n",
    "TN:a\nSF:a/./b\nFNDA:5,f\nFNDA:1,g\nDA:3,1\nBRDA:3,0,0,-\nend_of_record\n",
    "TN:a\nSF:a/b\nFN:4,f\nDA:3,1,c1\nend_of_record\n",
    "TN:a\nSF:a/b\nFN:3,f\nDA:3,1,c2\nBRDA:3,0,0,4\nend_of_record\n",
    "TN:a\nSF:a/b\nDA:3,18446744073709551613\nFNDA:18446744073709551615,f\nend_of_record\n",
    "TN:a\nSF:a/b\nBRDA:3,0,0,18446744073709551612\nend_of_record\n",
    "SF:b\nDA:1,1\nend_of_record\nSF:./b\nDA:1,1\nend_of_record\nSF:b\nDA:2,2\nend_of_record\nTN:z",
    "SF:a-b\nDA:1,1\nend_of_record\nSF:a/b\nDA:1,1\nend_of_record\nSF:c\nend_of_record\n",
    "TN:a\nSF:\nDA:1,1\nSF:a/b\nend_of_record\n",
    "TN:a\nSF:a/b\nFN:1,+g\nBRDA:3,0,0,+4\nend_of_record\n",
    "DA:1,1\nTN:a\n",
    "DA:1,1\n",
    "TN:a\nSF:a/b\nFN:3,9,f\nFN:4,5,g\nFNDA:1,g\nend_of_record\n",
    "TN:a\nSF:a/b\nFN:3,5,f\nFN:4,5,6,f\nend_of_record\n",
    "TN:a\nSF:a/b\nFN:3,3,f\nFN:3,f\nend_of_record\n",
    "TN:a\nSF:a/b\nFN:3,2,f\nend_of_record\n",
];

/// How long the sequences are at most.
const LONGEST: usize = 3;

pub fn bundles(visit: &mut dyn FnMut(&[u8])) {
    sequences(&mut Vec::new(), visit);
    for texts in [MAX_TEXTS, MAX_TEXTS + 1] {
        visit(&bundles::of(&vec![TEXTS[2]; texts]));
        visit(&bundles::of(&vec![TEXTS[0]; texts]));
    }
    let bundle = bundles::of(&[TEXTS[2], TEXTS[1], TEXTS[3]]);
    heads(&bundle, bundles::head_len(3), visit);
}

fn sequences(begun: &mut Vec<&'static str>, visit: &mut dyn FnMut(&[u8])) {
    visit(&bundles::of(begun));
    if begun.len() == LONGEST {
        return;
    }
    for text in TEXTS {
        begun.push(text);
        sequences(begun, visit);
        begun.pop();
    }
}

/// Every byte of a head changed, every length of a bundle, and large numbers in the head.
pub(super) fn heads(bundle: &[u8], head_len: usize, visit: &mut dyn FnMut(&[u8])) {
    for place in 0..head_len {
        for step in [1, 128, 255u8] {
            let mut changed = bundle.to_vec();
            changed[place] = changed[place].wrapping_add(step);
            visit(&changed);
        }
    }
    for len in 0..bundle.len() {
        visit(&bundle[..len]);
    }
    for number in [u32::MAX, 1 << 31, 65] {
        for place in (0..head_len).step_by(4) {
            let mut changed = bundle.to_vec();
            changed[place..place + 4].copy_from_slice(&number.to_le_bytes());
            visit(&changed);
        }
    }
}

/// Bundles of texts with about as many entries as the gather with scratch inside allows.
pub fn near_the_inner_limit(limit: usize, visit: &mut dyn FnMut(&[u8])) {
    for entries in limit - 2..limit + 3 {
        for text in [ascending(entries), descending(entries)] {
            visit(&bundles::of(&[&text[..]]));
            visit(&bundles::of(&[TEXTS[4].as_bytes(), &text]));
            visit(&bundles::of(&[&text[..], TEXTS[2].as_bytes()]));
        }
    }
}

/// Texts whose files come again and again, with other numbers of lines: few files many times, and so many files that sections that come
/// out of order are settled together more than once.
pub fn replaced(seed: u64, visit: &mut dyn FnMut(&[u8])) {
    let mut rng = Rng::new(seed);
    for (entries, times) in [(8, 400), (40, 80), (400, 20), (8_000, 6)] {
        visit(&workloads::replaced_often(&mut rng, entries, times));
        for lines in 1..=6 {
            visit(&workloads::replaced(&mut rng, entries, lines));
        }
    }
}

/// What is said of a function, without its name: nothing of its start, starts at both ends, and equal ones with an end line and without.
const FUNCTIONS: [&str; 8] = [
    "FNDA:1,",
    "FN:0,",
    "FN:3,",
    "FN:3,3,",
    "FN:3,6,",
    "FN:7,",
    "FN:4294967294,",
    "FN:4294967295,",
];

const NAMES: [&str; 4] = ["a", "b", "c", "d"];

/// The ranges of each list.
const KEPT: [&[[u32; 2]]; 11] = [
    &[],
    &[[0, 0]],
    &[[2, 2]],
    &[[3, 3]],
    &[[6, 6]],
    &[[7, 7]],
    &[[2, 3]],
    &[[6, 7]],
    &[[0, 0], [4, 5], [8, 8]],
    &[[u32::MAX - 1, u32::MAX - 1]],
    &[[u32::MAX, u32::MAX]],
];

/// Each section of up to four functions of these, and one of five hundred on each of a few lines, with each list.
pub fn starts(visit: &mut dyn FnMut(&[u8], &List)) {
    let lists = KEPT.map(|ranges| List {
        pairs: ranges.to_vec(),
        used: ranges.len(),
    });
    let mut with_each = |text: &[u8]| {
        for list in &lists {
            visit(text, list);
        }
    };
    sections_of(&mut Vec::new(), &mut with_each);
    let crowds = workloads::functions_starting(2_500, |function| 2 * (function / 500));
    with_each(&crowds);
}

fn sections_of(begun: &mut Vec<String>, visit: &mut dyn FnMut(&[u8])) {
    let lines = begun.concat();
    visit(format!("SF:a\n{lines}DA:3,1\nend_of_record\n").as_bytes());
    let Some(name) = NAMES.get(begun.len()) else {
        return;
    };
    for function in FUNCTIONS {
        begun.push(format!("{function}{name}\n"));
        sections_of(begun, visit);
        begun.pop();
    }
}

/// A text of so many entries, its lines in order.
pub fn ascending(entries: usize) -> Vec<u8> {
    one_section(1..entries)
}

fn descending(entries: usize) -> Vec<u8> {
    one_section((1..entries).rev())
}

fn one_section(lines: impl Iterator<Item = usize>) -> Vec<u8> {
    let mut text = b"SF:a\n".to_vec();
    for line in lines {
        text.extend_from_slice(format!("DA:{line},1\n").as_bytes());
    }
    text.extend_from_slice(b"end_of_record\n");
    text
}
