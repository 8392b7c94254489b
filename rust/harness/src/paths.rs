//! Spellings of paths, of which all pairs are compared.

use crate::lines::exhaustive::each_string;
use crate::Rng;
use std::collections::HashSet;

/// How many spellings there are.
const SPELLINGS: usize = 2_500;

/// What decides about components: '/' and '.', a name's byte, and one that sorts before '/'.
const DECISIVE: &[u8] = b"/.a-";

#[rustfmt::skip]
const COMPONENTS: [&[u8]; 22] = [
    b"a", b"b", b"ab", b"a-b", b"a.b", b"a b", b"a,b", b"A", b".a", b"a.", b".", b"..", b"...", b"", b"~", b"\n",
    b"src", b"main.c", "é".as_bytes(), "名".as_bytes(), b"\x80", b"\xff",
];

const BEGINNINGS: [&[u8]; 8] = [
    b"",
    b"",
    b"/",
    b"//",
    b"./",
    b"/./",
    b"../",
    b"/home/lab/recogniser/",
];
const BETWEEN: [&[u8]; 4] = [b"/", b"/", b"//", b"/./"];
const ENDS: [&[u8]; 4] = [b"", b"", b"/", b"/."];

/// Every short spelling over few bytes, then longer random ones, each once.
pub fn spellings(rng: &mut Rng) -> Vec<Vec<u8>> {
    let mut listed = Vec::new();
    each_string("", DECISIVE, 5, &mut |path| listed.push(path.to_vec()));
    let mut met: HashSet<Vec<u8>> = listed.iter().cloned().collect();
    while listed.len() < SPELLINGS {
        let path = random(rng, &listed);
        if met.insert(path.clone()) {
            listed.push(path);
        }
    }
    listed
}

/// Half of them are an earlier one spelled otherwise, so that many pairs are equal or differ late.
fn random(rng: &mut Rng, listed: &[Vec<u8>]) -> Vec<u8> {
    if rng.one_in(2) {
        let earlier = &listed[rng.below(listed.len())];
        respelled(rng, earlier)
    } else {
        made(rng)
    }
}

fn made(rng: &mut Rng) -> Vec<u8> {
    let mut path = rng.pick(&BEGINNINGS).to_vec();
    for _ in 0..rng.below(5) {
        path.extend_from_slice(rng.pick(&COMPONENTS));
        path.extend_from_slice(rng.pick(&BETWEEN));
    }
    path.extend_from_slice(rng.pick(&COMPONENTS));
    path.extend_from_slice(rng.pick(&ENDS));
    path
}

fn respelled(rng: &mut Rng, path: &[u8]) -> Vec<u8> {
    let mut spelled = Vec::new();
    for &byte in path {
        if byte == b'/' {
            spelled.extend_from_slice(rng.pick(&BETWEEN));
        } else {
            spelled.push(byte);
        }
    }
    spelled.extend_from_slice(rng.pick(&ENDS));
    spelled
}

#[cfg(test)]
mod tests {
    use super::*;
    use crate::expected::path_order;
    use crate::tally::Tally;

    #[test]
    fn spellings_are_distinct_and_many_are_equal_paths() {
        let listed = spellings(&mut Rng::new(1));
        assert_eq!(listed.iter().collect::<HashSet<_>>().len(), SPELLINGS);
        let mut tally = Tally::default();
        for (a, b) in listed.iter().zip(&listed[1..]) {
            tally.count_paths(path_order(a, b));
        }
        assert!(tally.paths.iter().all(|&count| count > 100), "{tally}");
        assert!(listed.iter().any(|path| std::str::from_utf8(path).is_err()));
    }
}
