//! Bundles with revisions that every run asks: all short sequences of runs and revisions, the limits on texts, every change of a head, and
//! every length of a bundle.

use super::recorded;
use crate::reports::bundles::{self, Sent, MAX_TEXTS};
use crate::reports::systematic::{ascending, heads};

/// Run and revision of each text of the sequences.
const PAIRS: [(u32, u32); 5] = [(1, 1), (1, 2), (2, 1), (2, 7), (7, 2)];

/// How long the sequences are at most.
const LONGEST: usize = 4;

/// Two spellings of a path, bytes that are no text, and one that a reading refuses.
const TEXTS: [&[u8]; LONGEST] = [
    b"SF:a//b\nFN:1,f\nDA:1,1,c\nend_of_record\n",
    b"SF:a/b\nFN:1,f\nDA:1,2\nend_of_record\n",
    b"\xff\n",
    b"SF:a/b\nDA:1\n",
];

pub fn bundles(visit: &mut dyn FnMut(&[u8])) {
    recorded::all()
        .iter()
        .for_each(|recorded| visit(&recorded.bundle));
    sequences(&mut Vec::new(), visit);
    many(MAX_TEXTS, visit);
    many(MAX_TEXTS + 1, visit);
    let bundle = small();
    heads(&bundle, bundles::revisions_head_len(3), visit);
}

/// Each sequence of pairs with the texts in each turn.
fn sequences(begun: &mut Vec<(u32, u32)>, visit: &mut dyn FnMut(&[u8])) {
    for turn in 0..TEXTS.len() {
        let texts = TEXTS.iter().cycle().skip(turn);
        visit(&bundle(begun, texts));
    }
    if begun.len() == LONGEST {
        return;
    }
    for pair in PAIRS {
        begun.push(pair);
        sequences(begun, visit);
        begun.pop();
    }
}

fn bundle<'a>(pairs: &[(u32, u32)], texts: impl Iterator<Item = &'a &'a [u8]>) -> Vec<u8> {
    let sent = |(&(run, revision), &text)| Sent {
        run,
        revision,
        text,
    };
    bundles::of_revisions(&pairs.iter().zip(texts).map(sent).collect::<Vec<_>>())
}

/// So many texts of other runs, of one run, of half as many runs, and with the first pair in the last text too.
fn many(texts: usize, visit: &mut dyn FnMut(&[u8])) {
    let numbers = || 0..texts as u32;
    let half = texts as u32 / 2;
    for pairs in [
        numbers().map(|number| (number, 7)).collect::<Vec<_>>(),
        numbers().map(|number| (7, number)).collect(),
        numbers().map(|number| (number % half, number)).collect(),
        numbers()
            .map(|number| (number % (2 * half - 1), 7))
            .collect(),
    ] {
        let text = TEXTS[0];
        visit(&bundle(&pairs, std::iter::repeat(&text)));
    }
}

/// Two texts that are chosen, and between them one with more entries than both.
fn small() -> Vec<u8> {
    let long = ascending(20);
    let texts: [&[u8]; 3] = [TEXTS[0], &long, TEXTS[1]];
    bundle(&[(1, 2), (1, 1), (2, 1)], texts.iter())
}
