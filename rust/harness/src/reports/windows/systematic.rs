//! Windows that every run asks: over all short sequences of a few texts, over few and many texts with every width, and with every change of a
//! head and every length of a bundle.

use super::recorded;
use crate::reports::bundles::{self, MAX_TEXTS};
use crate::reports::systematic::heads;
use lcov_sys::MAX_WIDTH;

/// Each meets some of the others: in a path spelled otherwise, an end line, a start or checksum that differs, bytes that are no text, or a fault.
const TEXTS: [&[u8]; 6] = [
    b"SF:a//b\nFN:1,f\nDA:1,1,c\nDA:2,0\nend_of_record\n",
    b"SF:a/b\nFN:1,9,f\nDA:1,2\nDA:3,0\nend_of_record\n",
    b"SF:a/b\nFN:2,f\nDA:2,1\nend_of_record\n",
    b"SF:a/b\nDA:1,0,d\nend_of_record\n",
    b"TN:\xff\nSF:c\nDA:1,1\nend_of_record\n",
    b"SF:a/b\nDA:1\n",
];

/// How long the sequences are at most, and so how wide a window of them is.
const LONGEST: usize = 4;

/// The recorded bundles that are asked with every width have fewer bytes.
const SMALL: usize = 1000;

pub fn windows(visit: &mut dyn FnMut(u32, &[u8])) {
    for recorded::Recorded { asked, .. } in recorded::all() {
        match asked.bundle.len() < SMALL {
            true => with_every_width(&asked.bundle, visit),
            false => visit(asked.width, &asked.bundle),
        }
    }
    sequences(&mut Vec::new(), visit);
    for texts in [MAX_WIDTH as usize + 2, MAX_TEXTS, MAX_TEXTS + 1] {
        with_every_width(&moving(texts), visit);
    }
    let bundle = bundles::of(&TEXTS[..2]);
    for width in [0, 1, 2, MAX_WIDTH + 1] {
        heads(&bundle, bundles::head_len(2), &mut |bundle| {
            visit(width, bundle)
        });
    }
}

fn with_every_width(bundle: &[u8], visit: &mut dyn FnMut(u32, &[u8])) {
    for width in (0..=MAX_WIDTH + 2).chain([u32::MAX]) {
        visit(width, bundle);
    }
}

fn sequences(begun: &mut Vec<&[u8]>, visit: &mut dyn FnMut(u32, &[u8])) {
    for width in 1..=begun.len().max(1) {
        visit(width as u32, &bundles::of(begun));
    }
    if begun.len() == LONGEST {
        return;
    }
    for text in TEXTS {
        begun.push(text);
        sequences(begun, visit);
        begun.pop();
    }
}

/// So many texts, each with a few lines that the next ones have too, in few sections; some lines are hit in some texts alone.
fn moving(texts: usize) -> Vec<u8> {
    let text = |number: usize| {
        let line = |line| format!("DA:{line},{}\n", (line + number) % 7 / 6);
        let lines: String = (number..number + 3 + number % 2).map(line).collect();
        format!("SF:s{}\n{lines}end_of_record\n", number % 3)
    };
    bundles::of(&(0..texts).map(text).collect::<Vec<_>>())
}
