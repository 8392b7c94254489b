//! Labs and quotas that every run asks: all short sequences of a few texts from a few labs, as many texts as there may be, every lab number, every number
//! of labs and quotas, and every change of a head, with two labs and with numbers that are no lab.

use super::{recorded, Question};
use crate::interface::{Quotas, LABS};
use crate::reports::bundles::{self, MAX_TEXTS};
use crate::reports::systematic::heads;

/// Two spellings of a path, a start that differs, bytes that are no text, and one that a reading refuses.
const TEXTS: [&[u8]; 5] = [
    b"SF:a//b\nFN:1,f\nDA:1,1,c\nend_of_record\n",
    b"SF:a/b\nFN:1,9,f\nDA:1,2\nend_of_record\n",
    b"SF:a/b\nFN:2,f\nend_of_record\n",
    b"TN:\xff\nSF:c\nDA:1,1\nend_of_record\n",
    b"SF:a/b\nDA:1\n",
];

/// The labs of the sequences, and their quotas: of all, of some, and of one entry more, fewer or as many as a text has.
const OF_SEQUENCES: [u8; 3] = [1, 2, 8];
const QUOTAS: [[u32; 3]; 4] = [[9, 9, 9], [3, 9, 2], [2, 3, 4], [0, 0, u32::MAX]];

/// How long the sequences are at most.
const LONGEST: usize = 3;

pub fn questions(visit: &mut dyn FnMut(Quotas)) {
    for (_, recorded) in recorded::all() {
        visit(recorded.question.asked());
    }
    sequences(&mut Vec::new(), visit);
    for texts in [MAX_TEXTS, MAX_TEXTS + 1] {
        many(texts, visit);
    }
    lab_numbers(visit);
    let bundle = bundles::of(&TEXTS[..2]);
    for labs in [&[1, 2], &[9, 0]] {
        let quotas = &[9; LABS];
        heads(&bundle, bundles::head_len(2), &mut |bundle| {
            visit(Quotas {
                bundle,
                labs,
                quotas,
            })
        });
    }
}

fn sequences(begun: &mut Vec<(u8, &[u8])>, visit: &mut dyn FnMut(Quotas)) {
    let texts: Vec<&[u8]> = begun.iter().map(|&(_, text)| text).collect();
    let mut question = Question {
        bundle: bundles::of(&texts),
        labs: begun.iter().map(|&(lab, _)| lab).collect(),
        quotas: vec![0; LABS],
    };
    for quotas in QUOTAS {
        for (lab, quota) in OF_SEQUENCES.into_iter().zip(quotas) {
            question.quotas[usize::from(lab) - 1] = quota;
        }
        visit(question.asked());
    }
    if begun.len() == LONGEST {
        return;
    }
    for text in TEXTS {
        for lab in OF_SEQUENCES {
            begun.push((lab, text));
            sequences(begun, visit);
            begun.pop();
        }
    }
}

/// So many texts of the labs in turn, of one lab, and of labs one after another; each text has a section that few others have.
fn many(texts: usize, visit: &mut dyn FnMut(Quotas)) {
    let text = |number: usize| format!("SF:s{}\nDA:{number},1\nend_of_record\n", number % 20);
    let bundle = bundles::of(&(0..texts).map(text).collect::<Vec<_>>());
    let orders: [fn(usize) -> usize; 3] = [|text| text % LABS, |_| 4, |text| text / 9];
    for order in orders {
        let labs: Vec<u8> = (0..texts).map(|text| 1 + order(text) as u8).collect();
        for quota in [15, 16, u32::MAX] {
            visit(Quotas {
                bundle: &bundle,
                labs: &labs,
                quotas: &[quota; LABS],
            });
        }
    }
}

/// Every lab number of a text, and every number of labs and quotas about those that there must be.
fn lab_numbers(visit: &mut dyn FnMut(Quotas)) {
    let bundle = &bundles::of(&TEXTS[..2]);
    let quotas = &[9; LABS + 2];
    for lab in 0..=u8::MAX {
        for labs in [[lab, 1], [1, lab]] {
            visit(Quotas {
                bundle,
                labs: &labs,
                quotas: &quotas[..LABS],
            });
        }
    }
    for labs in 0..5 {
        for quotas in (0..=LABS + 2).map(|many| &quotas[..many]) {
            visit(Quotas {
                bundle,
                labs: &[1; 5][..labs],
                quotas,
            });
        }
    }
}
