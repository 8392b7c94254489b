//! Random bundles with revisions: texts that are gathered, among others with any fault that are not read.

use crate::reports::bundles::{self, Sent, MAX_TEXTS};
use crate::reports::random::{self, Habit};
use crate::reports::systematic::ascending;
use crate::Rng;

/// Numbers that lie beside each other, in one byte and in several.
const NUMBERS: [u32; 10] = [0, 1, 2, 7, 9, 255, 256, 65_536, u32::MAX - 1, u32::MAX];

const MOST_RUNS: usize = 4;
const MOST_REVISIONS: usize = 3;

pub fn bundle(rng: &mut Rng) -> Vec<u8> {
    let mut sent = match rng.below(40) {
        0 => many(rng),
        _ => runs(rng),
    };
    shuffle(rng, &mut sent);
    if !sent.is_empty() && rng.one_in(6) {
        repeat(rng, &mut sent);
    }
    let mut bundle = match rng.below(4) {
        0 => overlapping(rng, &sent),
        _ => bundles::of_revisions(&sent),
    };
    if rng.one_in(10) {
        damage(rng, &mut bundle, sent.len());
    }
    bundle
}

/// A bundle of three texts that are chosen and two that are not, each order of the first three with the others anywhere.
pub fn in_all_orders(rng: &mut Rng) -> Vec<Vec<u8>> {
    random::in_all_orders(rng)
        .iter()
        .map(|bundle| {
            let texts = bundles::decoded(bundle).expect("a bundle that was made");
            let chosen = texts.into_iter().zip(1..).map(|(text, run)| Sent {
                run,
                revision: 5,
                text: text.to_vec(),
            });
            let mut sent: Vec<Sent<Vec<u8>>> = chosen.collect();
            for revision in [2, 4] {
                let unread = Sent {
                    run: 2,
                    revision,
                    text: unread_text(rng, b""),
                };
                sent.insert(rng.below(sent.len() + 1), unread);
            }
            bundles::of_revisions(&sent)
        })
        .collect()
}

/// Of each run a text that can be gathered, nearly always, and lower revisions with anything in them.
fn runs(rng: &mut Rng) -> Vec<Sent<Vec<u8>>> {
    let mut sent = Vec::new();
    let runs = rng.below(MOST_RUNS + 1);
    for (run, text) in numbers(rng, runs).into_iter().zip(chosen_texts(rng)) {
        let many = 1 + rng.below(MOST_REVISIONS);
        let mut revisions = numbers(rng, many);
        revisions.sort_unstable();
        let revision = revisions.pop().expect("one at least");
        let unread = revisions.into_iter().map(|revision| Sent {
            run,
            revision,
            text: unread_text(rng, &text),
        });
        sent.extend(unread.collect::<Vec<_>>());
        sent.push(Sent {
            run,
            revision,
            text,
        });
    }
    sent
}

/// Up to so many, which differ.
fn numbers(rng: &mut Rng, most: usize) -> Vec<u32> {
    let mut numbers = Vec::new();
    for _ in 0..most {
        let number = match rng.below(3) {
            0 => rng.number() as u32,
            _ => rng.pick(&NUMBERS),
        };
        if !numbers.contains(&number) {
            numbers.push(number);
        }
    }
    numbers
}

/// Some that meet, or any, which may be refused.
fn chosen_texts(rng: &mut Rng) -> Vec<Vec<u8>> {
    if rng.one_in(4) {
        return random::texts(rng);
    }
    let meeting = random::meeting(rng);
    let texts = bundles::decoded(&meeting).expect("a bundle that was made");
    texts.into_iter().map(<[u8]>::to_vec).collect()
}

/// The beginning or all of the text that is chosen, one that may be refused, bytes that are no text, many entries, or nothing.
fn unread_text(rng: &mut Rng, chosen: &[u8]) -> Vec<u8> {
    match rng.below(6) {
        0 => chosen[..rng.below(chosen.len() + 1)].to_vec(),
        1 => chosen.to_vec(),
        2 => {
            let habit = Habit::random(rng);
            random::text(rng, habit)
        }
        3 => (0..rng.below(20)).map(|_| rng.byte()).collect(),
        4 => ascending(1 + rng.below(60)),
        _ => Vec::new(),
    }
}

/// About as many as a bundle may have.
fn many(rng: &mut Rng) -> Vec<Sent<Vec<u8>>> {
    let runs = 1 + rng.below(MAX_TEXTS);
    (0..MAX_TEXTS + 2 - rng.below(4))
        .map(|number| Sent {
            run: (number % runs) as u32,
            revision: number as u32,
            text: ascending(1 + rng.below(4)),
        })
        .collect()
}

fn shuffle<T>(rng: &mut Rng, sent: &mut [T]) {
    for last in (1..sent.len()).rev() {
        sent.swap(last, rng.below(last + 1));
    }
}

/// A text gets the run and revision of one, which may be the same text.
fn repeat<T>(rng: &mut Rng, sent: &mut [Sent<T>]) {
    let (from, to) = (rng.below(sent.len()), rng.below(sent.len()));
    (sent[to].run, sent[to].revision) = (sent[from].run, sent[from].revision);
}

/// Some texts are any stretch of the bytes, or pass their end by one.
fn overlapping(rng: &mut Rng, sent: &[Sent<Vec<u8>>]) -> Vec<u8> {
    let bytes: Vec<u8> = sent.iter().flat_map(|sent| sent.text.clone()).collect();
    let mut before = 0;
    let rows: Vec<[usize; 4]> = sent
        .iter()
        .map(|sent| {
            let (mut start, mut len) = (before, sent.text.len());
            before += len;
            if rng.one_in(3) {
                start = rng.below(bytes.len() + 1);
                let left = bytes.len() - start;
                len = match rng.one_in(30) {
                    true => left + 1,
                    false => rng.below(left + 1),
                };
            }
            [start, len, sent.run as usize, sent.revision as usize]
        })
        .collect();
    bundles::encoded_revisions(&bytes, &rows)
}

/// A byte of the head is another, or the bundle has another length.
fn damage(rng: &mut Rng, bundle: &mut Vec<u8>, texts: usize) {
    match rng.below(3) {
        0 => bundle.truncate(rng.below(bundle.len())),
        1 => bundle.push(rng.byte()),
        _ => {
            let place = rng.below(bundles::revisions_head_len(texts));
            bundle[place] = bundle[place].wrapping_add(rng.pick(&[1, 128, 255]));
        }
    }
}
