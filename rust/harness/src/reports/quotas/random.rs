//! Random labs and quotas: bundles of a few labs, of which some are refused, and quotas near the entries that the labs have.

use super::{marks, Question, REFUSED};
use crate::interface::LABS;
use crate::reports::bundles;
use crate::reports::random::{self, Habit};
use crate::reports::windows;
use crate::reports::workloads::shuffle;
use crate::Rng;

const MOST_LABS: usize = 4;

pub fn question(rng: &mut Rng) -> Question {
    let bundle = windows::random::bundle(rng);
    let texts = bundles::decoded(&bundle).map(|texts| texts.len());
    let texts = texts.unwrap_or_else(|| rng.below(MOST_LABS));
    let labs = labs(rng, texts);
    let mut question = Question {
        bundle,
        labs,
        quotas: vec![u32::MAX; LABS],
    };
    question.quotas = quotas(rng, &question);
    if rng.one_in(16) {
        damage(rng, &mut question);
    }
    question
}

fn lab(rng: &mut Rng) -> u8 {
    1 + rng.below(LABS) as u8
}

/// Of few labs.
fn labs(rng: &mut Rng, texts: usize) -> Vec<u8> {
    let few: Vec<u8> = (0..1 + rng.below(MOST_LABS)).map(|_| lab(rng)).collect();
    (0..texts).map(|_| rng.pick(&few)).collect()
}

/// Most are ample; the others are beside the entries that the lab has, or any.
fn quotas(rng: &mut Rng, question: &Question) -> Vec<u32> {
    let texts = bundles::decoded(&question.bundle).unwrap_or_default();
    let is_text = texts.iter().all(|text| std::str::from_utf8(text).is_ok());
    let marks = is_text.then(|| marks(question.asked(), usize::MAX));
    let marks = marks.and_then(Result::ok);
    let entries = |lab: usize| match marks.as_ref().map(|marks| marks[lab]) {
        Some([REFUSED, ..]) | None => 0,
        Some([_, entries, ..]) => entries as u32,
    };
    let mut quota = |lab| match rng.below(12) {
        0 | 1 => entries(lab).saturating_sub(1),
        2 | 3 => entries(lab),
        4 => 0,
        5 => rng.number() as u32,
        _ => u32::MAX,
    };
    (0..LABS).map(&mut quota).collect()
}

/// A lab number is none, or there is one too many or too few of them, or of the quotas.
fn damage(rng: &mut Rng, question: &mut Question) {
    let Question { labs, quotas, .. } = question;
    match rng.below(5) {
        0 => labs.push(lab(rng)),
        1 => drop(labs.pop()),
        2 => quotas.truncate(rng.below(LABS)),
        3 => quotas.push(9),
        _ => {
            let place = rng.below(labs.len().max(1));
            if let Some(lab) = labs.get_mut(place) {
                *lab = rng.pick(&[0, LABS as u8 + 1, 128, 255]);
            }
        }
    }
}

// ---- pairs of questions

/// Each text with its lab.
type Sent = (u8, Vec<u8>);

/// None where the bundle is not well formed, or some text has no lab.
fn sent(question: &Question) -> Option<Vec<Sent>> {
    super::labs(question.asked()).ok()?;
    let texts = bundles::decoded(&question.bundle)?;
    let labs = question.labs.iter().copied();
    Some(labs.zip(texts.into_iter().map(<[u8]>::to_vec)).collect())
}

fn with(sent: &[Sent], quotas: Vec<u32>) -> Question {
    let texts: Vec<&[u8]> = sent.iter().map(|(_, text)| &text[..]).collect();
    Question {
        bundle: bundles::of(&texts),
        labs: sent.iter().map(|&(lab, _)| lab).collect(),
        quotas,
    }
}

/// The same texts in another order, each with its lab number.
pub fn shuffled(rng: &mut Rng, question: &Question) -> Option<Question> {
    let mut sent = sent(question)?;
    shuffle(rng, &mut sent);
    Some(with(&sent, question.quotas.clone()))
}

/// A lab, and a question in which its texts and its quota are the same: of the others some texts are gone, some are other ones, and some are new, and some
/// quotas are others.
pub fn others_changed(rng: &mut Rng, question: &Question) -> Option<(usize, Question)> {
    let sent = sent(question)?;
    let kept = match question.labs.is_empty() {
        true => lab(rng),
        false => rng.pick(&question.labs),
    };
    let (mut changed, mut free) = (Vec::new(), bundles::MAX_TEXTS - sent.len());
    for (lab, text) in sent {
        if lab == kept {
            changed.push((lab, text));
        } else if !rng.one_in(3) {
            changed.push((lab, other_text(rng, text)));
        }
        if free > 0 && rng.one_in(3) {
            let new = 1 + (usize::from(kept) + rng.below(LABS - 1)) % LABS;
            changed.push((new as u8, other_text(rng, Vec::new())));
            free -= 1;
        }
    }
    let mut quotas = question.quotas.clone();
    for (lab, quota) in (1..).zip(&mut quotas) {
        if lab != kept && rng.one_in(2) {
            *quota = rng.below(9) as u32;
        }
    }
    Some((kept.into(), with(&changed, quotas)))
}

fn other_text(rng: &mut Rng, text: Vec<u8>) -> Vec<u8> {
    match rng.below(4) {
        0 => text,
        1 => b"x\n".to_vec(),
        _ => {
            let habit = Habit::random(rng);
            random::text(rng, habit)
        }
    }
}

#[cfg(test)]
mod tests {
    use super::*;
    use crate::reports::expected::{Expected, NOT_WELL_FORMED};
    use crate::reports::quotas::{ABOVE_QUOTA, LET_IN, MALFORMED_LABS};
    use crate::reports::Asked;
    use std::collections::HashMap;

    #[test]
    fn labs_are_let_in_and_left_out() {
        oracle::hush_overflow();
        let mut rng = Rng::new(5);
        let (mut numbers, mut states) = (HashMap::new(), HashMap::new());
        for _ in 0..4_000 {
            let question = question(&mut rng);
            let Some(expected) = Expected::of(Asked::Quotas(question.asked())) else {
                continue;
            };
            let number = expected.told.map_or_else(|refusal| refusal.number, |_| 0);
            *numbers.entry(number).or_insert(0) += 1;
            for lab in &question.labs {
                let state = expected.marks.get(5 * (usize::from(*lab).max(1) - 1));
                *states.entry(state.copied()).or_insert(0) += 1;
            }
        }
        for number in [0, 11, 12, 13, NOT_WELL_FORMED, MALFORMED_LABS] {
            assert!(numbers[&number] > 20, "{number}: {numbers:?}");
        }
        for state in [LET_IN, ABOVE_QUOTA, REFUSED] {
            assert!(states[&Some(state)] > 500, "{state}: {states:?}");
        }
    }

    #[test]
    fn a_pair_of_questions_has_the_texts_of_a_lab() {
        let mut rng = Rng::new(5);
        let (mut pairs, mut changed) = (0, 0);
        for _ in 0..500 {
            let one = question(&mut rng);
            let Some((lab, other)) = others_changed(&mut rng, &one) else {
                continue;
            };
            let own = |question: &Question| {
                let sent = sent(question).unwrap();
                let own = sent.into_iter().filter(|sent| usize::from(sent.0) == lab);
                (own.collect::<Vec<_>>(), question.quotas[lab - 1])
            };
            assert_eq!(own(&one), own(&other));
            pairs += 1;
            changed += u32::from(one.bundle != other.bundle);
        }
        assert!(pairs > 300 && changed > 200, "{pairs} {changed}");
    }
}
