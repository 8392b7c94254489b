//! Words and bytes lent to the port. They are marked before the call, so that it is seen what was written and what was left alone.

use crate::expected::Answer;
use crate::interface::{Lent, NEEDED, OUTPUT_TOO_SHORT, WRITTEN};
use crate::Rng;

const MARK: u64 = 0xa5a5_a5a5_a5a5_a5a5;
const BYTE_MARK: u8 = 0xa5;

/// Words and bytes behind the lent slice, where a call that passes its end is seen.
const GUARD: usize = 2;

pub struct LentWords(Vec<u64>);

impl LentWords {
    pub fn new(lent: usize) -> Self {
        LentWords(vec![MARK; lent + GUARD])
    }

    pub fn lend(&mut self) -> &mut [u64] {
        let lent = self.0.len() - GUARD;
        &mut self.0[..lent]
    }

    /// Whether this is the answer, all other words untouched.
    pub fn holds(&self, number: u32, answer: &Answer) -> bool {
        number == answer.number && self.holds_words(&answer.words)
    }

    /// Whether these words were written where the slice holds them all, and no other.
    pub fn holds_words(&self, told: &[u64]) -> bool {
        let lent = self.0.len() - GUARD;
        let told = if lent < told.len() { &[] } else { told };
        let (words, untouched) = self.0.split_at(told.len());
        words == told && untouched.iter().all(|&word| word == MARK)
    }

    pub fn word(&self, place: usize) -> u64 {
        self.0[place]
    }

    /// The words of the slice; none where all of them are untouched.
    pub fn written(&self) -> &[u64] {
        let lent = &self.0[..self.0.len() - GUARD];
        match lent.iter().all(|&word| word == MARK) {
            true => &[],
            false => lent,
        }
    }

    pub fn shown(&self, number: u32) -> String {
        format!("{number} {}", self.shown_words())
    }

    pub fn shown_words(&self) -> String {
        let words: Vec<String> = self.0.iter().map(|&word| shown_word(word)).collect();
        format!("[{}]", words.join(", "))
    }
}

fn shown_word(word: u64) -> String {
    if word == MARK {
        "untouched".to_owned()
    } else {
        word.to_string()
    }
}

pub struct LentBytes(Vec<u8>);

impl LentBytes {
    pub fn new(lent: usize) -> Self {
        LentBytes(vec![BYTE_MARK; lent + GUARD])
    }

    pub fn lend(&mut self) -> &mut [u8] {
        let lent = self.0.len() - GUARD;
        &mut self.0[..lent]
    }

    /// Whether these bytes were written, and no other.
    pub fn holds(&self, written: &[u8]) -> bool {
        let (begun, untouched) = self.0.split_at(written.len());
        begun == written && untouched.iter().all(|&byte| byte == BYTE_MARK)
    }

    /// With what lies behind the slice.
    pub fn all(&self) -> &[u8] {
        &self.0
    }
}

/// Scratch that is never cleaned: a call gets what earlier ones left, or noise.
#[derive(Default)]
pub struct LentScratch(Vec<u64>);

/// Of how many calls one gets noise.
const NOISE_ONE_IN: usize = 16;

impl LentScratch {
    pub fn lend(&mut self, lent: usize, rng: &mut Rng) -> &mut [u64] {
        if self.0.len() < lent + GUARD {
            self.0.resize(lent + GUARD, u64::MAX);
        }
        if rng.one_in(NOISE_ONE_IN) {
            self.0[..lent].fill_with(|| rng.number());
        }
        self.0[lent..lent + GUARD].fill(MARK);
        &mut self.0[..lent]
    }

    /// Whether the words behind the slice that was lent stayed.
    fn kept_behind(&self, lent: usize) -> bool {
        self.0[lent..lent + GUARD].iter().all(|&word| word == MARK)
    }

    /// A call with slices of these lengths.
    pub fn call(
        &mut self,
        lengths: Lengths,
        rng: &mut Rng,
        call: impl FnOnce(Lent) -> u32,
    ) -> Left {
        let mut out = LentBytes::new(lengths.room);
        let mut marks = LentWords::new(lengths.marks);
        let mut answer = LentWords::new(lengths.words);
        let number = call(Lent {
            scratch: self.lend(lengths.scratch, rng),
            out: out.lend(),
            marks: marks.lend(),
            answer: answer.lend(),
        });
        Left {
            number,
            answer,
            marks,
            out,
            scratch_kept: self.kept_behind(lengths.scratch),
        }
    }
}

/// The lengths of what is lent for a call.
#[derive(Clone, Copy)]
pub struct Lengths {
    pub scratch: usize,
    pub room: usize,
    pub marks: usize,
    pub words: usize,
}

/// What a call left behind.
pub struct Left {
    pub number: u32,
    pub answer: LentWords,
    pub marks: LentWords,
    pub out: LentBytes,
    pub scratch_kept: bool,
}

/// What a call prints: first with so much output, and where that is too short, with as much as is needed.
pub fn printed(mut room: usize, mut call: impl FnMut(usize) -> Left) -> Result<Vec<u8>, Answer> {
    loop {
        let left = call(room);
        let words = std::array::from_fn(|place| left.answer.word(place));
        match left.number {
            0 => return Ok(left.out.all()[..words[WRITTEN] as usize].to_vec()),
            OUTPUT_TOO_SHORT if words[NEEDED] > room as u64 => room = words[NEEDED] as usize,
            number => return Err(Answer { number, words }),
        }
    }
}
