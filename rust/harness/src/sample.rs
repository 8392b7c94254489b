//! The recorded sample: lines and the Rust's answers to them, but 19 where a number has a plus sign, and FN with its end line, for a replay
//! without Rust.

use crate::ends::END_BEFORE_START;
use crate::expected::{Basis, Expected};
use crate::interface::{FIELD, KIND, LINE};
use crate::lines::{random, systematic, LAYOUTS};
use crate::plus::SIGNED_NUMBER;
use crate::tally::LINE_REFUSALS;
use crate::{tracefile, Rng};
use std::collections::HashSet;

pub const SEED: u64 = 53;

/// How often each answer comes: each of the thirteen kinds, each refusal, and FN with an end line.
const EACH: usize = 210;
const SIGNED: usize = LAYOUTS.len() + LINE_REFUSALS;
const WITH_END: usize = SIGNED + 1;
const ENDS_BEFORE: usize = SIGNED + 2;
const ANSWERS: usize = SIGNED + 3;

const LONGEST: usize = 200;

/// Of how many systematic lines one is a candidate.
const SYSTEMATIC_ONE_IN: usize = 23;

/// The two files.
#[derive(PartialEq, Eq)]
pub struct Sample {
    /// Cases: a little-endian u16 length, then so many bytes, the line.
    pub lines: Vec<u8>,
    /// For each case the record printed, or `refused NUMBER TEXT LINE FIELD`, with byte 10 after it.
    pub answers: Vec<u8>,
}

pub fn make() -> Sample {
    let lines = chosen(&mut Rng::new(SEED));
    Sample {
        lines: encoded(&lines),
        answers: answers(&lines),
    }
}

// ---- choosing

/// Candidates are taken in turn until each answer has come often enough.
fn chosen(rng: &mut Rng) -> Vec<Vec<u8>> {
    let listed = candidates(rng);
    let mut left = [EACH; ANSWERS];
    let mut met = HashSet::new();
    let mut lines = Vec::new();
    while left.iter().any(|&wanted| wanted > 0) {
        let line = candidate(rng, &listed);
        if line.len() > LONGEST || met.contains(&line) {
            continue;
        }
        if let Some(wanted) = answer_of(&line).map(|answer| &mut left[answer]) {
            if *wanted > 0 {
                *wanted -= 1;
                met.insert(line.clone());
                lines.push(line);
            }
        }
    }
    lines
}

/// Systematic lines, and lines as `geninfo` writes them.
fn candidates(rng: &mut Rng) -> Vec<Vec<u8>> {
    let mut listed: Vec<Vec<u8>> = tracefile::lines(rng, 20)
        .into_iter()
        .map(String::into_bytes)
        .collect();
    systematic(&mut |line| {
        if rng.one_in(SYSTEMATIC_ONE_IN) {
            listed.push(line.to_vec());
        }
    });
    listed
}

fn candidate(rng: &mut Rng, listed: &[Vec<u8>]) -> Vec<u8> {
    match rng.below(4) {
        0 => random::line(rng),
        1 => random::mutated(rng),
        _ => listed[rng.below(listed.len())].clone(),
    }
}

/// Kinds first, then refusals; None for a line outside the domain of comparison.
fn answer_of(line: &[u8]) -> Option<usize> {
    let expected = Expected::of(line);
    if expected.outside {
        return None;
    }
    Some(match expected.read.number {
        0 if expected.basis == Basis::Ends => WITH_END,
        0 => expected.read.words[KIND] as usize - 1,
        SIGNED_NUMBER => SIGNED,
        END_BEFORE_START => ENDS_BEFORE,
        number => LAYOUTS.len() + number as usize - 1,
    })
}

// ---- writing and reading

fn encoded(lines: &[Vec<u8>]) -> Vec<u8> {
    let mut bytes = Vec::new();
    for line in lines {
        let len = u16::try_from(line.len()).expect("lines are short");
        bytes.extend_from_slice(&len.to_le_bytes());
        bytes.extend_from_slice(line);
    }
    bytes
}

/// The lines of a file of cases; None where it is cut within one.
pub fn decoded(mut bytes: &[u8]) -> Option<Vec<Vec<u8>>> {
    let mut lines = Vec::new();
    while !bytes.is_empty() {
        let (len, rest) = bytes.split_first_chunk()?;
        let (line, rest) = rest.split_at_checked(u16::from_le_bytes(*len).into())?;
        lines.push(line.to_vec());
        bytes = rest;
    }
    Some(lines)
}

/// What the port must answer to the lines.
pub fn answers(lines: &[Vec<u8>]) -> Vec<u8> {
    lines.iter().flat_map(|line| answer(line)).collect()
}

fn answer(line: &[u8]) -> Vec<u8> {
    let Expected {
        read,
        printed,
        outside,
        ..
    } = Expected::of(line);
    assert!(
        !outside,
        "the Rust can't be asked about {}",
        line.escape_ascii()
    );
    printed.unwrap_or_else(|| {
        let (line, field) = (read.words[LINE], read.words[FIELD]);
        format!("refused {} 0 {line} {field}\n", read.number).into_bytes()
    })
}

#[cfg(test)]
mod tests {
    use super::*;

    const MOST_BYTES: usize = 120_000;

    #[test]
    fn the_sample_is_small_and_has_every_answer() {
        let sample = make();
        let lines = decoded(&sample.lines).unwrap();
        assert_eq!(lines.len(), EACH * ANSWERS);
        assert!(sample.lines.len() < MOST_BYTES, "{}", sample.lines.len());
        assert!(
            sample.answers.len() < MOST_BYTES,
            "{}",
            sample.answers.len()
        );
        assert!(lines.iter().all(|line| line.len() <= LONGEST));
        for answer in 0..ANSWERS {
            let came = lines.iter().filter(|line| answer_of(line) == Some(answer));
            assert_eq!(came.count(), EACH);
        }
        let too_large = answers(&lines)
            .split(|&byte| byte == b'\n')
            .filter(|answer| answer == b"refused 6 0 1 2")
            .count();
        assert!(too_large > 0);
    }

    #[test]
    fn cases_are_read_back() {
        let lines = vec![b"TN:a\nb".to_vec(), vec![], vec![b'x'; 300]];
        assert_eq!(decoded(&encoded(&lines)).unwrap(), lines);
        assert!(decoded(b"\x05").is_none());
        assert!(decoded(b"\x05\x00TN:").is_none());
    }

    #[test]
    fn an_answer_is_a_record_or_a_refusal() {
        let lines = [
            b"DA:01,2,-\r\n".to_vec(),
            b"FN:5".to_vec(),
            b"LF:1,2".to_vec(),
            b"DA:01,+2,-".to_vec(),
            b"FN:01,02,f".to_vec(),
            b"FN:2,1,f".to_vec(),
            b"FN:2,4294967296,f".to_vec(),
        ];
        let expected = "DA:1,2\nrefused 2 0 1 2\nrefused 3 0 1 0\nrefused 19 0 1 2\n\
            FN:1,2,f\nrefused 23 0 1 0\nrefused 6 0 1 2\n";
        assert_eq!(answers(&lines), expected.as_bytes());
    }
}
