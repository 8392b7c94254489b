//! Random lines.

use super::values::{FAULTS, NUMBERS, TEXTS};
use super::{line_of, Form, LAYOUTS};
use crate::Rng;

/// Lines longer than any buffer that a reader would think of are rare, and still come in each run.
const LONG_ONE_IN: usize = 20_000;
const LONGEST: usize = 70_000;

/// Of how many numbers one has a plus sign: such a line is not compared with the Rust.
const SIGN_ONE_IN: usize = 40;

/// Bytes that mean something in a line, so that noise meets the reader's cases.
const MEANINGFUL: &[u8] = b"::,,,--+00123456789\r\n aTNSFDABRHL_\0\x7f";

pub fn line(rng: &mut Rng) -> Vec<u8> {
    if rng.one_in(LONG_ONE_IN) {
        return long(rng);
    }
    match rng.below(100) {
        0..25 => plausible(rng),
        25..65 => mutated(rng),
        65..80 => noise(rng),
        80..92 => unicode(rng),
        _ => not_utf8(rng),
    }
}

// ---- plausible lines

/// A line of some tag, most of its fields sound.
pub fn plausible(rng: &mut Rng) -> Vec<u8> {
    let layout = rng.pick(&LAYOUTS);
    let mut fields: Vec<String> = layout.fields.iter().map(|&form| value(rng, form)).collect();
    if layout.tag == "FN" && rng.one_in(2) {
        fields.insert(1, end_line(rng, &fields[0]));
    }
    match rng.below(12) {
        0 => fields.truncate(rng.below(fields.len() + 1)),
        1 => fields.push(text(rng)),
        _ => {}
    }
    let mut line = line_of(layout.tag, &fields);
    line.extend_from_slice(end(rng));
    line
}

fn value(rng: &mut Rng, form: Form) -> String {
    if rng.one_in(16) {
        return rng.pick(&NUMBERS).to_owned();
    }
    match form {
        Form::Text => text(rng),
        Form::U32 => spelled(rng, u64::from(u32::MAX)),
        Form::U64 => spelled(rng, u64::MAX),
        Form::Taken if rng.one_in(3) => "-".to_owned(),
        Form::Taken => spelled(rng, u64::MAX),
        Form::Checksum if rng.one_in(4) => "-".to_owned(),
        Form::Checksum => text(rng),
    }
}

/// A number up to `max`, at times just past it, spelled with or without what may stand before it.
fn spelled(rng: &mut Rng, max: u64) -> String {
    let value = match rng.below(10) {
        0 => u128::from(max) + 1,
        1 => u128::from(max),
        2 => u128::from(rng.number()),
        _ => u128::from(rng.number() & max),
    };
    let sign = if rng.one_in(SIGN_ONE_IN) { "+" } else { "" };
    let zeros = if rng.one_in(8) { rng.below(24) } else { 0 };
    format!("{sign}{}{value}", "0".repeat(zeros))
}

/// Most often near the start line, below it too.
fn end_line(rng: &mut Rng, start: &str) -> String {
    let start: u64 = start.parse().unwrap_or(0);
    match rng.below(8) {
        0 => rng.pick(&NUMBERS).to_owned(),
        1 => spelled(rng, u64::from(u32::MAX)),
        2 => format!("{:030}{start}", 0),
        _ => (start.saturating_add(rng.below(5) as u64).saturating_sub(1)).to_string(),
    }
}

fn text(rng: &mut Rng) -> String {
    let parts = rng.below(4);
    (0..parts)
        .map(|_| match rng.below(3) {
            0 => rng.pick(&TEXTS).to_owned(),
            1 => rng.number().to_string(),
            _ => word(rng),
        })
        .collect()
}

/// ASCII letters and what else names and paths have.
fn word(rng: &mut Rng) -> String {
    let len = rng.below(24);
    (0..len)
        .map(|_| char::from(rng.pick(b"abcdefghijklmnopqrstuvwxyzABCXYZ0123456789_/.-,:<>~ ")))
        .collect()
}

fn end(rng: &mut Rng) -> &'static [u8] {
    if rng.one_in(2) {
        return b"";
    }
    rng.pick(&[&b"\n"[..], b"\r", b"\r\n", b"\n\r", b"\n\n", b"\r\r\n\n"])
}

// ---- plausible lines, then changed

pub fn mutated(rng: &mut Rng) -> Vec<u8> {
    let mut line = plausible(rng);
    for _ in 0..=rng.below(4) {
        mutate(rng, &mut line);
    }
    if std::str::from_utf8(&line).is_err() {
        // a change within a character: those lines have a kind of their own
        line = String::from_utf8_lossy(&line).into_owned().into_bytes();
    }
    line
}

fn mutate(rng: &mut Rng, line: &mut Vec<u8>) {
    let place = place_to_change(rng, line);
    match rng.below(7) {
        0 => line.truncate(place),
        1 => line.insert(place, rng.pick(MEANINGFUL)),
        2 => line.insert(place, rng.byte() & 0x7f),
        3 => put_in(line, place, rng.pick(&FAULTS).as_bytes()),
        _ if place == line.len() => line.push(rng.pick(MEANINGFUL)),
        4 => drop(line.remove(place)),
        5 => line[place] = rng.pick(MEANINGFUL),
        _ => {
            let other = rng.below(line.len());
            line.swap(place, other);
        }
    }
}

/// Most often past the tag: a tag that is changed hides all other changes.
fn place_to_change(rng: &mut Rng, line: &[u8]) -> usize {
    let colon = line.iter().position(|&byte| byte == b':');
    let kept = match colon {
        Some(colon) if !rng.one_in(8) => colon + 1,
        _ => 0,
    };
    kept + rng.below(line.len() + 1 - kept)
}

fn put_in(line: &mut Vec<u8>, place: usize, bytes: &[u8]) {
    line.splice(place..place, bytes.iter().copied());
}

// ---- lines without a plan

fn noise(rng: &mut Rng) -> Vec<u8> {
    let mut line = tag_or_nothing(rng);
    for _ in 0..rng.below(24) {
        line.push(rng.pick(MEANINGFUL));
    }
    line
}

/// Most often a tag and ':', so that the noise is about fields.
fn tag_or_nothing(rng: &mut Rng) -> Vec<u8> {
    if rng.one_in(5) {
        return Vec::new();
    }
    format!("{}:", rng.pick(&LAYOUTS).tag).into_bytes()
}

/// Characters of every length in UTF-8 among bytes that mean something.
fn unicode(rng: &mut Rng) -> Vec<u8> {
    let mut line = if rng.one_in(2) {
        plausible(rng)
    } else {
        tag_or_nothing(rng)
    };
    for _ in 0..1 + rng.below(8) {
        let place = boundary(&line, rng.below(line.len() + 1));
        let put = if rng.one_in(3) {
            char::from(rng.pick(MEANINGFUL))
        } else {
            character(rng)
        };
        put_in(&mut line, place, put.encode_utf8(&mut [0; 4]).as_bytes());
    }
    line
}

/// The last place up to this one that is not within a character.
fn boundary(line: &[u8], place: usize) -> usize {
    let within = |place: &usize| line.get(*place).is_some_and(|byte| byte & 0xc0 == 0x80);
    (0..=place).rev().find(|place| !within(place)).unwrap_or(0)
}

/// Each length of encoding is as likely as the others.
fn character(rng: &mut Rng) -> char {
    let (first, past) = rng.pick(&[
        (0, 0x80),
        (0x80, 0x800),
        (0x800, 0xd800),
        (0xe000, 0x1_0000),
        (0x1_0000, 0x11_0000),
    ]);
    char::from_u32((first + rng.below(past - first)) as u32).expect("no surrogate is among them")
}

/// Lines that go on with a text.
const BEFORE_TEXT: [&[u8]; 5] = [b"TN:", b"SF:", b"FN:7,", b"FNDA:7,", b"DA:7,7,"];

/// SPEC 10.1's callers may hand in any bytes, and a text takes them.
fn not_utf8(rng: &mut Rng) -> Vec<u8> {
    let line = match rng.below(4) {
        0 => return text_of_bytes(rng),
        1 => mutated(rng),
        2 => unicode(rng),
        _ => tag_or_nothing(rng),
    };
    with_bytes(rng, line)
}

fn text_of_bytes(rng: &mut Rng) -> Vec<u8> {
    let mut line = rng.pick(&BEFORE_TEXT).to_vec();
    for _ in 0..1 + rng.below(12) {
        line.push(rng.byte());
    }
    line
}

fn with_bytes(rng: &mut Rng, mut line: Vec<u8>) -> Vec<u8> {
    for _ in 0..1 + rng.below(12) {
        let place = rng.below(line.len() + 1);
        let byte = rng.byte();
        if place < line.len() && rng.one_in(3) {
            line[place] = byte;
        } else {
            line.insert(place, byte);
        }
    }
    line
}

fn long(rng: &mut Rng) -> Vec<u8> {
    let mut line = plausible(rng);
    let place = boundary(&line, rng.below(line.len() + 1));
    let filler = rng.pick(b"0019a,:\r\n-");
    let many = rng.below(LONGEST);
    line.splice(place..place, std::iter::repeat_n(filler, many));
    line
}

#[cfg(test)]
mod tests {
    use super::*;

    /// Of many lines that are made so, how many have a property.
    fn count(make: fn(&mut Rng) -> Vec<u8>, has: impl Fn(&[u8]) -> bool) -> usize {
        let mut rng = Rng::new(5);
        (0..MANY).filter(|_| has(&make(&mut rng))).count()
    }

    const MANY: usize = 2_000;

    fn is_utf8(line: &[u8]) -> bool {
        std::str::from_utf8(line).is_ok()
    }

    #[test]
    fn only_one_kind_leaves_utf_8() {
        for make in [plausible, mutated, noise, unicode, long] {
            assert_eq!(count(make, is_utf8), MANY);
        }
        assert!(count(not_utf8, is_utf8) < MANY / 4);
    }

    #[test]
    fn characters_have_every_length() {
        let mut rng = Rng::new(5);
        let mut seen = [false; 5];
        for _ in 0..1000 {
            seen[character(&mut rng).len_utf8()] = true;
        }
        assert_eq!(seen, [false, true, true, true, true]);
    }

    #[test]
    fn long_lines_pass_16_bits() {
        assert!(count(long, |line| line.len() > 65_536) > 0);
    }

    #[test]
    fn a_boundary_parts_no_character() {
        let line = "a名b".as_bytes();
        let boundaries: Vec<usize> = (0..=5).map(|place| boundary(line, place)).collect();
        assert_eq!(boundaries, [0, 1, 1, 1, 4, 5]);
    }
}
