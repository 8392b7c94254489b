//! The cases of the program `test_line_num`: a call on a list of range structs, and the line that answers it.

use super::List;
use crate::expected::Answer;

/// The program's lists have so many ranges.
pub const ROOM: usize = 8;

/// Twenty-one numbers of four bytes.
pub const CASE: usize = 84;

#[derive(Clone, Copy)]
pub enum Call {
    Insert,
    Query,
}

/// A call with its list, as standard input has it.
pub fn encoded(call: Call, list: &List, start: u32, end: u32) -> [u8; CASE] {
    let used = list.used as u64;
    let head = [call as u32, used as u32, (used >> 32) as u32, start, end];
    let numbers = head.iter().chain(list.pairs.iter().flatten());
    let bytes: Vec<u8> = numbers.flat_map(|number| number.to_le_bytes()).collect();
    bytes.try_into().expect("a list of eight")
}

/// The line for an insert: the number of ranges used and all ranges, or the refusal.
pub fn inserted_line(answer: &Answer, pairs: &[[u32; 2]]) -> String {
    match answer.number {
        0 => {
            let ranges = pairs.iter().map(|[start, end]| format!(" {start}-{end}"));
            format!("{}{}\n", answer.words[0], ranges.collect::<String>())
        }
        _ => refused_line(answer),
    }
}

pub fn queried_line(answer: &Answer) -> String {
    match (answer.number, answer.words[0]) {
        (0, 0) => "not held\n".to_owned(),
        (0, _) => "held\n".to_owned(),
        _ => refused_line(answer),
    }
}

fn refused_line(answer: &Answer) -> String {
    let [text, line, field, ..] = answer.words;
    format!("refused {} {text} {line} {field}\n", answer.number)
}

/// What a line says: an answer, and of an insert the ranges afterwards. None where it is no such line.
pub fn decoded(line: &str) -> Option<(Answer, Vec<[u32; 2]>)> {
    let line = line.strip_suffix('\n')?;
    if let Some(numbers) = line.strip_prefix("refused ") {
        let numbers: Vec<u64> = parsed(numbers.split(' '))?;
        let [number, text, at, field] = numbers.try_into().ok()?;
        let number = u32::try_from(number).ok()?;
        return Some((answer(number, &[text, at, field]), Vec::new()));
    }
    match line {
        "held" => return Some((answer(0, &[1]), Vec::new())),
        "not held" => return Some((answer(0, &[0]), Vec::new())),
        _ => {}
    }
    let (used, ranges) = line.split_once(' ')?;
    let pairs: Option<Vec<[u32; 2]>> = ranges.split(' ').map(pair).collect();
    Some((answer(0, &[used.parse().ok()?]), pairs?))
}

fn pair(range: &str) -> Option<[u32; 2]> {
    let (start, end) = range.split_once('-')?;
    Some([start.parse().ok()?, end.parse().ok()?])
}

fn parsed<'a>(words: impl Iterator<Item = &'a str>) -> Option<Vec<u64>> {
    words.map(|word| word.parse().ok()).collect()
}

fn answer(number: u32, first: &[u64]) -> Answer {
    let mut words = [0; crate::interface::WORDS];
    words[..first.len()].copy_from_slice(first);
    Answer { number, words }
}

#[cfg(test)]
mod tests {
    use super::*;

    #[test]
    fn a_line_says_what_was_answered() {
        let pairs = vec![[1, 4], [0, 0]];
        let used = answer(0, &[1]);
        assert_eq!(inserted_line(&used, &pairs), "1 1-4 0-0\n");
        assert_eq!(decoded("1 1-4 0-0\n"), Some((used, pairs)));
        for told in [answer(0, &[0]), answer(0, &[1]), answer(18, &[])] {
            assert_eq!(decoded(&queried_line(&told)), Some((told, Vec::new())));
        }
        for no_line in ["held", "1 1-4", "1 1-\n", "refused 18 0 0\n", "\n"] {
            assert_eq!(decoded(no_line), None, "{no_line:?}");
        }
    }

    #[test]
    fn a_case_has_the_call_the_number_used_the_range_and_the_list() {
        let list = List {
            pairs: (0..8).map(|k| [10 * k, 10 * k + 1]).collect(),
            used: (1 << 32) + 2,
        };
        let case = encoded(Call::Query, &list, 3, 4);
        let numbers: Vec<u32> = case
            .chunks(4)
            .map(|bytes| u32::from_le_bytes(bytes.try_into().unwrap()))
            .collect();
        assert_eq!(numbers[..7], [1, 2, 1, 3, 4, 0, 1]);
        assert_eq!(numbers[19..], [70, 71]);
    }
}
