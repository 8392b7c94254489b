//! Answers requests (see [`oracle::requests`]) with the port. tools/vectors/make.py compares the answers with those of the program `oracle`.

use harness::interface::{
    Words, FIELD, FIRST_NUMBER, GIVEN, KIND, LEN, LINE, START, TEXT, WORDS, WORDS_PER_ENTRY,
    WRITTEN,
};
use harness::lines::{Form, LAYOUTS};
use harness::reports::bundles;
use oracle::requests::{
    answer_all, given, hex, shown_order, shown_pairs, shown_truth, Lines, Pairs, Request,
};
use oracle::{Fault, Mode, Refusal};
use std::cmp::Ordering;
use std::io;
use std::iter;

/// Scratch for a thousand entries; the requests are small.
const SCRATCH: usize = 1000 * WORDS_PER_ENTRY;

fn main() -> io::Result<()> {
    answer_all(answer)
}

fn answer(request: Request) -> Result<String, Fault> {
    match request {
        Request::Line(line) => called(|words| lcov_sys::read_line(&line, words))
            .map(|words| shown_record(&line, words)),
        Request::Print(line) => {
            let whole = printed(line.len(), |out, words| {
                lcov_sys::print_line(&line, out, words)
            })?;
            let (_newline, shown) = whole.split_last().expect("byte 10 follows each record");
            Ok(hex(shown))
        }
        Request::Text(text) => reported(text.len(), |scratch, out, words| {
            lcov_sys::read_text(&text, scratch, out, words)
        }),
        Request::Gather(mode, texts) => {
            let bundle = bundles::of(&texts);
            let gather = match mode {
                Mode::Checked => lcov_sys::gather_with,
                Mode::Lossy => lcov_sys::gather_lossy,
            };
            reported(bundle.len(), |scratch, out, words| {
                gather(&bundle, scratch, out, words)
            })
        }
        Request::Paths(a, b) => Ok(shown_order(compared(lcov_sys::compare_paths(&a, &b)))),
        Request::Insert(inserts) => inserted(inserts),
        Request::Query(pairs, start, end) => {
            let pairs = arrays(&pairs);
            called(|words| lcov_sys::query_range(&pairs, pairs.len(), start, end, words))
                .map(|words| shown_truth(words[0] == 1))
        }
        Request::Filter(text, pairs) => {
            let pairs = arrays(&pairs);
            reported(text.len(), |scratch, out, words| {
                lcov_sys::filter(&text, &pairs, pairs.len(), scratch, out, words)
            })
        }
    }
}

// ---- calls

/// The words of a call that answers.
fn called(call: impl FnOnce(&mut [u64]) -> u32) -> Result<Words, Fault> {
    let mut words = [0; WORDS];
    match call(&mut words) {
        0 => Ok(words),
        number => Err(Fault::Refused(Refusal {
            number,
            text: words[TEXT] as usize,
            line: words[LINE] as usize,
            field: words[FIELD] as u32,
        })),
    }
}

/// What a call prints that has read so many bytes.
fn printed(read: usize, call: impl FnOnce(&mut [u8], &mut [u64]) -> u32) -> Result<Vec<u8>, Fault> {
    let mut out = vec![0; lcov_sys::roomy(read)];
    let words = called(|words| call(&mut out, words))?;
    out.truncate(words[WRITTEN] as usize);
    Ok(out)
}

fn reported(
    read: usize,
    call: impl FnOnce(&mut [u64], &mut [u8], &mut [u64]) -> u32,
) -> Result<String, Fault> {
    let mut scratch = vec![0; SCRATCH];
    printed(read, |out, words| call(&mut scratch, out, words)).map(|report| hex(&report))
}

fn inserted(inserts: Vec<Lines>) -> Result<String, Fault> {
    let mut pairs = vec![[0; 2]; inserts.len()];
    let mut used = 0;
    for lines in inserts {
        let (start, end) = ends(lines);
        used = called(|words| lcov_sys::insert_range(&mut pairs, used, start, end, words))?[0]
            as usize;
    }
    let held: Pairs = pairs[..used]
        .iter()
        .map(|&[start, end]| (start, end))
        .collect();
    Ok(shown_pairs(&held))
}

fn ends(lines: Lines) -> (u32, u32) {
    match lines {
        Lines::Closed(start, end) => (start, end),
        Lines::HalfOpen(start, past) => {
            let mut words = [0; WORDS];
            lcov_sys::half_open(start, past, &mut words);
            (words[0] as u32, words[1] as u32)
        }
    }
}

// ---- answers

/// The tag, then the values in the order of their fields.
fn shown_record(line: &[u8], words: Words) -> String {
    let layout = LAYOUTS[words[KIND] as usize - 1];
    let start = words[START] as usize;
    let text = || hex(&line[start..start + words[LEN] as usize]);
    let is_given = words[GIVEN] == 1;
    let values = layout.fields.iter().enumerate().map(|(place, form)| {
        let number = || words[FIRST_NUMBER + place].to_string();
        match form {
            Form::U32 | Form::U64 => number(),
            Form::Taken => given(is_given.then(number)),
            Form::Text => text(),
            Form::Checksum => given(is_given.then(text)),
        }
    });
    let mut shown: Vec<String> = iter::once(layout.tag.to_owned()).chain(values).collect();
    if layout.tag == "FN" && is_given {
        let end = words[FIRST_NUMBER + 1];
        shown.insert(2, end.to_string());
    }
    shown.join(" ")
}

fn compared(number: u32) -> Ordering {
    match number {
        lcov_sys::LESS => Ordering::Less,
        lcov_sys::EQUAL => Ordering::Equal,
        lcov_sys::GREATER => Ordering::Greater,
        other => panic!("no order has the number {other}"),
    }
}

fn arrays(pairs: &Pairs) -> Vec<[u32; 2]> {
    pairs.iter().map(|&(start, end)| [start, end]).collect()
}
