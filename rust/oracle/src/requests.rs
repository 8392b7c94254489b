//! Requests as the programs `oracle` and `port` take them from standard input, one to a line, with one line of answer for each.
//!
//! Fields are parted by single blanks. A byte string is written in hex, the empty one as `-`. A list has commas between its elements;
//! the empty list is `-` where it holds pairs, and no field at all where it holds texts.
//!
//! | request                           | answer after `ok`                                          |
//! |-----------------------------------|------------------------------------------------------------|
//! | `line LINE`                       | the tag, then the record's values; `none` for one not given |
//! | `print LINE`                      | the line's record printed, without byte 10                 |
//! | `text TEXT`                       | the text's report printed                                  |
//! | `gather checked\|lossy TEXT,..`   | the joined report printed                                  |
//! | `paths PATH PATH`                 | `less`, `equal` or `greater`                               |
//! | `insert RANGE,..`                 | the pairs held afterwards; a RANGE is `s-e` or, half-open, `a..b` |
//! | `query s-e,.. s e`                | `yes` or `no`                                              |
//! | `filter TEXT s-e,..`              | the filtered report printed                                |
//!
//! Any request may instead be answered `refused NUMBER TEXT LINE FIELD` (SPEC 9.1's numbers), or `outside`: outside the domain of
//! comparison. A request that is none of these ends the program with a message.

use crate::{Fault, Mode};
use std::cmp::Ordering;
use std::fmt::Write as _;
use std::io::{self, BufRead, Write as _};

pub type Pairs = Vec<(u32, u32)>;

/// Lines to insert: from a start to an end, or half-open.
#[derive(Debug, Clone, Copy)]
pub enum Lines {
    Closed(u32, u32),
    HalfOpen(u32, u32),
}

pub enum Request {
    Line(Vec<u8>),
    Print(Vec<u8>),
    Text(Vec<u8>),
    Gather(Mode, Vec<Vec<u8>>),
    Paths(Vec<u8>, Vec<u8>),
    Insert(Vec<Lines>),
    Query(Pairs, u32, u32),
    Filter(Vec<u8>, Pairs),
}

/// Answers all of standard input.
pub fn answer_all(answer: impl Fn(Request) -> Result<String, Fault>) -> io::Result<()> {
    let mut out = io::BufWriter::new(io::stdout().lock());
    for line in io::stdin().lock().lines() {
        let line = line?;
        let request = Request::parse(&line).unwrap_or_else(|| panic!("no request: {line}"));
        writeln!(out, "{}", shown(answer(request)))?;
    }
    out.flush()
}

fn shown(told: Result<String, Fault>) -> String {
    match told {
        Ok(value) => format!("ok {value}"),
        Err(Fault::Refused(refusal)) => refusal.to_string(),
        Err(Fault::Outside) => "outside".to_owned(),
    }
}

// ---- requests

impl Request {
    /// None where the request is not one of those above.
    fn parse(line: &str) -> Option<Self> {
        let fields: Vec<&str> = line.split(' ').collect();
        Some(match *fields.as_slice() {
            ["line", line] => Request::Line(bytes(line)?),
            ["print", line] => Request::Print(bytes(line)?),
            ["text", text] => Request::Text(bytes(text)?),
            ["gather", mode] => Request::Gather(mode_of(mode)?, Vec::new()),
            ["gather", mode, texts] => Request::Gather(mode_of(mode)?, list(texts, bytes)?),
            ["paths", a, b] => Request::Paths(bytes(a)?, bytes(b)?),
            ["insert", inserts] => Request::Insert(list_or_none(inserts, lines)?),
            ["query", pairs, start, end] => {
                Request::Query(pairs_of(pairs)?, start.parse().ok()?, end.parse().ok()?)
            }
            ["filter", text, pairs] => Request::Filter(bytes(text)?, pairs_of(pairs)?),
            _ => return None,
        })
    }
}

fn mode_of(written: &str) -> Option<Mode> {
    match written {
        "checked" => Some(Mode::Checked),
        "lossy" => Some(Mode::Lossy),
        _ => None,
    }
}

fn bytes(written: &str) -> Option<Vec<u8>> {
    if written == "-" {
        return Some(Vec::new());
    }
    written.as_bytes().chunks(2).map(byte).collect()
}

fn byte(digits: &[u8]) -> Option<u8> {
    let two: [u8; 2] = digits.try_into().ok()?;
    u8::from_str_radix(std::str::from_utf8(&two).ok()?, 16).ok()
}

fn list<T>(written: &str, element: impl Fn(&str) -> Option<T>) -> Option<Vec<T>> {
    written.split(',').map(element).collect()
}

fn list_or_none<T>(written: &str, element: impl Fn(&str) -> Option<T>) -> Option<Vec<T>> {
    if written == "-" {
        Some(Vec::new())
    } else {
        list(written, element)
    }
}

fn pairs_of(written: &str) -> Option<Pairs> {
    list_or_none(written, |pair| two_numbers(pair, "-"))
}

fn lines(written: &str) -> Option<Lines> {
    if let Some((start, past)) = two_numbers(written, "..") {
        Some(Lines::HalfOpen(start, past))
    } else {
        two_numbers(written, "-").map(|(start, end)| Lines::Closed(start, end))
    }
}

fn two_numbers(written: &str, between: &str) -> Option<(u32, u32)> {
    let (a, b) = written.split_once(between)?;
    Some((a.parse().ok()?, b.parse().ok()?))
}

// ---- answers

pub fn shown_order(order: Ordering) -> String {
    match order {
        Ordering::Less => "less",
        Ordering::Equal => "equal",
        Ordering::Greater => "greater",
    }
    .to_owned()
}

pub fn shown_truth(yes: bool) -> String {
    if yes { "yes" } else { "no" }.to_owned()
}

/// A record's value that may be missing.
pub fn given(value: Option<String>) -> String {
    value.unwrap_or_else(|| "none".to_owned())
}

pub fn shown_pairs(pairs: &[(u32, u32)]) -> String {
    if pairs.is_empty() {
        return "-".to_owned();
    }
    let shown: Vec<String> = pairs
        .iter()
        .map(|(start, end)| format!("{start}-{end}"))
        .collect();
    shown.join(",")
}

pub fn hex(bytes: &[u8]) -> String {
    if bytes.is_empty() {
        return "-".to_owned();
    }
    bytes.iter().fold(String::new(), |mut written, byte| {
        write!(written, "{byte:02x}").expect("a string takes all");
        written
    })
}
