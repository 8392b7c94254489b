//! The command's own reader of lines against the library's: what the library takes, the command takes with the same values.

mod common;

use common::{real_files, Folder};
use lcov_gather::record::{parse, records, Record};
use lcov_sys::WORDS;
use std::path::Path;

/// What the library makes of a line; none if it refuses it. Tests and functions have their text in the line.
fn by_library(line: &[u8]) -> Option<Record<'_>> {
    let mut answer = [0; WORDS];
    if lcov_sys::read_line(line, &mut answer) != 0 {
        return None;
    }
    let [kind, a, b, c, d, given, start, len] = answer;
    let text = &line[start as usize..(start + len) as usize];
    Some(match kind {
        1 => Record::TestName(text),
        2 => Record::SourceFile(text),
        3 => Record::Function {
            start: a as u32,
            end: (given == 1).then_some(b as u32),
            name: text,
        },
        4 => Record::Calls {
            count: a,
            name: text,
        },
        7 => Record::Branch {
            key: [a as u32, b as u32, c as u32],
            taken: (given == 1).then_some(d),
        },
        10 => Record::Line {
            line: a as u32,
            count: b,
            checksum: (given == 1).then_some(text),
        },
        13 => Record::End,
        _ => Record::Found,
    })
}

/// Whether the library takes the line.
fn agrees(line: &[u8]) -> bool {
    let taken = by_library(line);
    if taken.is_some() {
        assert_eq!(parse(line), taken, "{}", String::from_utf8_lossy(line));
    }
    taken.is_some()
}

#[test]
fn recorded_lines() {
    let path = Path::new(env!("CARGO_MANIFEST_DIR")).join("../../tests/lines.in");
    let bytes = std::fs::read(path).unwrap();
    let mut rest = &bytes[..];
    let (mut all, mut taken) = (0, 0);
    while let [low, high, after @ ..] = rest {
        let (line, later) = after.split_at(usize::from(u16::from_le_bytes([*low, *high])));
        rest = later;
        all += 1;
        taken += usize::from(agrees(line));
    }
    assert!(all > 3_000 && taken > 2_000, "{taken} of {all}");
}

const FIELDS: [&str; 15] = [
    "",
    "0",
    "1",
    "+1",
    "01",
    "-",
    "+",
    "-1",
    "4294967295",
    "4294967296",
    "0004294967295",
    "18446744073709551615",
    "18446744073709551616",
    "a",
    "a,b",
];

#[test]
fn every_combination_of_fields() {
    let mut taken = 0;
    let mut count = |line: String| taken += usize::from(agrees(line.as_bytes()));
    for tag in [
        "DA",
        "BRDA",
        "FN",
        "FNDA",
        "TN",
        "SF",
        "LF",
        "end_of_record",
    ] {
        count(tag.to_owned());
        for a in FIELDS {
            count(format!("{tag}:{a}"));
            for b in FIELDS {
                count(format!("{tag}:{a},{b}"));
                count(format!("{tag}:{a},{b}\r\n\r"));
                for c in FIELDS {
                    count(format!("{tag}:{a},{b},{c}"));
                    count(format!("{tag}:1,{a},{b},{c}"));
                }
            }
        }
    }
    assert!(taken > 20_000, "{taken}");
}

#[test]
fn names_and_end_lines_of_functions() {
    let zeros = "0".repeat(30);
    for rest in [
        "2,f",
        "2,",
        "2,3,f",
        "1,f",
        "2",
        ",x",
        "+2,f",
        " 2,f",
        "2x,f",
        "4294967295,f",
        "4294967296x,f",
        &format!("{zeros}2,f"),
    ] {
        assert!(agrees(format!("FN:1,{rest}").as_bytes()), "{rest}");
        assert!(agrees(format!("FN:1,{rest}\r\n").as_bytes()), "{rest}");
    }
    for refused in ["FN:1,4294967296,f", "FN:5,4,f", "FN:5,4,"] {
        assert!(!agrees(refused.as_bytes()), "{refused}");
    }
}

/// The audit must not add up what the library would refuse.
#[test]
fn no_number_has_a_plus_sign() {
    for line in [
        "DA:+1,1",
        "DA:1,+1",
        "DA:1,+",
        "FN:+1,f",
        "FNDA:+1,f",
        "BRDA:+1,0,0,1",
        "BRDA:1,+0,0,1",
        "BRDA:1,0,+0,1",
        "BRDA:1,0,0,+1",
        "BRDA:1,0,0,+-",
    ] {
        assert_eq!(by_library(line.as_bytes()), None, "{line}");
        assert_eq!(parse(line.as_bytes()), None, "{line}");
    }
    for line in ["TN:+1", "SF:+1", "FN:1,+f", "FNDA:1,+1,f", "DA:1,2,+5"] {
        assert!(agrees(line.as_bytes()), "{line}");
    }
}

#[test]
fn lines_of_a_text() {
    let numbers = |text: &[u8]| records(text).map(|(number, _)| number).collect::<Vec<_>>();
    assert_eq!(numbers(b""), []);
    assert_eq!(numbers(b"\n"), []);
    assert_eq!(numbers(b"LF:1"), [1]);
    assert_eq!(numbers(b"LF:1\nLF:1\n"), [1, 2]);
    assert_eq!(numbers(b"LF:1\n\nLF:1\n"), [1]);
    assert_eq!(numbers(b"LF:1\r\nend_of_record"), [1, 2]);
}

/// All lines of all real files but those with a count below 0 are taken.
#[test]
#[ignore = "needs the real tracefiles of LCOV_DATA"]
fn real_lines() {
    let folder = Folder::new();
    for (archive, refused) in [
        ("recogniser-gcc", 1),
        ("recogniser-clang", 0),
        ("jsoncpp-gcc", 0),
    ] {
        let files = real_files(archive, &folder);
        let all_taken = |text: &[u8]| {
            let lines = text.split_inclusive(|&byte| byte == b'\n');
            lines.filter(|line| !agrees(line)).count() == 0
        };
        let texts = files.iter().map(|file| std::fs::read(file).unwrap());
        let wrong = texts.filter(|text| !all_taken(text)).count();
        assert_eq!(wrong, refused, "{archive}");
    }
}
