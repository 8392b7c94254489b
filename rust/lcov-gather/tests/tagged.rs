//! `--tags` against the library's tagged gather of whole files: the same bytes, the same refusal.

mod common;

use common::{Folder, Random};
use lcov_gather::audit::Sums;
use lcov_gather::bundle::Bundle;
use lcov_gather::failure::Failure;
use lcov_gather::gathering::{gather, Mode, Reading, ROUND};
use lcov_gather::meaning::Meaning;
use lcov_gather::reporter::Reporter;
use lcov_gather::rewrite::Rewriting;
use lcov_gather::source::{Source, Sources};
use lcov_gather::tags::Tags;
use lcov_gather::workspace::Workspace;
use lcov_sys::{make_tags, Refusal, DEFAULT_TAG_NAMES, KINDS};
use std::fs;
use std::path::PathBuf;

type House = [&'static [u8]; KINDS];

/// Tags beside the default ones: beginnings of each other, and bytes that fields have.
const ODD: [&[u8]; 14] = [
    b"F",
    b"FND",
    b"FN,",
    b"A",
    b"A\0",
    b"\0",
    b" ",
    b",",
    b"+",
    b"1",
    b"\xff\x80",
    b"?DA",
    b"FNL",
    b"0123456789abcdef",
];

/// Thirteen of the default tags and the odd ones, each at any place.
fn some_house(random: &mut Random) -> House {
    let default = DEFAULT_TAG_NAMES.map(str::as_bytes);
    let mut all: Vec<&[u8]> = default.into_iter().chain(ODD).collect();
    default.map(|_| all.swap_remove(random.below(all.len())))
}

/// Most lines have one of the first two; of the others some are refused, or in conflict.
const BODIES: [&[&str]; KINDS] = [
    &["", "t", "DA:1"],
    &["a", "a//b", "b"],
    &["1,f", "1,9,f", "1,g", "2,f", "9,8,g"],
    &["1,f", "7,g", "18446744073709551615,f"],
    &["1"],
    &["0", "1", "+1"],
    &["1,0,0,-", "1,0,1,5", "2,0,0,18446744073709551615"],
    &["1"],
    &["0", "1", "1,2"],
    &[
        "1,1",
        "3,4,x",
        "3,5,y",
        "2,0",
        "1,18446744073709551615",
        "1,x",
    ],
    &["1"],
    &["1"],
    &[""],
];

/// Most lines have a tag of the house.
fn put_line(text: &mut Vec<u8>, kind: usize, house: House, random: &mut Random) {
    let tag = match random.below(600) {
        0 => DEFAULT_TAG_NAMES[kind].as_bytes(),
        1 => b"VER",
        _ => house[kind],
    };
    let bodies = BODIES[kind];
    let most = match random.below(9) {
        0 => bodies.len(),
        _ => bodies.len().min(2),
    };
    let body = bodies[random.below(most)];
    text.extend_from_slice(tag);
    text.extend_from_slice(if kind == KINDS - 1 && body.is_empty() {
        b""
    } else {
        b":"
    });
    text.extend_from_slice(body.as_bytes());
    text.extend_from_slice(if random.below(9) == 0 { b"\r\n" } else { b"\n" });
}

fn some_text(house: House, random: &mut Random) -> Vec<u8> {
    let mut text = Vec::new();
    for _ in 0..random.below(4) {
        for kind in [0, 1] {
            if random.below(4) > 0 {
                put_line(&mut text, kind, house, random);
            }
        }
        for _ in 0..random.below(9) {
            let kind = match random.below(90) {
                kind @ 0..2 => kind,
                _ => 2 + random.below(KINDS - 3),
            };
            put_line(&mut text, kind, house, random);
        }
        put_line(&mut text, KINDS - 1, house, random);
    }
    text
}

fn by_library(texts: &[Vec<u8>], house: House, mode: Mode) -> Result<Vec<u8>, Refusal> {
    let tags = make_tags(house).unwrap();
    let mut bundle = Bundle::new();
    for text in texts {
        bundle.add(|bytes| bytes.extend_from_slice(text));
    }
    let bundle = bundle.finish();
    let mut workspace = Workspace::default();
    let written = workspace.written(
        |scratch, out, answer| match mode {
            Mode::Checked => lcov_sys::gather_tagged(&tags, bundle, scratch, out, answer),
            Mode::Lossy => lcov_sys::gather_lossy_tagged(&tags, bundle, scratch, out, answer),
        },
        bundle.len(),
        4_096,
    );
    written.map(<[u8]>::to_vec)
}

/// The same by the command's own gather, which takes the files as they are written.
fn by_command(files: &[PathBuf], house: House, mode: Mode) -> Result<Vec<u8>, Refusal> {
    let reporter = Reporter::new(true, files.len());
    let files: Vec<Source> = files.iter().cloned().map(Source::new).collect();
    let rewriting = Rewriting::default().with_tags(Some(Tags::new(house)));
    let sources = Sources {
        files: &files,
        rewriting: &rewriting,
    };
    let reading = Reading {
        mode,
        meaning: Meaning::AsWritten,
        threads: 2,
        round: ROUND,
    };
    match gather(sources, reading, Sums::default(), &reporter) {
        Ok(gathered) => Ok(rewriting.write_tags(gathered.joined).slices().concat()),
        Err(Failure::Refused(_, refusal)) => Err(refusal),
        Err(failure) => panic!("{failure}"),
    }
}

#[test]
fn bytes_and_refusals_are_those_of_the_tagged_gather() {
    let folder = Folder::new();
    let mut random = Random(5);
    let (mut taken, mut refused) = (0, [0; 26]);
    for _ in 0..2_000 {
        let house = some_house(&mut random);
        let texts: Vec<Vec<u8>> = (0..1 + random.below(4))
            .map(|_| some_text(house, &mut random))
            .collect();
        let files: Vec<PathBuf> = (0..texts.len())
            .map(|k| folder.path(&k.to_string()))
            .collect();
        for (file, text) in files.iter().zip(&texts) {
            fs::write(file, text).unwrap();
        }
        for mode in [Mode::Checked, Mode::Lossy] {
            let library = by_library(&texts, house, mode);
            assert_eq!(
                by_command(&files, house, mode),
                library,
                "{house:?} {texts:?}"
            );
            match library {
                Ok(bytes) => taken += usize::from(!bytes.is_empty()),
                Err(refusal) => refused[refusal.number as usize] += 1,
            }
        }
    }
    assert!(taken > 500, "{taken} {refused:?}");
    let met = [1, 3, 5, 7, 11, 12, 13, 19, 23, 25].map(|number| refused[number]);
    assert!(met.iter().all(|&times| times > 0), "{refused:?}");
}
