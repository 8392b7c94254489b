//! `--as-geninfo`: what geninfo writes, what lcov makes of it, and lines of other producers.

mod common;

use common::{missing, printed, real_files, said, said_in_short, Folder, Random};
use lcov_gather::cutting::group;
use lcov_gather::gathering::Mode;
use lcov_gather::guard::Guard;
use lcov_gather::meaning::Meaning;
use lcov_gather::piece::{Origin, Piece};
use lcov_gather::scan::scan;
use lcov_gather::worker::Worker;
use std::collections::{BTreeMap, BTreeSet};
use std::fs;
use std::path::{Path, PathBuf};
use std::process::{Command, Output};

/// Lines parted by blanks, `end` for end_of_record.
fn text(lines: &str) -> String {
    let lines = lines.split(' ').map(|line| match line {
        "end" => "end_of_record\n".to_owned(),
        _ => format!("{line}\n"),
    });
    lines.collect()
}

fn gives(inputs: &[&str], expected: &str, told: &[&str]) {
    let names = ["a", "b", "c"];
    let texts: Vec<String> = inputs.iter().map(|lines| text(lines)).collect();
    let files: Vec<(&str, &str)> = names
        .into_iter()
        .zip(texts.iter().map(String::as_str))
        .collect();
    let folder = Folder::with(&files);
    let words: Vec<&str> = ["--as-geninfo"]
        .into_iter()
        .chain(files.iter().map(|(name, _)| *name))
        .collect();
    let output = folder.run(&words);
    assert_eq!(printed(&output), text(expected), "{inputs:?}");
    let told: String = told
        .iter()
        .map(|line| format!("lcov-gather: {line}\n"))
        .collect();
    assert_eq!(said(&output), told, "{inputs:?}");
}

fn refuses(inputs: &[&str], expected: &str) {
    let folder = Folder::new();
    let mut words = vec!["--as-geninfo", "-o", "out"];
    for (name, lines) in ["a", "b"].into_iter().zip(inputs) {
        fs::write(folder.path(name), text(lines)).unwrap();
        words.push(name);
    }
    let output = folder.run(&words);
    assert_eq!(output.status.code(), Some(1), "{inputs:?}");
    assert_eq!(said_in_short(&output), format!("lcov-gather: {expected}\n"));
    assert!(!folder.path("out").exists());
}

#[test]
fn a_test_name_holds_up_to_the_next() {
    gives(
        &["SF:n DA:1,1 end TN:t SF:x DA:1,1 end SF:y DA:1,2 end TN:u SF:x DA:1,4 end SF:y LF:0 end"],
        "TN: SF:n DA:1,1 LF:1 LH:1 end TN:t SF:x DA:1,1 LF:1 LH:1 end TN:t SF:y DA:1,2 LF:1 LH:1 end TN:u SF:x DA:1,4 LF:1 LH:1 end",
        &[],
    );
}

#[test]
fn what_comes_again_adds() {
    gives(
        &[
            "TN:t SF:x FN:1,f FNDA:1,f FN:1,f FNDA:2,f FNDA:4,f BRDA:1,0,0,- BRDA:1,0,0,3 BRDA:2,0,0,- BRDA:2,0,0,- DA:1,1 DA:2,0 DA:1,2,s DA:1,4 end SF:x//. DA:1,8 end",
            "TN:t SF:x DA:1,16 FNDA:8,g FN:7,g FNDA:16,g end",
        ],
        "TN:t SF:x FN:1,f FN:7,g FNDA:7,f FNDA:24,g FNF:2 FNH:2 BRDA:1,0,0,3 BRDA:2,0,0,- BRF:2 BRH:1 DA:1,31,s DA:2,0 LF:2 LH:1 end",
        &[],
    );
}

#[test]
fn a_start_or_checksum_that_comes_again_must_agree() {
    let starts = "a: the start lines of a function differ (refusal 11)";
    refuses(&["SF:x FN:1,f FN:2,f end"], starts);
    refuses(&["SF:x FN:1,f end SF:x FN:2,f end"], starts);
    refuses(
        &["SF:x DA:1,1,s DA:1,1,t end"],
        "a: the checksums of a line differ (refusal 12)",
    );
    let most = "18446744073709551615";
    refuses(
        &[&format!("SF:x DA:1,{most} DA:1,1 end")],
        "a: the counts of a line or branch add up past 2^64 - 1 (refusal 13)",
    );
    // The count of a function stops there.
    gives(
        &[&format!("SF:x FNDA:{most},f FNDA:1,f end")],
        &format!("TN: SF:x FNDA:{most},f FNF:1 FNH:1 end"),
        &[],
    );
}

/// Lines that the library refuses are refused as they are, in whole sections and in those that are split.
#[test]
fn a_refusal_names_the_line_of_the_file() {
    for (lines, expected) in [
        (
            "TN:t SF:x DA:1,1 DA:1,x end",
            "a:4: field 2: bad digit (refusal 5)",
        ),
        (
            "TN:t SF:x DA:2,1 DA:1,1 DA:2,1 DA:1,x end",
            "a:6: field 2: bad digit (refusal 5)",
        ),
        (
            "SF:x DA:1,1 end SF:y DA:1,1 DA:1,1 VER:1 end",
            "a:7: tag unknown (refusal 1)",
        ),
        (
            "SF:x DA:1,1 DA:1,1 TN:u end",
            "a:4: TN inside a section (refusal 7)",
        ),
        (
            "SF:x DA:1,1 DA:1,1",
            "a:4: the text ends inside a section (refusal 8)",
        ),
        (
            "SF:x DA:1,1",
            "a:3: the text ends inside a section (refusal 8)",
        ),
        (
            "SF:x FN:1,f FN:2,f end SF:y DA:1, end",
            "a:6: field 2: number empty (refusal 4)",
        ),
        ("SF:x FNL:1 end", "a:2: tag unknown (refusal 1)"),
        (
            "SF:x BRDA:1,ex,0,1 end",
            "a:2: field 2: bad digit (refusal 5)",
        ),
    ] {
        refuses(&[lines], expected);
    }
    refuses(
        &["SF:x FN:1,f end", "SF:x FN:2,f end SF:y DA:1, end"],
        "b:5: field 2: number empty (refusal 4)",
    );
    refuses(
        &["SF:x FN:1,f FN:2,f end", "SF:y DA:1, end"],
        "a: the start lines of a function differ (refusal 11)",
    );
}

#[test]
fn functions_of_lcov_2_3() {
    gives(
        &["SF:x FNL:0,10,20 FNA:0,3,f<int,char> FNA:0,4,g FNL:1,30 FNA:1,0,h FNF:3 FNH:2 end SF:x FNL:0,30,31 FNA:0,5,h end"],
        "TN: SF:x FN:10,20,f<int,char> FN:10,20,g FN:30,31,h FNDA:3,f<int,char> FNDA:4,g FNDA:5,h FNF:3 FNH:3 end",
        &["a: lines FNL or FNA, read as FN and FNDA: 7"],
    );
    refuses(
        &["SF:x FNL:0,10 FNA:0,1,f end SF:y FNA:0,1,g end"],
        "a:6: FNA names index 0, which no FNL before it in its section gives; capture the file again",
    );
    // Names that begin as an end line does.
    gives(
        &["SF:x FNL:0,1,9 FNA:0,3,2,f end"],
        "TN: SF:x FN:1,9,2,f FNDA:3,2,f FNF:1 FNH:1 end",
        &["a: lines FNL or FNA, read as FN and FNDA: 2"],
    );
    refuses(
        &["SF:x FNL:0,1 FNA:0,3,2,f end"],
        "a:3: FNA names function 2,f, whose digits FN would take for an end line; give FNL its end line",
    );
}

#[test]
fn blocks_of_exceptions() {
    gives(
        &[
            "SF:x BRDA:1,0,0,1 BRDA:1,e0,0,2 BRDA:1,e0,0,3 BRDA:1,e1,0,- end",
            "SF:x BRDA:1,e0,0,5 end",
            "SF:x BRDA:1,2147483647,0,5 end",
        ],
        "TN: SF:x BRDA:1,0,0,1 BRDA:1,2147483647,0,5 BRDA:1,2147483648,0,10 BRDA:1,2147483649,0,- BRF:4 BRH:3 end",
        &[
            "a: lines with a block e0, e1, .., read as block 2147483648 and so on: 3",
            "b: lines with a block e0, e1, .., read as block 2147483648 and so on: 1",
        ],
    );
    // A plain block there would be added to an exception's.
    let large = "SF:x BRDA:1,2147483648,0,5 end";
    gives(
        &[large],
        "TN: SF:x BRDA:1,2147483648,0,5 BRF:1 BRH:1 end",
        &[],
    );
    let exception = "SF:y BRDA:7,e3,0,1 end";
    refuses(
        &[large, exception],
        "a:2: the block is one that exceptions (e0, ..) of b have; gather the two apart",
    );
    refuses(
        &[exception, large],
        "b:2: the block is one that exceptions (e0, ..) of a have; gather the two apart",
    );
}

#[test]
fn counts_below_0() {
    gives(
        &["SF:x FN:1,f FNDA:-3,f BRDA:1,0,0,-7 BRDA:1,0,1,7 DA:1,-1071 DA:2,5 end SF:y DA:1,-1,sum end"],
        "TN: SF:x FN:1,f FNDA:0,f FNF:1 FNH:0 BRDA:1,0,0,- BRDA:1,0,1,7 BRF:2 BRH:1 DA:1,0 DA:2,5 LF:2 LH:1 end TN: SF:y DA:1,0,sum LF:1 LH:0 end",
        &["a: lines with a count below 0, read as 0, or in BRDA as '-': 4"],
    );
}

/// Only this option reads the forms of other producers, and it is not for files that are taken as they are written.
#[test]
fn the_option_by_itself() {
    let folder = Folder::with(&[
        ("functions", &text("SF:x FNL:0,1 FNA:0,1,f end")),
        ("exception", &text("SF:x BRDA:1,e0,0,1 end")),
        ("negative", &text("SF:x DA:1,-1 end")),
        ("end", &text("SF:x FN:1,2,f end")),
    ]);
    for name in ["functions", "exception", "negative"] {
        for words in [&[name][..], &["--as-written", name]] {
            assert_eq!(folder.run(words).status.code(), Some(1), "{words:?}");
        }
    }
    assert!(printed(&folder.run(&["end"])).contains("FN:1,2,f\n"));
    let both = folder.run(&["--as-geninfo", "--as-written", "end"]);
    assert_eq!(both.status.code(), Some(2));
}

/// Counters captured twice: sections come in any order, and the bytes are the same.
#[test]
fn the_order_of_sections_does_not_matter() {
    let mut random = Random(7);
    let folder = Folder::new();
    let mut sections: Vec<String> = (0..60)
        .map(|k| {
            let lines: String = (0..9).map(|_| random_line(&mut random) + "\n").collect();
            format!("SF:/src/{}\n{lines}end_of_record\n", k % 23)
        })
        .collect();
    let run = |sections: &[String]| {
        fs::write(folder.path("a"), format!("TN:t\n{}", sections.concat())).unwrap();
        printed(&folder.run(&["--as-geninfo", "a"]))
    };
    let first = run(&sections);
    for _ in 0..20 {
        for place in (1..sections.len()).rev() {
            sections.swap(place, random.below(place + 1));
        }
        assert_eq!(run(&sections), first);
    }
}

fn random_line(random: &mut Random) -> String {
    let name = random.of(&["f", "g", "h"]);
    match random.below(4) {
        0 => format!("FN:1,{}{name}", random.of(&["", "1,", "4,", "9,"])),
        1 => format!("FNDA:{},{name}", random.below(5)),
        2 => {
            let taken = random.of(&["-", "0", "1", "7"]);
            format!("BRDA:{},{},0,{taken}", random.below(3), random.below(2))
        }
        _ => format!("DA:{},{}", random.below(5), random.below(9)),
    }
}

/// Test name, path, tag and key of a record.
type Key = (String, PathBuf, String);

/// Start line, end line and name.
fn function(body: &str) -> (&str, Option<u128>, &str) {
    let (start, rest) = body.split_once(',').unwrap();
    match rest.split_once(',') {
        Some((end, name)) if end.parse::<u128>().is_ok() => (start, end.parse().ok(), name),
        _ => (start, None, rest),
    }
}

fn keep_larger(sums: &mut BTreeMap<Key, Option<u128>>, key: Key, end: Option<u128>) {
    if end.is_some() {
        let largest = sums.entry(key).or_insert(None);
        *largest = end.max(*largest);
    }
}

/// What a text says, each key with the sum of its counts: `-` alone is none, FN has its start, and its largest end line has a key of its own.
/// In what is printed each key comes once, so that these are its values.
fn sums(text: &str) -> BTreeMap<Key, Option<u128>> {
    let mut sums = BTreeMap::new();
    let (mut test, mut path) = ("", "");
    for line in text.lines() {
        let (tag, body) = line.split_once(':').unwrap_or((line, ""));
        let (key, value) = match tag {
            "TN" => {
                test = body;
                continue;
            }
            "SF" => {
                path = body;
                continue;
            }
            "FN" => {
                let (start, end, name) = function(body);
                let key = (test.to_owned(), path.into(), format!("END {name}"));
                keep_larger(&mut sums, key, end);
                (name, start)
            }
            "FNDA" => {
                let (count, name) = body.split_once(',').unwrap();
                (name, count)
            }
            "BRDA" => body.rsplit_once(',').unwrap(),
            "DA" => {
                let (key, rest) = body.split_once(',').unwrap();
                (key, rest.split(',').next().unwrap())
            }
            _ => continue,
        };
        let key = (test.to_owned(), PathBuf::from(path), format!("{tag} {key}"));
        let sum: &mut Option<u128> = sums.entry(key).or_insert(None);
        *sum = match (*sum, value.parse::<u128>().ok()) {
            (Some(sum), Some(value)) if tag != "FN" => Some(sum + value),
            (sum, value) => value.or(sum),
        };
    }
    sums
}

fn random_text(random: &mut Random) -> String {
    let mut text = String::new();
    for _ in 0..random.below(6) {
        if random.below(2) == 0 {
            text += &format!("TN:{}\n", random.of(&["", "t", "u"]));
        }
        text += &format!("SF:{}\n", random.of(&["x", "y"]));
        for _ in 0..random.below(12) {
            text += &(random_line(random) + "\n");
        }
        text += "end_of_record\n";
    }
    text
}

fn pieces_of(text: &str) -> Vec<Piece> {
    let scanned = scan(text.as_bytes(), "a", Meaning::Geninfo, Guard::default());
    scanned.cut.pieces
}

/// Functions have calls of 0 in the result where the text has only FN.
fn with_calls(mut sums: BTreeMap<Key, Option<u128>>) -> BTreeMap<Key, Option<u128>> {
    let starts: Vec<Key> = sums.keys().cloned().collect();
    for (test, path, key) in starts {
        if let Some(name) = key.strip_prefix("FN ") {
            let calls = (test, path, format!("FNDA {name}"));
            sums.entry(calls).or_insert(Some(0));
        }
    }
    sums
}

#[test]
fn sums_by_key_are_those_of_the_text() {
    let mut random = Random(0x9e37_79b9);
    let mut worker = Worker::default();
    let mut split = 0;
    for _ in 0..20_000 {
        let text = random_text(&mut random);
        let pieces = pieces_of(&text);
        let numbered = pieces.iter().enumerate();
        let groups = group(numbered.map(|(number, piece)| {
            let origin = Origin::Piece {
                file: 0,
                piece: number,
            };
            piece.text(text.as_bytes(), origin)
        }));
        let written = worker.gather(&groups, Mode::Checked).unwrap();
        let written = String::from_utf8(written).unwrap();
        assert_eq!(with_calls(sums(&text)), sums(&written), "{text}");
        split += usize::from(pieces.len() > text.matches("SF:").count());
    }
    assert!(split > 5_000, "{split}");
}

/// The items of all pieces are those of the text, each as often; and in a piece the library replaces nothing.
#[test]
fn each_record_is_in_one_piece_and_no_key_twice_in_a_piece() {
    let mut random = Random(0x1234_5678);
    let is_item = |line: &&str| {
        let tags = ["FN:", "FNDA:", "BRDA:", "DA:"];
        tags.iter().any(|tag| line.starts_with(tag))
    };
    for _ in 0..20_000 {
        let text = random_text(&mut random);
        let mut found = Vec::new();
        for piece in pieces_of(&text) {
            let body = std::str::from_utf8(piece.body(text.as_bytes())).unwrap();
            let items: Vec<&str> = body.lines().filter(is_item).collect();
            assert!(items.len() < piece.entries);
            assert!(!replaces(&items), "{text}\n{body}");
            found.extend(items.iter().map(|line| line.to_string()));
        }
        found.sort();
        let mut expected: Vec<&str> = text.lines().filter(is_item).collect();
        expected.sort();
        assert_eq!(found, expected, "{text}");
    }
}

/// Whether a key comes twice, or FN after FNDA of its name.
fn replaces(items: &[&str]) -> bool {
    let mut keys = BTreeSet::new();
    items.iter().any(|line| {
        let (tag, body) = line.split_once(':').unwrap();
        let key = match tag {
            "FN" => function(body).2,
            "FNDA" => body.split_once(',').unwrap().1,
            "BRDA" => body.rsplit_once(',').unwrap().0,
            _ => body.split(',').next().unwrap(),
        };
        let resets = tag == "FN" && keys.contains(&("FNDA", key));
        !keys.insert((tag, key)) || resets
    })
}

fn lcov(words: &[&str], folder: &Path) -> Option<Output> {
    let mut lcov = Command::new("lcov");
    lcov.args(["-q", "--rc", "lcov_branch_coverage=1"])
        .args(words);
    lcov.current_dir(folder).output().ok()
}

/// Every value of the files under the option is what `lcov -a` makes of them. Their number.
fn agrees_with_lcov(folder: &Folder, files: &[PathBuf]) -> usize {
    // lcov takes no empty file.
    let files: Vec<&str> = files
        .iter()
        .filter(|file| fs::metadata(file).unwrap().len() > 0)
        .map(|file| file.to_str().unwrap())
        .collect();
    let mut words = vec!["-o", "by-lcov"];
    words.extend(files.iter().flat_map(|file| ["-a", file]));
    let Some(output) = lcov(&words, &folder.0) else {
        missing("lcov");
        return 0;
    };
    assert!(output.status.success(), "{}", said(&output));
    let words: Vec<&str> = ["-q", "--as-geninfo"].into_iter().chain(files).collect();
    let own = sums(&printed(&folder.run(&words)));
    let by_lcov = sums(&folder.text("by-lcov"));
    assert_eq!(own.len(), by_lcov.len());
    for (key, value) in &own {
        assert_eq!(by_lcov.get(key), Some(value), "{key:?}");
    }
    own.len()
}

#[test]
#[ignore = "needs the real tracefiles of LCOV_DATA"]
fn recogniser_by_gcc_as_lcov_adds_it() {
    let folder = Folder::new();
    let files = real_files("recogniser-gcc", &folder);
    let values = agrees_with_lcov(&folder, &files);
    println!("{values} values");
    assert!(values > 1_000_000, "{values}");
}

#[test]
#[ignore = "needs the real tracefiles of LCOV_DATA"]
fn jsoncpp_as_lcov_adds_it() {
    let folder = Folder::new();
    let files = real_files("jsoncpp-gcc", &folder);
    let values = agrees_with_lcov(&folder, &files);
    println!("{values} values");
    assert!(values > 400_000, "{values}");
}

/// All files of the set under this option: more than a million entries, as the data's README counts them. Those that the guard takes go
/// through without it, with the same values.
#[test]
#[ignore = "needs the real tracefiles of LCOV_DATA"]
fn a_million_entries() {
    let folder = Folder::new();
    let files = real_files("recogniser-gcc", &folder);
    let files: Vec<&str> = files.iter().map(|file| file.to_str().unwrap()).collect();
    let mut words = vec!["-q", "--as-geninfo"];
    words.extend(&files);
    let all = sums(&printed(&folder.run(&words)));
    let sections: BTreeSet<_> = all.keys().map(|(test, path, _)| (test, path)).collect();
    let items = all.keys().filter(|(_, _, key)| !key.starts_with("FN "));
    assert_eq!(sections.len() + items.count(), 1_072_328);

    let guarded = |file: &&&str| folder.run(&["-q", file]).status.success();
    let taken: Vec<&str> = files.iter().filter(guarded).copied().collect();
    assert!(taken.len() > 60, "{}", taken.len());
    let by = |option: &[&str]| printed(&folder.run(&[&["-q"], option, &taken[..]].concat()));
    let plain = by(&[]);
    assert!(sums(&plain).len() > 3 * 65_535);
    assert!(plain == by(&["--as-geninfo"]));
}

const PROGRAM: &str = "\
#include <cstdio>
template <typename T> T twice(T x)
{
    if (x > 1)
        return x + x;
    return 0;
}
int main(int argc, char **)
{
    for (int i = 0; i < 3; i++)
        std::printf(\"%d %f %ld\\n\", twice(argc + i), twice(0.5), twice(7L));
    return 0;
}
";

/// Functions made of one template repeat its lines in a section.
#[test]
fn a_program_with_templates() {
    let folder = Folder::with(&[("main.cc", PROGRAM)]);
    let run = |program: &str, words: &[&str]| {
        let output = Command::new(program)
            .args(words)
            .current_dir(&folder.0)
            .output();
        let output = output.ok()?;
        assert!(output.status.success(), "{program}: {}", said(&output));
        Some(())
    };
    let capture =
        "--rc lcov_branch_coverage=1 --rc geninfo_no_exception_branch=0 -q -t one -o a.info .";
    let capture: Vec<&str> = capture.split(' ').collect();
    let made = run("g++", &["--coverage", "-O0", "-o", "main", "main.cc"])
        .and_then(|()| run("./main", &[]))
        .and_then(|()| run("geninfo", &capture));
    if made.is_none() {
        return missing("g++ or geninfo");
    }
    let text = folder.text("a.info");
    assert!(text.matches("\nDA:4,").count() > 1, "{text}");
    assert_eq!(folder.run(&["a.info"]).status.code(), Some(1));
    let file = folder.path("a.info");
    assert!(agrees_with_lcov(&folder, &[file.clone(), file]) > 10);
}
