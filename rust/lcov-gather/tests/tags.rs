//! `--tags`: files of a tool that writes other tags, in and out.

mod common;

use common::{said, Folder};
use lcov_sys::{make_tags, DEFAULT_TAG_NAMES as NAMES, WORDS_PER_ENTRY};
use std::fs;
use std::io::Write;
use std::process::Output;

/// The house's tags, in the order of [`NAMES`].
type House = [&'static [u8]; 13];

const WORDS: House = [
    b"test", b"file", b"func", b"calls", b"nfunc", b"hfunc", b"branch", b"nbranch", b"hbranch",
    b"line", b"nline", b"hline", b"end",
];

/// Each is the beginning of another, is another kind's default tag, or has bytes that fields have.
const ODD: House = [
    b"F",
    b"FN",
    b"FND",
    b"FN,",
    b"\x80\xff",
    b" ",
    b"A",
    b"A\0",
    b"+1",
    b"0123456789abcdef",
    b"1",
    b"-",
    b"SF",
];

/// The file of `--tags`.
fn listed(house: House) -> Vec<u8> {
    let lines = NAMES.iter().zip(house);
    let lines = lines.map(|(name, own)| [name.as_bytes(), b" ", own, b"\n"].concat());
    lines.collect::<Vec<_>>().concat()
}

/// A text in default tags as the house writes it.
fn translated(text: &[u8], house: House) -> Vec<u8> {
    let mut lines = Vec::new();
    for line in text.split_inclusive(|&byte| byte == b'\n') {
        let is_end = |&byte: &u8| matches!(byte, b':' | b'\r' | b'\n');
        let len = line.iter().position(is_end).unwrap_or(line.len());
        let kind = NAMES
            .iter()
            .position(|name| name.as_bytes() == &line[..len]);
        lines.extend(kind.map_or(&line[..len], |kind| house[kind]));
        lines.extend(&line[len..]);
    }
    lines
}

/// The files as they are, and in a second folder as the house writes them, with their tags.
struct Pair {
    default: Folder,
    own: Folder,
    house: House,
}

impl Pair {
    fn new(files: &[(&str, &str)], house: House) -> Self {
        let own = Folder::new();
        for (name, text) in files {
            fs::write(own.path(name), translated(text.as_bytes(), house)).unwrap();
        }
        fs::write(own.path("tags"), listed(house)).unwrap();
        Pair {
            default: Folder::with(files),
            own,
            house,
        }
    }

    fn run_own(&self, words: &[&str]) -> Output {
        self.own.run(&[&["--tags", "tags"], words].concat())
    }

    /// The house's run prints the other's result in its tags, and says the same.
    fn agrees(&self, words: &[&str]) {
        let (default, own) = (self.default.run(words), self.run_own(words));
        assert_eq!(said(&own), said(&default), "{words:?}");
        assert_eq!(own.status.code(), default.status.code(), "{words:?}");
        let expected = translated(&default.stdout, self.house);
        assert_eq!(own.stdout, expected, "{words:?}");
        assert!(default.status.success(), "{}", said(&default));
    }
}

fn sample(name: &str) -> String {
    let samples = concat!(env!("CARGO_MANIFEST_DIR"), "/../../tests/samples");
    fs::read_to_string(format!("{samples}/{name}")).unwrap()
}

/// Functions with and without end lines, names that are tags, checksums, CRLF, no newline at the end.
const LAB: &str = "TN:DA\r\nSF:src/decoder.c\r\nFN:1,9,FN\nFN:3,DA:1\nFNDA:2,FN\nFNF:2\nFNH:1\nBRDA:4,0,0,-\nBRDA:4,0,1,007\nBRF:2\nBRH:1\nDA:4,8,LF:1\nDA:5,0\nLF:2\nLH:1\nend_of_record\nSF:b\nDA:1,1\nend_of_record";

const OTHER: &str = "TN:\nSF:b\nFN:1,f\nDA:1,2\nDA:3,4\nend_of_record:DA\n";

/// Its functions start where that of [`OTHER`] does.
const SAME: &str = "SF:b\nFN:1,FN\nFN:1,DA:1\nFNDA:3,FN\nend_of_record\n";

#[test]
fn the_result_is_the_default_one_in_the_tags_of_the_house() {
    let (a, b) = (sample("room-a.info"), sample("room-b.info"));
    for house in [WORDS, ODD, NAMES.map(str::as_bytes)] {
        let pair = Pair::new(&[("a", &a), ("b", &b), ("lab", OTHER)], house);
        for words in [
            &["a", "b", "lab"][..],
            &["--lossy", "b", "a"],
            &["--threads", "1", "a", "a"],
            &["--stats", "a", "b"],
            &["--as-geninfo", "a", "b"],
            &["--as-written", "lab", "b", "lab"],
            &["--keep-going", "a", "lab"],
            &["--lines", "b:3-9", "lab"],
            &["--test-name", "DA", "--map-path", "src=/DA:x", "a", "b"],
            &["--check", "a", "b"],
        ] {
            pair.agrees(words);
        }
    }
}

/// The bytes are those of the library's filters with the table lent.
#[test]
fn lines_are_kept_as_by_the_tagged_filters() {
    for house in [WORDS, ODD] {
        let pair = Pair::new(&[("same", SAME)], house);
        let (tags, text) = (
            make_tags(house).unwrap(),
            translated(SAME.as_bytes(), house),
        );
        let both = [
            lcov_sys::filter_tagged,
            lcov_sys::filter_distinct_starts_tagged,
        ];
        let [last, all] = both.map(|filter| {
            let (mut scratch, mut out) = ([0; 8 * WORDS_PER_ENTRY], [0; 256]);
            let mut answer = [0; lcov_sys::WORDS];
            let number = filter(
                &tags,
                &text,
                &[[1, 1]],
                1,
                &mut scratch,
                &mut out,
                &mut answer,
            );
            assert_eq!(number, 0);
            out[..answer[0] as usize].to_vec()
        });
        assert!(last.len() < all.len());
        let lines = ["--lines", "b:1", "same"];
        assert_eq!(pair.run_own(&lines).stdout, last);
        let same_start = [&["--same-start"], &lines[..]].concat();
        assert_eq!(pair.run_own(&same_start).stdout, all);
    }
}

/// What stands in a name or behind a tag stays, and so do the ends of lines.
#[test]
fn only_tags_are_translated() {
    for house in [WORDS, ODD] {
        let files = [("lab", LAB), ("other", OTHER), ("same", SAME)];
        let pair = Pair::new(&files, house);
        pair.agrees(&["--as-geninfo", "lab", "other"]);
        pair.agrees(&["--as-written", "--stats", "lab", "other", "lab"]);
        pair.agrees(&["--as-geninfo", "--lines", "src/decoder.c:4", "lab"]);
        let same_start = [
            "--as-geninfo",
            "--same-start",
            "--lines",
            "b:1",
            "other",
            "same",
        ];
        pair.agrees(&same_start);
    }
    let printed = Pair::new(&[("other", OTHER)], WORDS).run_own(&["other"]);
    let expected =
        "test:\nfile:b\nfunc:1,f\ncalls:0,f\nnfunc:1\nhfunc:0\nline:1,2\nline:3,4\nnline:2\nhline:2\nend\n";
    assert_eq!(String::from_utf8(printed.stdout).unwrap(), expected);
}

#[test]
fn what_is_written_to_a_file_and_read_again_is_the_same() {
    let pair = Pair::new(&[("a", &sample("room-a.info"))], ODD);
    assert!(pair.run_own(&["-o", "once", "a"]).status.success());
    assert!(pair.run_own(&["-o", "twice", "once"]).status.success());
    let (once, twice) = ["once", "twice"]
        .map(|name| fs::read(pair.own.path(name)).unwrap())
        .into();
    assert_eq!(once, twice);
    let default = pair.default.run(&["a"]).stdout;
    assert_eq!(once, translated(&default, ODD));
}

/// More files than a bundle names: what a round wrote is read by the next one in default tags.
#[test]
fn files_of_several_rounds() {
    let text = |k: usize| format!("SF:s{}\nDA:{},{k}\nend_of_record\n", k % 7, k % 5);
    let files: Vec<(String, String)> = (0..150).map(|k| (format!("f{k}"), text(k))).collect();
    let files: Vec<(&str, &str)> = files
        .iter()
        .map(|(name, text)| (&name[..], &text[..]))
        .collect();
    let names: Vec<&str> = files.iter().map(|(name, _)| *name).collect();
    for house in [WORDS, ODD] {
        let pair = Pair::new(&files, house);
        pair.agrees(&names);
        pair.agrees(&[&["--as-written", "--threads", "2"], &names[..]].concat());
    }
}

#[test]
fn gzip_and_standard_input() {
    let pair = Pair::new(&[("lab", OTHER)], ODD);
    let text = translated(OTHER.as_bytes(), ODD);
    let packed = fs::File::create(pair.own.path("lab.gz")).unwrap();
    let mut packed = flate2::write::GzEncoder::new(packed, flate2::Compression::fast());
    packed.write_all(&text).unwrap();
    packed.finish().unwrap();
    let plain = pair.run_own(&["lab"]).stdout;
    assert_eq!(pair.run_own(&["lab.gz"]).stdout, plain);
    let words = ["--tags", "tags", "-"];
    let house = Pair::new(&[("lab", OTHER)], WORDS);
    let text = String::from_utf8(translated(OTHER.as_bytes(), WORDS)).unwrap();
    let from_input = house.own.run_with(&words, &text).stdout;
    assert_eq!(from_input, house.run_own(&["lab"]).stdout);
}

/// FNL and FNA are no kinds of the table: `--as-geninfo` reads them as they are, unless they are the house's tags.
#[test]
fn functions_of_lcov_2_3() {
    let newer = "SF:a\nFNL:0,1,9\nFNA:0,7,f\nDA:1,-1\nBRDA:1,e0,0,1\nend_of_record\n";
    Pair::new(&[("a", newer)], WORDS).agrees(&["--as-geninfo", "a"]);
    let mut house = WORDS;
    (house[2], house[3]) = (b"FNL", b"FNA");
    let pair = Pair::new(&[("a", "SF:a\nFN:1,9,f\nFNDA:7,f\nend_of_record\n")], house);
    pair.agrees(&["--as-geninfo", "a"]);
    pair.agrees(&["a"]);
}

/// What the command says of a file of the house's lines: the status and the message.
fn refused(house: House, words: &[&str], text: &[u8]) -> (Option<i32>, String) {
    let pair = Pair::new(&[], house);
    fs::write(pair.own.path("a"), text).unwrap();
    let output = pair.run_own(&[words, &["a"]].concat());
    assert_eq!(output.stdout, b"");
    (output.status.code(), said(&output))
}

const TAGS: &str =
    "test, file, func, calls, nfunc, hfunc, branch, nbranch, hbranch, line, nline, hline, end";

#[test]
fn a_default_tag_that_the_table_lacks_is_unknown() {
    for name in NAMES {
        let text = format!("file:a\n{name}:1,1\nend\n");
        let carets = "^".repeat(name.len());
        let told = format!("lcov-gather: a:2: tag unknown (refusal 1)\n  2 | {name}:1,1\n    | {carets}\n  help: the tags are {TAGS}\n");
        for words in [&[][..], &["--as-written"], &["--lossy"]] {
            assert_eq!(
                refused(WORDS, words, text.as_bytes()),
                (Some(1), told.clone())
            );
        }
        let geninfo = told.replace("end\n", "end, FNL, FNA\n");
        assert_eq!(
            refused(WORDS, &["--as-geninfo"], text.as_bytes()),
            (Some(1), geninfo)
        );
    }
    let (status, told) = refused(WORDS, &[], OTHER.as_bytes());
    assert_eq!(status, Some(1));
    assert!(
        told.contains("a:1: tag unknown (refusal 1)\n  1 | TN:\n"),
        "{told}"
    );
}

/// The excerpt has the line of the file, with carets under the same field, and the help has the house's tag.
#[test]
fn refusals_show_the_line_of_the_file() {
    for (line, number, carets, help) in [
        (
            "line:17",
            2,
            "       ^",
            "the line has the form line:LINE,COUNT[,CHECKSUM]",
        ),
        (
            "branch:1,2,3,4,5",
            3,
            "               ^",
            "the line has the form branch:LINE,BLOCK,BRANCH,TAKEN",
        ),
        (
            "nline:1x",
            5,
            "      ^^",
            "the line has the form nline:FOUND",
        ),
        (
            "line:4294967296,1",
            6,
            "     ^^^^^^^^^^",
            "LINE is at most 4294967295",
        ),
        (
            "calls:+1,f",
            19,
            "      ^^",
            "the line has the form calls:COUNT,NAME; a number has digits alone",
        ),
        (
            "func:9,8,f",
            23,
            "       ^",
            "a function ends on its start line",
        ),
    ] {
        let text = format!("file:a\n{line}\nend\n");
        let expected = format!("(refusal {number})\n  2 | {line}\n    | {carets}\n  help: {help}");
        for words in [&[][..], &["--check"]] {
            let (status, told) = refused(WORDS, words, text.as_bytes());
            assert_eq!(status, Some(1));
            assert!(told.contains(&expected), "{told}");
        }
    }
}

/// Commas of a tag are none of a field, and what comes again is told as it is.
#[test]
fn tags_with_commas_in_refusals() {
    let text = b"FN:a\nFN,:18446744073709551615,f\nFN,:1,f\nSF\n";
    let (status, told) = refused(ODD, &[], text);
    assert_eq!(status, Some(1));
    let expected = "  3 | FN,:1,f\n    |     ^\n  function f in the section of a, which began on line 1, has 18446744073709551615 calls before this line\n";
    assert!(told.contains(expected), "{told}");
    let (_, told) = refused(ODD, &[], b"FN:a\nFN,:+1,f\nSF\n");
    assert!(told.contains("  2 | FN,:+1,f\n    |     ^^\n"), "{told}");
    let (_, told) = refused(ODD, &[], b"FN:a\n\x80\xff:1,2\nSF\n");
    assert!(told.contains("  2 | \\x80\\xff:1,2\n    |            ^\n  help: the line has the form \\x80\\xff:FOUND\n"), "{told}");
}

/// `--check` goes on after a line that is refused, and each is shown as it is in the file.
#[test]
fn every_refusal_of_a_file() {
    let text = b"test:t\nfile:a\nDA:1,1\nline:x,1\ntest:u\nline:1,1\nline:1,2\nend\nfile:b\n";
    let (status, told) = refused(WORDS, &["--check"], text);
    assert_eq!(status, Some(1));
    for expected in [
        "a:3: tag unknown (refusal 1)\n  3 | DA:1,1\n    | ^^\n",
        "a:4: field 1: bad digit (refusal 5)\n  4 | line:x,1\n    |      ^\n",
        "a:5: TN inside a section (refusal 7)\n  5 | test:u\n    | ^^^^\n  the section of a under the test name t",
        "a:10: the text ends inside a section (refusal 8)\n",
        "a:7: DA:1 replaces the one at a:6\n",
    ] {
        assert!(told.contains(expected), "{told}");
    }
}

#[test]
fn a_refused_file_is_left_out() {
    let pair = Pair::new(&[("good", OTHER)], WORDS);
    fs::write(pair.own.path("bad"), OTHER).unwrap();
    let output = pair.run_own(&["--keep-going", "bad", "good"]);
    assert_eq!(output.status.code(), Some(4), "{}", said(&output));
    assert_eq!(output.stdout, pair.run_own(&["good"]).stdout);
}

#[test]
fn conflicts_between_files_are_those_of_the_default_run() {
    let files = [
        ("a", "SF:m\nFN:1,f\nDA:1,1,x\nend_of_record\n"),
        ("b", "SF:m\nFN:2,f\nDA:1,1,y\nend_of_record\n"),
    ];
    let pair = Pair::new(&files, ODD);
    for words in [&["a", "b"][..], &["--check", "a", "b"]] {
        let (default, own) = (pair.default.run(words), pair.run_own(words));
        assert_eq!(own.status.code(), Some(1));
        assert_eq!(said(&own), said(&default));
    }
    pair.agrees(&["--lossy", "a", "b"]);
}

/// A wrong file of tags ends the run before a tracefile is looked at.
#[test]
fn wrong_files_of_tags() {
    let lines: Vec<String> = NAMES.map(|name| format!("{name} x{name}\n")).to_vec();
    let all = lines.concat();
    for (text, told) in [
        (all.replace("DA xDA", "DB x"), "tags:10: the line begins with no default tag\n  10 | DB x\n     | ^^\n  help: a line is one of TN, SF, FN, FNDA, FNF, FNH, BRDA, BRF, BRH, DA, LF, LH, end_of_record, a blank, and the tag in its place\n"),
        (all.clone() + "TN y\n", "tags:14: a default tag comes again\n  14 | TN y\n     | ^^\n  help: line 1 has it too\n"),
        (lines[1..].concat(), "tags: no line begins with TN\n  help: each default tag has a line, also where it stays as it is\n"),
        (all.replace("xSF", ""), "tags:2: the table of tags is not well formed (refusal 21)\n  2 | SF \n    |    ^\n  help: the tag is missing after the blank\n"),
        (all.replace("xSF", "a:b"), "tags:2: the table of tags is not well formed (refusal 21)\n  2 | SF a:b\n    |    ^^^\n  help: no tag has a colon\n"),
        (all.replace("xSF", "0123456789abcdefg"), "tags:2: the table of tags is not well formed (refusal 21)\n  2 | SF 0123456789abcdefg\n    |    ^^^^^^^^^^^^^^^^^\n  help: a tag has at most 16 bytes\n"),
        (all.replace("xLH", "xTN"), "tags:12: two tags of the table are equal (refusal 22)\n  12 | LH xTN\n     |    ^^^\n  help: line 1 has the same tag\n"),
    ] {
        let folder = Folder::with(&[("tags", &text)]);
        let output = folder.run(&["--tags", "tags", "missing"]);
        assert_eq!(output.status.code(), Some(2));
        assert_eq!(said(&output), format!("lcov-gather: {told}"));
        assert_eq!(output.stdout, b"");
    }
    let missing = Folder::new().run(&["--tags", "none", "a"]);
    assert_eq!(missing.status.code(), Some(2));
    assert!(
        said(&missing).starts_with("lcov-gather: none: "),
        "{}",
        said(&missing)
    );
}
