//! `--windows`: the lines hit and found over the latest tracefiles, printed and drawn. The numbers are compared with the library's call, and with
//! those of `--totals`.

mod common;

use common::{bundle, missing, printed, readme_runs, real_files, said, said_in_short, section};
use common::{some_sent_text, told_of, Folder, Random, ROOT};
use lcov_sys::{Refusal, MAX_TEXTS, WORDS, WORDS_PER_ENTRY};
use std::collections::BTreeSet;
use std::ffi::OsStr;
use std::fs;
use std::os::unix::ffi::OsStrExt;
use std::path::Path;
use std::process::Command;

/// Four nights: the second finds a line more, and the last has another file.
fn nights() -> Folder {
    Folder::with(&[
        ("n1", &section("x", &[(1, 1), (2, 0)])),
        ("n2", &section("x", &[(1, 0), (2, 1), (3, 0)])),
        ("n3", &section("x", &[(1, 0), (2, 0), (3, 0)])),
        ("n4", &section("y", &[(1, 7)])),
    ])
}

#[test]
fn each_file_has_the_lines_of_the_latest() {
    let folder = nights();
    for (width, expected) in [
        ("1", "1/2 n1\n1/3 n2\n0/3 n3\n1/1 n4\n"),
        ("2", "1/2 n1\n2/3 n2\n1/3 n3\n1/4 n4\n"),
        ("3", "1/2 n1\n2/3 n2\n2/3 n3\n2/4 n4\n"),
        ("16", "1/2 n1\n2/3 n2\n2/3 n3\n3/4 n4\n"),
    ] {
        let output = folder.run(&["--windows", width, "n1", "n2", "n3", "n4"]);
        assert_eq!(printed(&output), expected, "{width}");
        assert_eq!(said(&output), "");
        let with_equals = format!("--windows={width}");
        let words = [&with_equals, "-o", "out", "n1", "n2", "n3", "n4"];
        assert_eq!(printed(&folder.run(&words)), "");
        assert_eq!(folder.text("out"), expected);
    }
}

#[test]
fn names_are_as_given_and_files_come_from_all_places() {
    let folder = nights();
    let list = "1 1 n1\n2 2 ./n3\n2 1 n2\n3 1 n4\n";
    let output = folder.run_with(&["--windows", "2", "--revisions", "-"], list);
    assert_eq!(printed(&output), "1/2 n1\n1/3 ./n3\n1/4 n4\n");
    let words = ["--windows", "2", "--files-from", "-", "n1"];
    let output = folder.run_with(&words, "n2\nn3\n");
    assert_eq!(printed(&output), "1/2 n1\n2/3 n2\n1/3 n3\n");
    let input = section("z", &[(5, 5)]);
    let output = folder.run_with(&["--windows", "3", "-", "n1", "n2", "n3"], &input);
    assert_eq!(printed(&output), "1/1 -\n2/3 n1\n3/4 n2\n2/3 n3\n");
}

#[test]
fn a_name_may_have_any_byte() {
    let folder = nights();
    let name = OsStr::from_bytes(b"\xff n\n1 m");
    fs::rename(folder.path("n1"), folder.0.join(name)).unwrap();
    let mut command = folder.command(&["--windows", "1"]);
    let output = command.arg(name).output().unwrap();
    assert_eq!(output.stdout, b"1/2 \xff n\n1 m\n");
}

#[test]
fn the_first_window_that_is_refused_is_told_and_nothing_is_written() {
    let checked = |sum: &str| format!("SF:x\nDA:1,1,{sum}\nend_of_record\n");
    let folder = Folder::with(&[
        ("a", &checked("aa")),
        ("b", &section("x", &[(2, 1)])),
        ("c", &checked("cc")),
        ("bad", "SF:x\nDA:1\n"),
        ("twice", "SF:x\nDA:1,1\nDA:1,2\nend_of_record\n"),
        ("out", "before"),
    ]);
    let conflict = "lcov-gather: c: the checksums of a line differ (refusal 12)\n";
    let bad = "lcov-gather: bad:2: field 2: field missing (refusal 2)\n";
    for (width, files, told) in [
        ("3", &["a", "b", "c", "bad"][..], conflict),
        ("2", &["a", "b", "c", "bad"], bad),
        ("1", &["a", "bad", "twice"], bad),
    ] {
        let words = [&["--windows", width, "-o", "out"], files].concat();
        let output = folder.run(&words);
        assert_eq!(output.status.code(), Some(1), "{words:?}");
        assert_eq!(said_in_short(&output), told, "{words:?}");
        assert_eq!(folder.text("out"), "before");
        let output = folder.run(&[&["--windows", width], files].concat());
        assert_eq!(output.stdout, b"", "{words:?}");
    }
    let explained = said(&folder.run(&["--windows", "3", "a", "b", "c"]));
    let values = "line 1 in the section of x: checksum 'aa' by a:2, checksum 'cc' by c:2\n";
    assert!(explained.contains(values), "{explained}");
    let replaced = folder.run(&["--windows", "2", "a", "twice", "bad"]);
    assert_eq!(replaced.status.code(), Some(1));
    assert!(said(&replaced).contains("twice:3"), "{}", said(&replaced));
    let missing = folder.run(&["--windows", "2", "a", "none", "bad"]);
    assert_eq!(missing.status.code(), Some(2));
}

#[test]
fn a_note_is_told_once() {
    let folder = nights();
    fs::write(folder.path("empty"), "").unwrap();
    let files = ["n1", "empty", "n2", "./n1", "n3", "n4"];
    let maps = ["--map-path", "y=z", "--map-path", "no=z"];
    let words = [&["--windows", "4"], &maps[..], &files].concat();
    let output = folder.run(&words);
    assert_eq!(
        said(&output),
        "lcov-gather: empty: the file is empty\n\
         lcov-gather: ./n1: the same file as n1, counted once more\n\
         lcov-gather: --map-path no: no path begins so\n"
    );
    let quiet = folder.run(&[&["-q"], &words[..]].concat());
    assert_eq!(said(&quiet), "");
    assert_eq!(printed(&quiet), printed(&output));
    let stats = folder.run(&["--windows", "2", "--stats", "n1", "n4"]);
    let told = "n1: 6 numbers, 6 digits\nn4: 4 numbers, 4 digits\n10 numbers, 10 digits in all\n";
    assert_eq!(said(&stats), told);
}

#[test]
fn wrong_usage() {
    let folder = nights();
    for width in ["0", "17", "svg:0", "svg:17"] {
        let output = folder.run(&["--windows", width, "n1"]);
        assert_eq!(output.status.code(), Some(2), "{width}");
        let told = said(&output);
        let meaning = "the window width is 0 or above 16 (refusal 24)";
        assert!(
            told.starts_with("lcov-gather: ") && told.contains(meaning),
            "{told}"
        );
    }
    for words in [
        &["--windows", "n1"][..],
        &["--windows=", "n1"],
        &["--windows=png", "n1"],
        &["--windows"],
        &["--windows", "2"],
        &["--windows", "2", "--windows", "3", "n1"],
        &["--windows", "2", "--totals", "n1"],
        &["--windows", "2", "--check", "n1"],
        &["--windows", "2", "--keep-going", "n1"],
    ] {
        let output = folder.run(words);
        assert_eq!(output.status.code(), Some(2), "{words:?}");
        assert_eq!(output.stdout, b"", "{words:?}");
    }
}

// ---- the library's call, and the totals

/// The lines that the library writes.
fn by_library(texts: &[String], width: u32) -> Result<String, Refusal> {
    let bundle = bundle(texts);
    let mut scratch = vec![0; 4_096 * WORDS_PER_ENTRY];
    let (mut out, mut answer) = ([0; 4_096], [0; WORDS]);
    let number = lcov_sys::windows(&bundle, width, &mut scratch, &mut out, &mut answer);
    let written = Refusal::unless_answered(number, answer)?;
    Ok(String::from_utf8(out[..written as usize].to_vec()).unwrap())
}

/// What the command prints, or the first line that it tells.
fn by_command(folder: &Folder, files: &[&str], width: u32) -> Result<String, String> {
    let width = width.to_string();
    let options = ["-q", "--threads", "1", "--windows", &width];
    let output = folder.run(&[&options, files].concat());
    match output.status.code() {
        Some(1) => Err(said(&output).lines().next().unwrap().to_owned()),
        _ => Ok(printed(&output)),
    }
}

/// What the command is to print or to tell, given what the library answers.
fn expected(answer: Result<String, Refusal>, files: &[&str]) -> Result<String, String> {
    let named = |(numbers, file): (&str, &&str)| format!("{numbers} {file}\n");
    let told = |refusal: Refusal| told_of(&refusal, Path::new(files[refusal.text]));
    answer
        .map(|lines| lines.lines().zip(files).map(named).collect())
        .map_err(|refusal| format!("lcov-gather: {}", told(refusal)))
}

#[test]
fn the_command_counts_and_refuses_as_the_library_does() {
    let names: Vec<String> = (0..MAX_TEXTS).map(|k| format!("f{k}")).collect();
    let names: Vec<&str> = names.iter().map(String::as_str).collect();
    let mut random = Random(8);
    let (mut accepted, mut refusals) = (0, BTreeSet::new());
    for round in 0..600 {
        let many = 1 + random.below([7, 7, 7, MAX_TEXTS][round % 4]);
        let texts: Vec<String> = (0..many).map(|_| some_sent_text(&mut random)).collect();
        let files = &names[..many];
        let folder = Folder::new();
        for (file, text) in files.iter().zip(&texts) {
            fs::write(folder.path(file), text).unwrap();
        }
        let width = [1, 2, 3, 16][random.below(4)];
        let answer = by_library(&texts, width);
        match &answer {
            Ok(_) => accepted += 1,
            Err(refusal) => {
                refusals.insert(refusal.number);
            }
        }
        let told = by_command(&folder, files, width);
        assert_eq!(told, expected(answer, files), "{width}: {texts:?}");
    }
    assert!(accepted > 100, "{accepted}");
    assert_eq!(Vec::from_iter(refusals), [1, 2, 5, 7, 8, 11, 12, 13]);
}

/// The last line of `--totals` has the lines as its third column.
fn lines_of_totals(folder: &Folder, words: &[&str]) -> String {
    let page = printed(&folder.run(&[&["-q", "--totals"], words].concat()));
    let sums = page.lines().last().unwrap();
    sums.split(' ').nth(2).unwrap().to_owned()
}

#[test]
fn under_all_options_a_window_has_the_totals_of_its_files() {
    let folder = nights();
    let house = "TN t\nSF s\nFN f\nFNDA c\nFNF x\nFNH y\nBRDA b\nBRF v\nBRH w\nDA d\nLF l\nLH h\nend_of_record .\n";
    fs::write(folder.path("house"), house).unwrap();
    let twice = "TN:t\nSF:x\nFN:1,f\nFN:1,g\nDA:1,1\nDA:1,0\nDA:9,3\nend_of_record\nSF:x\nDA:4,0\nend_of_record\n";
    fs::write(folder.path("twice"), twice).unwrap();
    fs::write(folder.path("own"), "s:x\nd:1,0\nd:5,1\nh:9\n.\n").unwrap();
    for (options, files) in [
        (&["--as-geninfo"][..], &["n1", "twice", "n2", "n4"][..]),
        (&["--as-written"], &["twice", "n1", "twice", "n4"]),
        (&["--lossy", "--test-name", "a"], &["n1", "n2", "n3", "n4"]),
        (&["--map-path", "y=x"], &["n4", "n1", "n2", "n3"]),
        (&["--lines", "x:2-", "--same-start"], &["n1", "n2", "n3"]),
        (&["--threads", "1"], &["n1", "n2", "n3", "n4"]),
        (&["--tags", "house"], &["own", "own"]),
    ] {
        for width in [1, 2, 3] {
            compare_with_totals(&folder, options, files, width);
        }
    }
}

fn compare_with_totals(folder: &Folder, options: &[&str], files: &[&str], width: usize) {
    let width_word = width.to_string();
    let words = [options, &["-q", "--windows", &width_word], files].concat();
    let lines = printed(&folder.run(&words));
    assert_eq!(lines.lines().count(), files.len());
    for (line, end) in lines.lines().zip(1..) {
        let window = &files[usize::saturating_sub(end, width)..end];
        let totals = lines_of_totals(folder, &[options, window].concat());
        assert_eq!(line, format!("{totals} {}", files[end - 1]), "{words:?}");
    }
}

#[test]
#[ignore = "needs the real tracefiles of LCOV_DATA"]
fn windows_of_real_tracefiles_have_their_totals() {
    let folder = Folder::new();
    let files = real_files("jsoncpp-gcc", &folder);
    let names: Vec<&str> = files.iter().map(|file| file.to_str().unwrap()).collect();
    for width in [1, 4, 16] {
        compare_with_totals(&folder, &["--as-geninfo"], &names, width);
    }
}

/// More files than a bundle names, and more items in a window than a call takes.
#[test]
fn any_number_of_files_and_lines() {
    let folder = Folder::new();
    let names: Vec<String> = (0..150).map(|k| format!("f{k}")).collect();
    for (name, k) in names.iter().zip(0_u32..) {
        let lines: Vec<(u32, u64)> = (0..5_000)
            .map(|l| (k * 1_000 + l, u64::from(l / 4_500)))
            .collect();
        fs::write(folder.path(name), section(&format!("s{}", k % 2), &lines)).unwrap();
    }
    let words: Vec<&str> = ["-q", "--windows", "16"]
        .into_iter()
        .chain(names.iter().map(String::as_str))
        .collect();
    let printed = printed(&folder.run(&words));
    assert_eq!(printed.lines().count(), names.len());
    for (line, k) in printed.lines().zip(0_u32..) {
        // Files of one section are 2,000 lines apart, and each hits its last 500.
        let files = (k + 1).min(16);
        let of = |own: u32| {
            if own == 0 {
                [0, 0]
            } else {
                [500 * own, 5_000 + 2_000 * (own - 1)]
            }
        };
        let [a, b] = [of(files / 2), of(files - files / 2)];
        assert_eq!(line, format!("{}/{} f{k}", a[0] + b[0], a[1] + b[1]));
    }
    let large: Vec<(u32, u64)> = (0..65_534).map(|line| (line, 1)).collect();
    fs::write(folder.path("x"), section("x", &large)).unwrap();
    fs::write(folder.path("y"), section("y", &large)).unwrap();
    let output = folder.run(&["--windows", "2", "x", "y", "f0"]);
    assert_eq!(
        common::printed(&output),
        "65534/65534 x\n131068/131068 y\n66034/70534 f0\n"
    );
}

/// README shows a run, and docs has the drawing of it.
#[test]
fn the_readme_shows_what_is_printed_and_drawn() {
    let runs = readme_runs("--windows");
    assert_eq!(runs.len(), 2, "lines and a drawing");
    for (words, shown, output) in runs {
        let shown = match words.starts_with("--windows=svg") {
            true => fs::read_to_string(Path::new(ROOT).join("docs/windows.svg")).unwrap(),
            false => shown,
        };
        assert_eq!(printed(&output), shown, "{words}");
    }
}

// ---- the drawing

const ELEMENTS: &str = "
import sys, xml.etree.ElementTree as tree
for element in tree.parse(sys.argv[1]).iter():
    print(element.tag, ' '.join(element.attrib), (element.text or '').strip(), sep='\\t')
";

/// An element with the names of its attributes and its text.
type Element = [String; 3];

/// What python3 reads of a drawing, which is to be well-formed XML; none where it is not installed.
fn elements(folder: &Folder, svg: &str) -> Option<Vec<Element>> {
    let mut python = Command::new("python3");
    python
        .args(["-X", "utf8", "-c", ELEMENTS])
        .arg(folder.path(svg));
    let Ok(output) = python.output() else {
        missing("python3");
        return None;
    };
    let all = printed(&output);
    let lines = all.lines().map(|line| {
        let mut parts = line.splitn(3, '\t').map(str::to_owned);
        std::array::from_fn(|_| parts.next().unwrap())
    });
    Some(lines.collect())
}

fn texts_of(elements: &[Element], tag: &str) -> Vec<String> {
    let tag = format!("{{http://www.w3.org/2000/svg}}{tag}");
    let of_tag = elements.iter().filter(|[own, ..]| *own == tag);
    of_tag.map(|[.., text]| text.clone()).collect()
}

#[test]
fn a_drawing_has_the_numbers_of_the_lines() {
    let folder = nights();
    let files = ["n1", "n2", "n3", "n4"];
    let draw = |form: &str, files: &[&str]| {
        let words = [&[form, "-o", "out.svg"], files].concat();
        assert_eq!(printed(&folder.run(&words)), "");
        elements(&folder, "out.svg")
    };
    let Some(drawn) = draw("--windows=svg:2", &files) else {
        return;
    };
    let titles = texts_of(&drawn, "title");
    assert_eq!(
        titles[0],
        "Lines hit and found in each build and the up to 1 before it"
    );
    let builds = [
        "n1: 1/2, 50.0%",
        "n2: 2/3, 66.6%",
        "n3: 1/3, 33.3%",
        "n4: 1/4, 25.0%",
    ];
    assert_eq!(titles[1..], builds);
    let texts = texts_of(&drawn, "text");
    for text in ["50.0%", "66.6%", "33.3%", "25.0%", "n1", "n2", "n3", "n4"] {
        assert_eq!(texts.iter().filter(|own| *own == text).count(), 1, "{text}");
    }
    assert_eq!(
        texts_of(&drawn, "circle").len(),
        5,
        "four builds and the legend"
    );
    let alone = draw("--windows=svg", &files).unwrap();
    assert_eq!(texts_of(&alone, "title")[2], "n2: 1/3, 33.3%");
    fs::write(folder.path("none"), "").unwrap();
    let none = draw("--windows=svg:16", &["none"]).unwrap();
    assert_eq!(texts_of(&none, "title")[1], "none: 0/0, -");
}

/// A reader of the drawing runs nothing that a name has in it, and no other file is read.
#[test]
fn names_stay_names_in_a_drawing() {
    let folder = Folder::new();
    let long = "x".repeat(200);
    let names: [(&[u8], &str); 8] = [
        (b"<script>alert(1)<", "<script>alert(1)<"),
        (b"a\" onload='b'>&amp;", "a\" onload='b'>&amp;"),
        (b"]]><!--", "]]><!--"),
        (b"\t\n\x1b\0"[..3].as_ref(), "\\x09\\x0a\\x1b"),
        (b"\xff\xfe\xc3", "\\xff\\xfe\\xc3"),
        ("\u{ffff}\u{85}".as_bytes(), "\u{fffd}\\xc2\\x85"),
        ("\u{e9}\u{4e2d}".as_bytes(), "\u{e9}\u{4e2d}"),
        (long.as_bytes(), &long),
    ];
    let mut command = folder.command(&["--windows=svg", "-o", "out.svg"]);
    for (name, _) in names {
        let path = folder.0.join(OsStr::from_bytes(name));
        fs::write(&path, section("x", &[(1, 1)])).unwrap();
        command.arg(OsStr::from_bytes(name));
    }
    printed(&command.output().unwrap());
    let Some(drawn) = elements(&folder, "out.svg") else {
        return;
    };
    let titles = texts_of(&drawn, "title");
    let shown = names.map(|(_, shown)| format!("{shown}: 1/1, 100.0%"));
    assert_eq!(titles[1..], shown);
    let short = format!("\u{2026}{}", &long[..28]);
    assert!(texts_of(&drawn, "text").contains(&short));
    let tags = [
        "svg", "title", "rect", "path", "text", "polyline", "circle", "g",
    ];
    let known: usize = tags.iter().map(|tag| texts_of(&drawn, tag).len()).sum();
    assert_eq!(known, drawn.len());
    let attributes = drawn.iter().flat_map(|[_, names, _]| names.split(' '));
    for attribute in attributes {
        let is_inert =
            !attribute.starts_with("on") && !attribute.contains("href") && attribute != "style";
        assert!(is_inert, "{attribute}");
    }
}

#[test]
fn many_builds_are_drawn_without_marks_and_with_some_names() {
    let folder = Folder::new();
    let names: Vec<String> = (0..500).map(|k| format!("build-{k:03}")).collect();
    for (name, k) in names.iter().zip(0..) {
        fs::write(folder.path(name), section("x", &[(1, 1), (2 + k % 7, 0)])).unwrap();
    }
    let list = names.join("\n");
    let words = [
        "-q",
        "--windows=svg:3",
        "--files-from",
        "-",
        "-o",
        "out.svg",
    ];
    printed(&folder.run_with(&words, &list));
    let Some(drawn) = elements(&folder, "out.svg") else {
        return;
    };
    assert_eq!(texts_of(&drawn, "title").len(), 501);
    assert_eq!(texts_of(&drawn, "circle").len(), 1, "that of the legend");
    let texts = texts_of(&drawn, "text");
    let named: Vec<&String> = texts
        .iter()
        .filter(|text| text.starts_with("build-"))
        .collect();
    assert!(named.len() > 10 && named.len() < 60, "{named:?}");
    assert_eq!(*named.last().unwrap(), "build-499");
}
