//! `--totals`: the page of what is written, and the table.

mod common;

use common::{
    missing, printed, readme_runs, real_files, said, said_in_short, section, Folder, Random, ROOT,
};
use std::fs::{self, File};
use std::path::{Path, PathBuf};
use std::process::{Command, Stdio};

/// Hit and found of functions, branches and lines.
type Counts = [u64; 6];

/// The columns before the names.
fn columns(counts: Counts) -> String {
    let [fh, ff, bh, bf, lh, lf] = counts;
    let share = (1000 * lh).checked_div(lf);
    let share = share.map_or_else(|| "-".to_owned(), |share| share.to_string());
    format!("{fh}/{ff} {bh}/{bf} {lh}/{lf} {share}")
}

/// The page of a tracefile that was written, counted from its FNDA, BRDA and DA lines.
fn page_of(written: &str) -> String {
    let (mut page, mut all, mut open) = (String::new(), Counts::default(), Counts::default());
    let mut names = Vec::new();
    for line in written.lines() {
        let (tag, body) = line.split_once(':').unwrap_or((line, ""));
        let (place, count) = match tag {
            "FNDA" => (0, body.split(',').next()),
            "BRDA" => (2, body.rsplit(',').next()),
            "DA" => (4, body.split(',').nth(1)),
            "TN" | "SF" => {
                names.push(body);
                continue;
            }
            "end_of_record" => {
                let names = std::mem::take(&mut names);
                if open != Counts::default() {
                    page += &format!("{} {}\n", columns(open), names.join(" "));
                }
                open = Counts::default();
                continue;
            }
            _ => continue,
        };
        let is_hit = u64::from(!matches!(count, Some("0" | "-")));
        for counts in [&mut open, &mut all] {
            counts[place] += is_hit;
            counts[place + 1] += 1;
        }
    }
    page + &columns(all) + "\n"
}

/// README shows runs, and what they print.
#[test]
fn the_readme_shows_what_is_printed() {
    let runs = readme_runs("--totals");
    assert_eq!(runs.len(), 2, "a page and a table");
    for (words, shown, output) in runs {
        assert_eq!(printed(&output), shown, "{words}");
    }
}

const TEXT: &str = "TN:t\nSF:src/a b.c\nFN:1,f\nFNDA:1,f\nFNDA:0,g\nFNF:9\nFNH:9\nBRDA:1,0,0,-\nBRDA:1,0,1,2\nDA:1,1\nDA:2,0\nDA:3,5\nLF:7\nLH:7\nend_of_record\nSF:src/z.c\nDA:9,0\nend_of_record\n";
const PAGE: &str = "0/0 0/0 0/1 0  src/z.c\n1/2 1/2 2/3 666 t src/a b.c\n1/2 1/2 2/4 500\n";

fn text_folder() -> Folder {
    Folder::with(&[("a", TEXT)])
}

#[test]
fn the_page_alone_or_beside_the_result() {
    let folder = text_folder();
    let plain = printed(&folder.run(&["--as-written", "a"]));
    for totals in ["--totals", "--totals=page"] {
        let alone = folder.run(&["--as-written", totals, "a"]);
        assert_eq!((printed(&alone), said(&alone)), (PAGE.into(), "".into()));
        let beside = folder.run(&["--as-written", totals, "-o", "out", "a"]);
        assert_eq!((printed(&beside), said(&beside)), (PAGE.into(), "".into()));
        assert_eq!(folder.text("out"), plain);
        fs::remove_file(folder.path("out")).unwrap();
    }
    assert_eq!(page_of(&plain), PAGE);
}

#[test]
fn nothing_is_an_empty_page() {
    let folder = Folder::with(&[("a", ""), ("b", "TN:t\nSF:a\nend_of_record\n")]);
    let page = printed(&folder.run(&["-q", "--totals", "a", "b"]));
    assert_eq!(page, "0/0 0/0 0/0 -\n");
}

/// What `--lines` empties stays in the result with its names, and has no line.
#[test]
fn the_page_is_that_of_what_lines_keep() {
    let folder = text_folder();
    let words = [
        "--as-written",
        "--lines",
        "z.c:1-3",
        "--totals",
        "-o",
        "out",
        "a",
    ];
    let page = printed(&folder.run(&words));
    assert_eq!(page, "1/2 1/2 2/3 666 t src/a b.c\n1/2 1/2 2/3 666\n");
    assert!(folder
        .text("out")
        .starts_with("TN:\nSF:src/z.c\nend_of_record\n"));
    let words = ["--as-written", "--lines", "a b.c:2-3", "--totals", "a"];
    let page = printed(&folder.run(&words));
    assert_eq!(
        page,
        "0/0 0/0 0/1 0  src/z.c\n1/1 0/0 1/2 500 t src/a b.c\n1/1 0/0 1/3 333\n"
    );
}

const HOUSE: &str = "TN test\nSF file\nFN func\nFNDA calls\nFNF nfunc\nFNH hfunc\nBRDA branch\nBRF nbranch\nBRH hbranch\nDA line\nLF nline\nLH hline\nend_of_record end\n";

#[test]
fn house_tags_change_no_byte_of_the_page() {
    let folder = Folder::with(&[("a", TEXT), ("house", HOUSE)]);
    let mut own = String::new();
    for line in TEXT.lines() {
        let (tag, body) = line.split_once(':').unwrap_or((line, ""));
        let house = HOUSE
            .lines()
            .find_map(|row| row.strip_prefix(&format!("{tag} ")));
        let colon = if line.contains(':') { ":" } else { "" };
        own += &format!("{}{colon}{body}\n", house.unwrap());
    }
    fs::write(folder.path("own"), own).unwrap();
    let words = [
        "--as-written",
        "--tags",
        "house",
        "--totals",
        "-o",
        "out",
        "own",
    ];
    assert_eq!(printed(&folder.run(&words)), PAGE);
    assert!(folder
        .text("out")
        .starts_with("test:\nfile:src/z.c\nline:9,0\n"));
}

/// Sections of few keys, so that files meet; each file has a line of the source file a.
fn some_text(random: &mut Random) -> String {
    let mut text = String::new();
    for test in ["", "s", "t u"] {
        for path in ["a", "b//c", "d/e f"] {
            if path != "a" && random.below(3) == 0 {
                continue;
            }
            text += &format!("TN:{test}\nSF:{path}\n");
            for name in 0..random.below(4) {
                let start = if random.below(4) == 0 { 9 } else { name };
                text += &format!("FN:{start},f{name}\nFNDA:{},f{name}\n", random.below(2));
            }
            for branch in 0..random.below(4) {
                let taken = random.of(&["-", "0", "3"]);
                text += &format!("BRDA:1,0,{branch},{taken}\n");
            }
            for line in 0..1 + random.below(5) {
                text += &format!("DA:{line},{}\n", random.below(2));
            }
            text += "end_of_record\n";
        }
    }
    text
}

/// So many files, and their names.
fn some_files(folder: &Folder, many: usize, random: &mut Random) -> Vec<String> {
    let names: Vec<String> = (0..many).map(|number| format!("f{number}")).collect();
    for name in &names {
        fs::write(folder.path(name), some_text(random)).unwrap();
    }
    names
}

#[test]
fn under_all_options_the_page_is_that_of_what_is_written() {
    let folder = Folder::new();
    let mut random = Random(53);
    for round in 0..12 {
        let names = some_files(&folder, 1 + round % 7, &mut random);
        let names: Vec<&str> = names.iter().map(String::as_str).collect();
        for options in [
            &["--lossy"][..],
            &["--lossy", "--as-geninfo"],
            &["--lossy", "--as-written"],
            &["--lossy", "--as-geninfo", "--test-name", "x y"],
            &["--lossy", "--map-path", "d=src"],
            &["--lossy", "--lines", "a:1-2", "--same-start"],
            &["--keep-going"],
            &["--lossy", "--threads", "1"],
        ] {
            let words = [options, &["-q", "--totals", "-o", "out"], &names].concat();
            let output = folder.run(&words);
            let is_done = matches!(output.status.code(), Some(0 | 4));
            assert!(is_done, "{options:?}: {}", said(&output));
            let page = String::from_utf8(output.stdout).unwrap();
            assert_eq!(page, page_of(&folder.text("out")), "{options:?}");
        }
    }
}

/// More files than a round takes, so that what was gathered is in pieces, and more items than a call may have; any number of threads.
#[test]
fn a_page_of_any_size() {
    let folder = Folder::new();
    let lines = |from: u32| (from..from + 3_000).map(|line| (line, u64::from(line % 3)));
    let mut names = Vec::new();
    for file in 0..70 {
        let name = format!("f{file:02}");
        let sections = [file % 40, 40 + file % 7].map(|path| {
            let lines: Vec<(u32, u64)> = lines(file).collect();
            section(&format!("p{path:02}"), &lines)
        });
        fs::write(folder.path(&name), sections.concat()).unwrap();
        names.push(name);
    }
    let names: Vec<&str> = names.iter().map(String::as_str).collect();
    let mut pages = Vec::new();
    for threads in ["1", "2", "5"] {
        let words = [&["--threads", threads, "--totals", "-o", "out"], &names[..]].concat();
        pages.push(printed(&folder.run(&words)));
    }
    assert_eq!(pages[0], page_of(&folder.text("out")));
    assert_eq!((&pages[0], &pages[0]), (&pages[1], &pages[2]));
    assert_eq!(pages[0].lines().count(), 48);
    let last = pages[0].lines().last().unwrap();
    let found = last.split([' ', '/']).nth(5).unwrap();
    assert!(found.parse::<u64>().unwrap() > 2 * 65_535, "{last}");
}

#[test]
fn a_section_may_be_as_large_as_the_library_takes() {
    let lines: Vec<(u32, u64)> = (0..65_534).map(|line| (line, 1)).collect();
    let folder = Folder::with(&[
        ("a", &section("x", &lines)),
        ("b", &section("y", &[(1, 0)])),
    ]);
    assert_eq!(
        printed(&folder.run(&["--totals", "a", "b"])),
        "0/0 0/0 65534/65534 1000  x\n0/0 0/0 0/1 0  y\n0/0 0/0 65534/65535 999\n"
    );
}

#[test]
fn the_table_has_the_lowest_share_last() {
    let folder = Folder::with(&[
        ("a", &section("half", &[(1, 1), (2, 0)])),
        ("b", &section("all\u{e9}", &[(1, 1)])),
        ("c", &section("none", &[(1, 0)])),
        ("d", "TN:t\x1b\nSF:functions\nFNDA:3,f\nend_of_record\n"),
    ]);
    let words = ["--totals=table", "-o", "out", "a", "b", "c", "d"];
    let expected = "
 share  lines  functions  branches  test   file
     -    0/0        1/1       0/0  t\\x1b  functions
100.0%    1/1        0/0       0/0         all\u{e9}
 50.0%    1/2        0/0       0/0         half
  0.0%    0/1        0/0       0/0         none
 50.0%    2/4        1/1       0/0         total
";
    assert_eq!(printed(&folder.run(&words)), expected[1..]);
    assert_eq!(folder.text("out"), printed(&folder.run(&words[3..])));
}

#[test]
fn a_refused_run_prints_no_page_and_leaves_the_file() {
    let folder = Folder::with(&[("a", TEXT), ("bad", "SF:x\nDA:1\n"), ("out", "before")]);
    let refused = folder.run(&["--as-written", "--totals", "-o", "out", "a", "bad"]);
    assert_eq!(refused.status.code(), Some(1));
    assert_eq!(
        (&refused.stdout[..], folder.text("out")),
        (&b""[..], "before".into())
    );
    let refusal = "lcov-gather: bad:2: field 2: field missing (refusal 2)\n";
    assert_eq!(said_in_short(&refused), refusal);
    let unwritten = folder.run(&["--as-written", "--totals", "-o", "none/out", "a"]);
    assert_eq!(unwritten.status.code(), Some(2));
    assert_eq!(unwritten.stdout, b"");
    let kept = folder.run(&["--as-written", "--keep-going", "--totals", "a", "bad"]);
    assert_eq!(kept.status.code(), Some(4));
    assert_eq!(kept.stdout, PAGE.as_bytes());
}

#[test]
fn a_page_that_cannot_be_printed_is_told() {
    let folder = text_folder();
    let full = File::options().write(true).open("/dev/full").unwrap();
    let mut command = folder.command(&["--as-written", "--totals", "-o", "out", "a"]);
    let output = command
        .stdout(full)
        .stderr(Stdio::piped())
        .output()
        .unwrap();
    assert_eq!(output.status.code(), Some(2));
    assert!(said(&output).starts_with("lcov-gather: standard output: "));
    assert_eq!(page_of(&folder.text("out")), PAGE);
}

#[test]
fn wrong_usage() {
    let folder = text_folder();
    for (words, told) in [
        (
            &["--totals=sums", "a"][..],
            "[possible values: page, table]",
        ),
        (&["--check", "--totals", "a"], "'--totals"),
        (
            &["--totals", "-o", "-", "a"],
            "--totals prints to standard output",
        ),
    ] {
        let output = folder.run(words);
        assert_eq!(output.status.code(), Some(2), "{words:?}");
        assert!(said(&output).contains(told), "{}", said(&output));
        assert_eq!(output.stdout, b"");
    }
}

/// `lcov --summary` counts a line of two tests once: so there is one test.
const ONE_TEST: [&str; 4] = ["--lossy", "--as-geninfo", "--test-name", "all"];

/// The page of these files under one test name, and what lcov tells of the result; none where it is not installed.
fn page_and_summary(folder: &Folder, names: &[&str]) -> Option<(String, String)> {
    let words = [&ONE_TEST, &["-q", "--totals", "-o", "out"][..], names].concat();
    let page = printed(&folder.run(&words));
    assert_eq!(page, page_of(&folder.text("out")));
    let mut lcov = Command::new("lcov");
    lcov.args(["--rc", "lcov_branch_coverage=1", "--summary", "out"]);
    let summary = lcov.current_dir(&folder.0).output().ok()?;
    let told = String::from_utf8_lossy(&summary.stdout) + String::from_utf8_lossy(&summary.stderr);
    assert!(summary.status.success(), "{told}");
    Some((page, told.into_owned()))
}

/// All sums are in the summary, and of each kind some are hit and some not.
fn compare_sums(page: &str, summary: &str) {
    let last = page.lines().last().unwrap();
    let numbers: Vec<&str> = last.split([' ', '/']).collect();
    for (pair, what) in numbers.chunks(2).zip(["functions", "branches", "lines"]) {
        let (hit, found) = (pair[0], pair[1]);
        assert!(hit != "0" && hit != found, "{last}");
        let sums = format!("({hit} of {found} {what})");
        assert!(summary.contains(&sums), "{last}\n{summary}");
    }
}

#[test]
fn lcov_tells_the_same_sums() {
    let folder = Folder::new();
    let names = some_files(&folder, 2, &mut Random(7));
    let names: Vec<&str> = names.iter().map(String::as_str).collect();
    match page_and_summary(&folder, &names) {
        Some((page, told)) => compare_sums(&page, &told),
        None => missing("lcov"),
    }
}

#[test]
#[ignore = "needs the real tracefiles of LCOV_DATA"]
fn lcov_tells_the_same_sums_of_real_tracefiles() {
    for archive in ["jsoncpp-gcc", "recogniser-gcc", "recogniser-clang"] {
        let folder = Folder::new();
        let files = real_files(archive, &folder);
        let names: Vec<&str> = files.iter().map(|file| file.to_str().unwrap()).collect();
        match page_and_summary(&folder, &names) {
            Some((page, told)) => compare_sums(&page, &told),
            None => missing("lcov"),
        }
    }
}

/// Those of `make demo`, as README joins them.
#[test]
fn the_page_of_the_samples_is_that_of_their_joined_file() {
    let samples: PathBuf = Path::new(ROOT).join("tests/samples");
    let page = |names: &[&str]| {
        let mut command = Command::new(common::COMMAND);
        let output = command.arg("--totals").args(names).current_dir(&samples);
        printed(&output.output().unwrap())
    };
    let joined = fs::read_to_string(samples.join("joined.info")).unwrap();
    assert_eq!(page(&["room-a.info", "room-b.info"]), page_of(&joined));
    assert_eq!(page(&["joined.info"]), page_of(&joined));
}
