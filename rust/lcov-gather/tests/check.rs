//! `--check` tells all that is wrong and writes nothing; `--keep-going` leaves out what is refused.

mod common;

use common::{printed, said, said_in_short, section, Folder};
use std::fs;
use std::process::Output;
use std::time::Instant;

/// Lines parted by blanks, each with byte 10 after it.
fn text(lines: &str) -> String {
    lines.split(' ').map(|line| format!("{line}\n")).collect()
}

const GREATEST: &str = "18446744073709551615";

/// Files of every fate. In order, `start` is in conflict with `good`, and `after` with `start` alone, which is left out.
fn folder() -> Folder {
    Folder::with(&[
        ("good", &text("TN: SF:x FN:3,f DA:1,1 end_of_record")),
        ("digit", &text("SF:x DA:1,z end_of_record")),
        (
            "twice",
            &text("SF:x DA:1,1 DA:2,2 DA:1,3 DA:2,4 end_of_record"),
        ),
        (
            "start",
            &text("SF:x FN:4,f FN:5,g DA:1,1,sum end_of_record"),
        ),
        ("after", &text("SF:x FN:6,g DA:1,1,other end_of_record")),
        ("sum", &text(&format!("SF:x DA:1,{GREATEST} end_of_record"))),
        ("out", "old"),
    ])
}

const FILES: [&str; 6] = ["good", "digit", "twice", "start", "after", "sum"];

fn run(folder: &Folder, words: &[&str], files: &[&str]) -> Output {
    folder.run(&[words, files].concat())
}

#[test]
fn every_refusal_of_every_file_is_told() {
    let folder = folder();
    let output = run(&folder, &["--check"], &FILES);
    assert_eq!(output.status.code(), Some(1));
    assert!(output.stdout.is_empty());
    let expected = [
        "lcov-gather: digit:2: field 2: bad digit (refusal 5)",
        "  2 | DA:1,z",
        "    |      ^",
        "  help: the line has the form DA:LINE,COUNT[,CHECKSUM]",
        "lcov-gather: twice:4: DA:1 replaces the one at twice:2",
        "lcov-gather: twice:5: DA:2 replaces the one at twice:3",
        "lcov-gather: refused, since counts or test names may be lost; --as-geninfo adds them up, --as-written takes the file as it is",
        "lcov-gather: start: the start lines of a function differ (refusal 11)",
        "  function f in the section of x: start line 3 by good:3, start line 4 by start:2",
        "  help: the files are of different sources or compilers; --lossy keeps the later start line",
        "lcov-gather: sum: the counts of a line or branch add up past 2^64 - 1 (refusal 13)",
        "  line 1 in the section of x: the sum so far is 2, last added to at after:3, and sum:2 adds 18446744073709551615",
        "  help: a count is damaged; leave the file out, as --keep-going does",
        "lcov-gather: 4 of 6 files are refused",
    ];
    let told = said(&output);
    assert_eq!(told.lines().collect::<Vec<_>>(), expected);
    let quiet = said(&run(&folder, &["--check", "--quiet"], &FILES));
    assert_eq!(quiet.lines().collect::<Vec<_>>(), expected[..13]);
}

#[test]
fn more_than_ten_replacements_and_every_conflict_are_told() {
    let repeated = "DA:1,1 ".repeat(31);
    let functions = |start: u32| {
        let lines: String = (0..30)
            .map(|k| format!("FN:{},f{k}\n", start + k))
            .collect();
        format!("SF:x\n{lines}end_of_record\n")
    };
    let folder = Folder::with(&[
        ("many", &text(&format!("SF:y {repeated}end_of_record"))),
        ("a", &functions(1)),
        ("b", &functions(2)),
    ]);
    let told = said(&run(&folder, &["--check"], &["many", "a", "b"]));
    assert_eq!(
        told.matches("DA:1 replaces the one at").count(),
        30,
        "{told}"
    );
    assert_eq!(told.matches("  function f").count(), 30, "{told}");
    assert!(
        told.ends_with("\nlcov-gather: 2 of 3 files are refused\n"),
        "{told}"
    );
}

/// Not the first alone: each line is read, and those that are refused are left out when the lines after them are looked at.
#[test]
fn every_line_that_is_refused_is_told() {
    let bad = "TN:t SF:a DA:1,x DA:1,1 SF:b TN:u FNL:1 DA:2,+1 DA:1,2 BRDA:1,0,0,-5 end_of_record SF:c DA:,1";
    let folder = Folder::with(&[("bad", &text(bad))]);
    let told = |options: &[&str]| {
        let output = run(&folder, &[&["--check"], options].concat(), &["bad"]);
        assert_eq!(output.status.code(), Some(1));
        let lines = said_in_short(&output);
        lines.lines().map(str::to_owned).collect::<Vec<_>>()
    };
    let expected = [
        "lcov-gather: bad:3: field 2: bad digit (refusal 5)",
        "lcov-gather: bad:5: second SF in a section (refusal 25)",
        "lcov-gather: bad:6: TN inside a section (refusal 7)",
        "lcov-gather: bad:7: tag unknown (refusal 1)",
        "lcov-gather: bad:8: field 2: number with a plus sign (refusal 19)",
        "lcov-gather: bad:10: field 4: bad digit (refusal 5)",
        "lcov-gather: bad:13: field 1: number empty (refusal 4)",
        "lcov-gather: bad:14: the text ends inside a section (refusal 8)",
        "lcov-gather: bad:9: DA:1 replaces the one at bad:4",
        "lcov-gather: refused, since counts or test names may be lost; --as-geninfo adds them up, --as-written takes the file as it is",
        "lcov-gather: 1 of 1 files are refused",
    ];
    assert_eq!(told(&[]), expected);
    let taken = |line: &&&str| !line.contains("DA:1 ") && !line.contains("counts or");
    let written: Vec<&str> = expected.iter().filter(taken).copied().collect();
    assert_eq!(told(&["--as-written"]), written);
    let read = |line: &&&str| !line.contains("bad:10:");
    let geninfo: Vec<&str> = written.iter().filter(read).copied().collect();
    assert_eq!(told(&["--as-geninfo"]), geninfo);
}

/// One refusal for one wrong line: an FNA is not told where its FNL is, and all lines are those of the file.
#[test]
fn wrong_lines_of_other_producers_are_told_once() {
    let wrong = "SF:a FNL:0,9,8 FNA:0,1,f FNL:1,x FNA:1,1,g FNA:7,1,h FNL:2,5 FNA:2,1,3,k BRDA:1,e5,0,x DA:1,-1 FNA:2,1,m end_of_record \
                 FNL:0,1 FNA:0,1,q TN:u end_of_record FNA:0,1,z";
    let folder = Folder::with(&[("wrong", &text(wrong))]);
    let output = run(&folder, &["--check", "--as-geninfo"], &["wrong"]);
    let expected = "\
lcov-gather: wrong:2: end line below the start line (refusal 23)
  2 | FNL:0,9,8
    |         ^
  help: a function ends on its start line or on a later one; capture the file again, or correct the line
lcov-gather: wrong:4: tag unknown (refusal 1)
  4 | FNL:1,x
    |       ^
  help: the line has the form FNL:INDEX,START[,END]
lcov-gather: wrong:6: FNA names index 7, which no FNL before it in its section gives; capture the file again
lcov-gather: wrong:8: FNA names function 3,k, whose digits FN would take for an end line; give FNL its end line
lcov-gather: wrong:9: field 4: bad digit (refusal 5)
  9 | BRDA:1,e5,0,x
    |             ^
  help: the line has the form BRDA:LINE,BLOCK,BRANCH,TAKEN
lcov-gather: wrong:15: TN inside a section (refusal 7)
  15 | TN:u
     | ^^
  the section without a path, which began on line 13, is still open
  help: an end_of_record is missing before this line
lcov-gather: wrong:17: FNA names index 0, which no FNL before it in its section gives; capture the file again
lcov-gather: 1 of 1 files are refused
";
    assert_eq!(said(&output), expected);
}

#[test]
fn lines_with_other_names_and_paths_are_shown_as_they_are() {
    let folder = Folder::with(&[("bad", &text("SF:/b/x DA:x SF:/b/y TN:u end_of_record"))]);
    let options = ["--check", "--test-name", "all", "--map-path", "/b=/s"];
    let told = said(&run(&folder, &options, &["bad"]));
    for line in ["\n  3 | SF:/b/y\n", "\n  4 | TN:u\n"] {
        assert_eq!(told.matches(line).count(), 1, "{told}");
    }
}

#[test]
fn every_conflict_of_a_file_with_itself_is_told() {
    let own = "SF:a FN:1,f FN:2,f FN:3,g FN:4,g DA:1,1,x DA:1,1,y end_of_record";
    let folder = Folder::with(&[("own", &text(own))]);
    let told = said(&run(&folder, &["--check", "--as-geninfo"], &["own"]));
    for what in ["  function f in", "  function g in", "  line 1 in"] {
        assert_eq!(told.matches(what).count(), 1, "{told}");
    }
}

#[test]
fn files_that_fit_have_status_0_and_nothing_is_written() {
    let folder = folder();
    let before = folder.names();
    let output = run(&folder, &["--check"], &["good", "after"]);
    assert_eq!(output.status.code(), Some(0));
    assert!(output.stdout.is_empty());
    assert_eq!(said(&output), "lcov-gather: 0 of 2 files are refused\n");
    assert_eq!(said(&run(&folder, &["--check", "-q"], &["good"])), "");
    assert_eq!(folder.names(), before);
}

/// What other options take is no refusal.
#[test]
fn options_change_what_is_refused() {
    let folder = folder();
    for (words, files, status) in [
        (&["--check"][..], ["good", "start"], 1),
        (&["--check", "--lossy"], ["good", "start"], 0),
        (&["--check"], ["good", "twice"], 1),
        (&["--check", "--as-written"], ["good", "twice"], 0),
        (&["--check", "--map-path", "x=y"], ["good", "start"], 1),
    ] {
        let output = run(&folder, words, &files);
        assert_eq!(
            output.status.code(),
            Some(status),
            "{words:?} {files:?}: {}",
            said(&output)
        );
    }
}

#[test]
fn a_file_that_can_not_be_read_does_not_end_the_check() {
    let folder = folder();
    fs::write(folder.path("cut.gz"), b"\x1f\x8b\x08").unwrap();
    let output = run(
        &folder,
        &["--check"],
        &["missing", "cut.gz", "digit", "good"],
    );
    assert_eq!(output.status.code(), Some(2));
    for told in [
        "missing: No such file",
        "cut.gz: the gzip data is damaged",
        "digit:2: field 2",
        "3 of 4 files",
    ] {
        assert!(said(&output).contains(told), "{}", said(&output));
    }
}

/// Each fits by itself, and there is no conflict; together they have more entries in one section than there may be.
#[test]
fn too_many_entries_together_are_found() {
    let lines = |first: u32| {
        let lines = first..first + 40_000;
        let lines: String = lines.map(|line| format!("DA:{line},1\n")).collect();
        format!("SF:x\n{lines}end_of_record\n")
    };
    let folder = Folder::with(&[("a", &lines(0)), ("b", &lines(40_000))]);
    let output = run(&folder, &["--check"], &["a", "b"]);
    assert_eq!(output.status.code(), Some(1));
    assert!(said(&output).contains("(refusal 10)"), "{}", said(&output));
}

#[test]
fn check_goes_with_no_output() {
    let folder = folder();
    for words in [
        &["--check", "-o", "out"][..],
        &["--check", "--keep-going"],
        &["--check", "--lines", "x:1"],
        &["--check", "--same-start"],
    ] {
        assert_eq!(
            run(&folder, words, &["good"]).status.code(),
            Some(2),
            "{words:?}"
        );
    }
    assert_eq!(folder.text("out"), "old");
}

#[test]
fn refused_files_are_left_out_and_the_others_gathered() {
    let folder = folder();
    let output = run(&folder, &["--keep-going", "-o", "out"], &FILES);
    assert_eq!(output.status.code(), Some(4));
    assert_eq!(folder.text("out"), printed(&folder.run(&["good", "after"])));
    assert_eq!(
        folder.text("out"),
        text("TN: SF:x FN:3,f FN:6,g FNDA:0,f FNDA:0,g FNF:2 FNH:0 DA:1,2,other LF:1 LH:1 end_of_record")
    );
    let short = said_in_short(&output);
    for name in ["digit:2: ", "twice:4: ", "start: ", "sum: "] {
        assert!(short.contains(&format!("lcov-gather: {name}")), "{short}");
    }
    let end = "lcov-gather: left out 4 of 6 files:\n  digit\n  twice\n  start\n  sum\n";
    assert!(said(&output).ends_with(end), "{}", said(&output));
    assert_eq!(
        said(&run(&folder, &["-q", "--keep-going"], &FILES)),
        said(&output)
    );
}

#[test]
fn where_none_is_refused_it_is_a_plain_gather() {
    let folder = folder();
    let output = run(&folder, &["--keep-going"], &["good", "after"]);
    assert_eq!(printed(&output), printed(&folder.run(&["good", "after"])));
    assert_eq!(said(&output), "");
}

#[test]
fn where_all_are_refused_nothing_is_written() {
    let folder = folder();
    let output = run(&folder, &["--keep-going", "-o", "out"], &["digit", "twice"]);
    assert_eq!(output.status.code(), Some(1));
    let end = "lcov-gather: every file is refused; nothing is written\n";
    assert!(said(&output).ends_with(end), "{}", said(&output));
    assert_eq!(folder.text("out"), "old");
}

/// A missing file is a mistake of the command, and no refused file; one that is damaged is left out.
#[test]
fn a_missing_file_ends_the_run_and_a_damaged_one_is_left_out() {
    let folder = folder();
    fs::write(folder.path("cut.gz"), b"\x1f\x8b\x08").unwrap();
    let missing = run(
        &folder,
        &["--keep-going", "-o", "out"],
        &["digit", "missing", "good"],
    );
    assert_eq!(missing.status.code(), Some(2));
    assert_eq!(said(&missing).matches("missing: No such file").count(), 1);
    assert_eq!(folder.text("out"), "old");
    let damaged = run(&folder, &["--keep-going", "-o", "out"], &["cut.gz", "good"]);
    assert_eq!(damaged.status.code(), Some(4), "{}", said(&damaged));
    assert!(said(&damaged).ends_with("left out 1 of 2 files:\n  cut.gz\n"));
}

/// Standard input is read once and looked at twice, also where it is a file.
#[test]
fn standard_input_is_taken_or_left_out() {
    let folder = folder();
    let taken = folder.run_with(&["--keep-going", "-", "digit"], &section("y", &[(1, 5)]));
    assert_eq!(taken.status.code(), Some(4));
    assert_eq!(taken.stdout, section("y", &[(1, 5)]).as_bytes());
    let refused = folder.run_with(&["--keep-going", "-", "good"], "SF:x\nDA:1,1\n");
    assert_eq!(refused.status.code(), Some(4));
    assert!(said(&refused).ends_with("left out 1 of 2 files:\n  standard input\n"));
    let mut command = folder.command(&["--keep-going", "-"]);
    let input = fs::File::open(folder.path("good")).unwrap();
    let from_file = command.stdin(input).output().unwrap();
    assert_eq!(printed(&from_file), printed(&folder.run(&["good"])));
}

/// Eight times as many files, each of them in conflict or refused, take about eight times as long, not 64 times.
#[test]
fn the_time_is_linear_in_refused_files() {
    let folder = Folder::new();
    let seconds = |count: usize| {
        let mut names = vec!["0".to_owned()];
        fs::write(folder.path("0"), text("SF:x FN:1,f end_of_record")).unwrap();
        for k in 1..count {
            let lines = if k % 2 == 0 {
                "SF:x FN:2,f end_of_record"
            } else {
                "SF:x DA:z"
            };
            names.push(k.to_string());
            fs::write(folder.path(&names[k]), text(lines)).unwrap();
        }
        let start = Instant::now();
        fs::write(folder.path("list"), names.join("\n")).unwrap();
        let output = run(&folder, &["--keep-going", "--files-from", "list"], &[]);
        assert_eq!(output.status.code(), Some(4));
        let end = format!("left out {} of {count} files", count - 1);
        assert!(said(&output).contains(&end));
        start.elapsed().as_secs_f64()
    };
    let (few, many) = (seconds(500), seconds(4_000));
    assert!(many < 30.0 * few, "{few} {many}");
}

/// Numbers that look random: a linear congruential generator.
struct Numbers(u64);

impl Numbers {
    fn below(&mut self, end: usize) -> usize {
        self.0 = self
            .0
            .wrapping_mul(6_364_136_223_846_793_005)
            .wrapping_add(1_442_695_040_888_963_407);
        (self.0 >> 33) as usize % end
    }

    fn one<'a>(&mut self, of: &[&'a str]) -> &'a str {
        of[self.below(of.len())]
    }

    fn item(&mut self) -> String {
        let count = self.one(&["0", "1", "9223372036854775808"]);
        let small = self.one(&["1", "2"]);
        match self.below(4) {
            0 => format!("FN:{small},{}", self.one(&["f", "g"])),
            1 => format!("FNDA:1,{}", self.one(&["f", "g"])),
            2 => format!("BRDA:1,0,{small},{}", self.one(&["-", count])),
            _ => format!("DA:{small},{count}{}", self.one(&["", ",-", ",p", ",q"])),
        }
    }

    fn text(&mut self) -> String {
        let mut lines = Vec::new();
        for _ in 0..1 + self.below(3) {
            lines.push(self.one(&["TN:t", "TN:t", "TN:"]).to_owned());
            lines.push(self.one(&["SF:a/b", "SF:a//b", "SF:c"]).to_owned());
            for _ in 0..self.below(6) {
                lines.push(self.item());
            }
            lines.push("end_of_record".to_owned());
        }
        lines.join("\n") + "\n"
    }
}

/// The refusals that are told, each with the file's name.
fn refusals(output: &Output) -> Vec<(String, u32)> {
    let told = said_in_short(output);
    let refusals = told.lines().filter_map(|line| {
        let (rest, number) = line.strip_suffix(')')?.rsplit_once(" (refusal ")?;
        let name = rest.strip_prefix("lcov-gather: ")?.split(':').next()?;
        Some((name.to_owned(), number.parse().unwrap()))
    });
    refusals.collect()
}

/// Those of plain gathers, where each file is tried with the files that were taken before it.
fn by_library(folder: &Folder, options: &[&str], names: &[&str]) -> Vec<(String, u32)> {
    let mut taken = Vec::new();
    let mut all = Vec::new();
    for name in names {
        taken.push(*name);
        let output = run(folder, options, &taken);
        if !output.status.success() {
            taken.pop();
            all.extend(refusals(&output));
        }
    }
    all
}

/// Conflicts are found apart from the library, so the two are compared, on files in which keys come again too.
#[test]
fn the_same_files_are_refused_as_by_the_library() {
    let folder = Folder::new();
    let mut numbers = Numbers(18);
    let mut met = [0; 14];
    let names = ["0", "1", "2", "3", "4", "5", "6", "7"];
    for round in 0..100 {
        for name in names {
            fs::write(folder.path(name), numbers.text()).unwrap();
        }
        let options = [
            &["-q", "--as-written"][..],
            &["-q", "--as-written", "--lossy"],
        ][round % 2];
        let expected = by_library(&folder, options, &names);
        for work in ["--keep-going", "--check"] {
            let output = run(&folder, &[&[work], options].concat(), &names);
            assert_eq!(refusals(&output), expected, "{work}, round {round}");
        }
        for (_, number) in expected {
            met[number as usize] += 1;
        }
    }
    assert!(met[11..].iter().all(|&times| times > 10), "{met:?}");
}
