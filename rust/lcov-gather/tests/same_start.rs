//! `--same-start`: functions that start on the same line, cut by `--lines`.

mod common;

use common::{functions, printed, said, Folder};

/// Three templates of a generated header on line 3, and a function on line 7.
const HEADER: &str = "SF:/build/gen/table.h
FN:3,get<int>
FN:3,get<long>
FN:3,get<char>
FN:7,size
FNDA:4,get<int>
FNDA:2,get<char>
FNDA:1,size
FNDA:9,no_start
DA:3,6
DA:7,1
end_of_record
";

/// The names of the functions that stay.
fn kept(folder: &Folder, words: &[&str]) -> String {
    let printed = printed(&folder.run(words));
    let starts = printed.lines().filter_map(|line| line.strip_prefix("FN:"));
    let names = starts.filter_map(|start| start.rsplit(',').next());
    names.collect::<Vec<_>>().join(" ")
}

#[test]
fn all_functions_of_a_line_stay() {
    let folder = Folder::with(&[("a", HEADER)]);
    let templates = "get<char> get<int> get<long>";
    for (line, last, all) in [
        ("2", "", ""),
        ("3", "get<long>", templates),
        ("6", "get<long>", templates),
        ("7", "size", "size"),
        ("2-3", templates, templates),
        ("6-7", "get<long> size", "get<char> get<int> get<long> size"),
        ("4294967295", "size", "size"),
    ] {
        let lines = format!("--lines=table.h:{line}");
        assert_eq!(kept(&folder, &[&lines, "a"]), last, "{line}");
        let same_start = [&lines, "--same-start", "a"];
        assert_eq!(kept(&folder, &same_start), all, "{line}");
    }
}

/// Totals count what stays; other sections and other lines are as without the option.
#[test]
fn only_functions_differ() {
    let other = "SF:other.h\nFN:3,f\nFN:3,g\nDA:9,1\nend_of_record\n";
    let folder = Folder::with(&[("a", &(HEADER.to_owned() + other))]);
    let words = ["--lines", "gen/table.h:3", "--same-start", "a"];
    assert_eq!(
        printed(&folder.run(&words)),
        "TN:\nSF:/build/gen/table.h\nFN:3,get<char>\nFN:3,get<int>\nFN:3,get<long>\n\
        FNDA:2,get<char>\nFNDA:4,get<int>\nFNDA:0,get<long>\nFNF:3\nFNH:2\nDA:3,6\nLF:1\nLH:1\nend_of_record\n\
        TN:\nSF:other.h\nFN:3,f\nFN:3,g\nFNDA:0,f\nFNDA:0,g\nFNF:2\nFNH:0\nDA:9,1\nLF:1\nLH:1\nend_of_record\n"
    );
}

/// An end line that FN gives goes first, and the function ends those before it.
#[test]
fn an_end_line_goes_first() {
    let text = "SF:x\nFN:3,f\nFN:3,4,g\nFN:6,6,h\nend_of_record\n";
    let folder = Folder::with(&[("a", text)]);
    for (line, last, all) in [
        ("3", "g", "f g"),
        ("5", "", "f"),
        ("6", "h", "h"),
        ("7", "", ""),
    ] {
        let lines = format!("--lines=x:{line}");
        assert_eq!(kept(&folder, &[&lines, "a"]), last, "{line}");
        assert_eq!(kept(&folder, &[&lines, "--same-start", "a"]), all, "{line}");
    }
}

#[test]
fn each_mode_has_it() {
    let folder = Folder::with(&[("a", HEADER), ("b", HEADER), ("wrong", "FN:3\n")]);
    for words in [
        &["a"][..],
        &["a", "b"],
        &["--lossy", "a", "b"],
        &["--as-written", "a", "b"],
        &["--as-geninfo", "a", "b"],
        &["--threads", "1", "a", "b"],
        &["--test-name", "all", "a", "b"],
        &["--map-path", "/build=/lab", "a", "b"],
        &["--stats", "a"],
    ] {
        let words = [&["--same-start", "--lines", "gen/table.h:5"], words].concat();
        let templates = "get<char> get<int> get<long>";
        assert_eq!(kept(&folder, &words), templates, "{words:?}");
    }
    let words = ["--keep-going", "--same-start", "--lines", "table.h:5"];
    let words = [&words[..], &["-o", "out", "wrong", "a"]].concat();
    assert_eq!(folder.run(&words).status.code(), Some(4));
    let written = functions(&folder.text("out"));
    assert_eq!(written.matches("FN:3,get<").count(), 3, "{written}");
}

/// FNL and FNA of lcov 2.3: several names of one start, with an end line and without.
#[test]
fn names_that_share_an_index() {
    let text = |end: &str| {
        format!("SF:x\nFNL:0,3{end}\nFNA:0,1,f\nFNA:0,2,g\nFNL:1,9\nFNA:1,1,h\nend_of_record\n")
    };
    let folder = Folder::with(&[("open", &text("")), ("ended", &text(",5"))]);
    let kept = |file: &str, line: &str, option: &[&str]| {
        let lines = format!("--lines=x:{line}");
        let words = [&["-q", "--as-geninfo", &lines], option, &[file]].concat();
        kept(&folder, &words)
    };
    for line in ["3", "8"] {
        assert_eq!(kept("open", line, &[]), "g");
        assert_eq!(kept("open", line, &["--same-start"]), "f g");
    }
    for option in [&[][..], &["--same-start"]] {
        assert_eq!(kept("ended", "5", option), "f g");
        assert_eq!(kept("ended", "8", option), "");
        assert_eq!(kept("open", "9", option), "h");
    }
}

#[test]
fn it_is_for_lines_alone() {
    let folder = Folder::with(&[("a", HEADER), ("out", "old")]);
    let output = folder.run(&["--same-start", "-o", "out", "a"]);
    assert_eq!(output.status.code(), Some(2));
    assert!(
        said(&output).contains("\n  --lines <FILE:RANGES>\n"),
        "{}",
        said(&output)
    );
    assert_eq!(folder.text("out"), "old");
}
