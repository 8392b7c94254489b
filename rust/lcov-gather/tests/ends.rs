//! Functions that say where they end: tracefiles as lcov 2.0 and lcov 2.3 write them.

mod common;

use common::{functions, printed, said, said_in_short, Folder};

/// Three functions with these start and end lines and calls, as lcov 2.0 writes them.
fn functions_with(lines: [&str; 3], calls: [u32; 3]) -> String {
    let names = ["init", "decode<int, 3>", "reset"];
    let starts = lines.iter().zip(names);
    let starts: String = starts
        .map(|(lines, name)| format!("FN:{lines},{name}\n"))
        .collect();
    let counts = calls.iter().zip(names);
    let counts: String = counts
        .map(|(count, name)| format!("FNDA:{count},{name}\n"))
        .collect();
    let hit = calls.iter().filter(|&&count| count > 0).count();
    format!("{starts}{counts}FNF:3\nFNH:{hit}\n")
}

/// FN has an end line where the compiler tells one.
fn old() -> String {
    functions_with(["10,14", "16,40", "44"], [1, 250, 0])
}

/// The same as lcov 2.3 writes them.
const NEW: &str = "\
FNL:0,10,14
FNA:0,1,init
FNL:1,16,40
FNA:1,250,decode<int, 3>
FNL:2,44
FNA:2,0,reset
FNF:3
FNH:2
";

/// The tracefile of a test with these functions, and branches and lines.
fn tracefile(functions: &str) -> String {
    format!(
        "TN:frames\nSF:/build/src/decoder.c\n{functions}BRDA:20,0,0,240\nBRDA:20,0,1,10\nBRF:2\nBRH:2\n\
        DA:10,1\nDA:16,250\nDA:41,7\nDA:44,0\nLF:4\nLH:3\nend_of_record\n"
    )
}

/// Another test of the same source, with an exception; one function ends later, one earlier, and one has an end line that was not known.
fn later() -> String {
    let functions = functions_with(["10,12", "16,42", "44,50"], [2, 3, 5]);
    format!(
        "TN:frames\nSF:/build/src/decoder.c\n{functions}BRDA:20,0,0,3\nBRDA:20,e0,1,-\nBRF:2\nBRH:1\n\
        DA:10,2\nDA:44,5\nLF:2\nLH:2\nend_of_record\n"
    )
}

fn folder() -> Folder {
    let files = [tracefile(&old()), tracefile(NEW), later()];
    Folder::with(&[("old", &files[0]), ("new", &files[1]), ("later", &files[2])])
}

#[test]
fn each_function_comes_once_with_its_end_line() {
    let folder = folder();
    for words in [
        &["old"][..],
        &["--as-geninfo", "old"],
        &["--as-written", "old"],
    ] {
        let output = folder.run(words);
        assert_eq!(printed(&output), tracefile(&old()), "{words:?}");
        assert_eq!(said(&output), "");
    }
    let new = folder.run(&["--as-geninfo", "new"]);
    assert_eq!(printed(&new), tracefile(&old()));
    let told = "lcov-gather: new: lines FNL or FNA, read as FN and FNDA: 6\n";
    assert_eq!(said(&new), told);
}

#[test]
fn the_total_has_the_larger_end_line() {
    let folder = folder();
    let total = functions_with(["10,14", "16,42", "44,50"], [3, 253, 5]);
    for files in [["old", "later"], ["later", "old"], ["new", "later"]] {
        let words = [&["-q", "--as-geninfo"][..], &files].concat();
        let output = folder.run(&words);
        assert_eq!(functions(&printed(&output)), total, "{files:?}");
        assert_eq!(said(&output), "");
    }
    let both = printed(&folder.run(&["-q", "--as-geninfo", "old", "later"]));
    let branches = "BRDA:20,0,0,243\nBRDA:20,0,1,10\nBRDA:20,2147483648,1,-\n";
    assert!(both.contains(branches), "{both}");
}

#[test]
fn lossy_the_later_file_gives_the_end_line_or_none() {
    let starts = |words: &[&str]| {
        let folder = Folder::with(&[
            ("a", "SF:x\nFN:1,9,f\nFN:1,9,g\nFN:1,9,h\nend_of_record\n"),
            ("b", "SF:x\nFN:1,5,f\nFN:1,g\nFNDA:1,h\nend_of_record\n"),
        ]);
        let printed = printed(&folder.run(words));
        let starts: Vec<&str> = printed
            .lines()
            .filter(|line| line.starts_with("FN:"))
            .collect();
        starts.join(" ")
    };
    let larger = "FN:1,9,f FN:1,9,g FN:1,9,h";
    assert_eq!(starts(&["a", "b"]), larger);
    assert_eq!(starts(&["b", "a"]), larger);
    assert_eq!(starts(&["--lossy", "a", "b"]), "FN:1,5,f FN:1,g FN:1,9,h");
    assert_eq!(starts(&["--lossy", "b", "a"]), larger);
}

/// Line 41 is behind the end of `decode` and before the start of `reset`.
#[test]
fn lines_are_kept_by_the_end_line() {
    let folder = folder();
    let kept = |file: &str, lines: &str| {
        let lines = format!("decoder.c:{lines}");
        let words = ["-q", "--as-geninfo", "--lines", &lines, file];
        functions(&printed(&folder.run(&words)))
    };
    for file in ["old", "new"] {
        assert_eq!(kept(file, "41"), "");
        assert_eq!(kept(file, "15"), "");
        let decode = "FN:16,40,decode<int, 3>\nFNDA:250,decode<int, 3>\nFNF:1\nFNH:1\n";
        assert_eq!(kept(file, "40-43"), decode);
        assert_eq!(
            kept(file, "90"),
            "FN:44,reset\nFNDA:0,reset\nFNF:1\nFNH:0\n"
        );
    }
    assert_eq!(kept("later", "90"), "");
    let next = Folder::with(&[("a", "SF:x\nFN:3,20,f\nFN:9,g\nend_of_record\n")]);
    let both = functions(&printed(&next.run(&["--lines", "x:9", "a"])));
    assert_eq!(
        both,
        "FN:3,20,f\nFN:9,g\nFNDA:0,f\nFNDA:0,g\nFNF:2\nFNH:0\n"
    );
}

/// As geninfo means it: in a section, and in a section that comes again.
#[test]
fn fn_that_comes_again_in_a_file() {
    let text = |again: &str| format!("SF:x\nFN:1,5,f\nFNDA:2,f\n{again}FNDA:3,f\nend_of_record\n");
    for again in [
        "FN:1,9,f\n",
        "FN:1,f\nFN:1,9,f\n",
        "end_of_record\nSF:x\nFN:1,9,f\n",
    ] {
        let folder = Folder::with(&[("a", &text(again))]);
        let output = folder.run(&["--as-geninfo", "a"]);
        let expected = "TN:\nSF:x\nFN:1,9,f\nFNDA:5,f\nFNF:1\nFNH:1\nend_of_record\n";
        assert_eq!(printed(&output), expected, "{again}");
    }
    let folder = Folder::with(&[("a", &text("FN:2,9,f\n"))]);
    let differ = folder.run(&["--as-geninfo", "a"]);
    let told = "lcov-gather: a: the start lines of a function differ (refusal 11)\n";
    assert_eq!(said_in_short(&differ), told);
    let folder = Folder::with(&[("a", "SF:x\nFN:1,9,f\nFN:1,f\nend_of_record\n")]);
    let written = functions(&printed(&folder.run(&["--as-written", "a"])));
    assert_eq!(written, "FN:1,f\nFNDA:0,f\nFNF:1\nFNH:0\n");
}

#[test]
fn an_end_line_below_its_start_line_is_refused() {
    let files = [
        ("old", "SF:x\nDA:1,1\nFN:138,68,f\nend_of_record\n"),
        ("new", "SF:x\nDA:1,1\nFNL:0,138,68\nend_of_record\n"),
        (
            "named",
            "SF:x\nDA:1,1\nFNL:0,138,68\nFNA:0,1,f\nend_of_record\n",
        ),
        ("equal", "SF:x\nFN:68,68,f\nend_of_record\n"),
        ("large", "SF:x\nFN:1,4294967296,f\nend_of_record\n"),
    ];
    let folder = Folder::with(&files);
    let told = |words: &[&str]| {
        let output = folder.run(words);
        assert_eq!(output.status.code(), Some(1), "{words:?}");
        said_in_short(&output)
    };
    let below =
        |file: &str| format!("lcov-gather: {file}:3: end line below the start line (refusal 23)\n");
    for options in [&[][..], &["--as-geninfo"], &["--as-written"]] {
        assert_eq!(told(&[options, &["equal", "old"]].concat()), below("old"));
        let large = "lcov-gather: large:2: field 2: number too large (refusal 6)\n";
        assert_eq!(told(&[options, &["large"]].concat()), large);
    }
    for file in ["new", "named"] {
        assert_eq!(told(&["--as-geninfo", file]), below(file));
    }
    let checked = below("old") + "lcov-gather: 1 of 2 files are refused\n";
    assert_eq!(told(&["--check", "equal", "old"]), checked);
    let kept = folder.run(&["--keep-going", "old", "equal"]);
    assert_eq!(kept.status.code(), Some(4));
    assert!(said(&kept).contains(&below("old")));
    printed(&folder.run(&["equal"]));
}

/// The caret stands under the end line of each.
#[test]
fn every_end_line_that_is_refused_is_shown() {
    let lines = "SF:a\nFN:5,4,f\nFN:16,2,g\nend_of_record\n";
    let folder = Folder::with(&[("a", lines)]);
    let told = said(&folder.run(&["--check", "a"]));
    for shown in [
        "  2 | FN:5,4,f\n    |      ^\n",
        "  3 | FN:16,2,g\n    |       ^\n",
    ] {
        assert!(told.contains(shown), "{told}");
    }
    assert_eq!(
        told.matches("a function ends on its start line or").count(),
        2
    );
}
