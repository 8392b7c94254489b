//! One test name for all, and paths of labs that build elsewhere.

mod common;

use common::{printed, said, Folder};

/// Sections of tests and paths, each with line 1.
fn text(sections: &[(&str, &str, u64)]) -> String {
    let mut text = String::new();
    for (test, path, count) in sections {
        text += &format!("{test}SF:{path}\nDA:1,{count}\nLF:1\nLH:1\nend_of_record\n");
    }
    text
}

#[test]
fn counts_of_all_tests_add_up_under_one_name() {
    let folder = Folder::with(&[
        ("a", &text(&[("TN:one\n", "x", 1), ("TN:one\n", "y", 2)])),
        ("b", &text(&[("TN:two\n", "x", 4), ("TN\r\n", "z", 8)])),
        ("c", &text(&[("", "x", 16)])),
    ]);
    let all = |name: &str| {
        let test = format!("TN:{name}\n");
        text(&[(&test, "x", 21), (&test, "y", 2), (&test, "z", 8)])
    };
    let named = folder.run(&["--test-name", "release 1", "a", "b", "c"]);
    assert_eq!(printed(&named), all("release 1"));
    assert_eq!(said(&named), "");
    assert_eq!(
        printed(&folder.run(&["--test-name=", "a", "b", "c"])),
        all("")
    );
    let apart = printed(&folder.run(&["a", "b", "c"]));
    assert_eq!(apart.matches("SF:x\n").count(), 3);
}

/// A section without TN has the name too, so the guard finds nothing lost.
#[test]
fn sections_without_a_test_name_get_it_too() {
    let folder = Folder::with(&[("a", &text(&[("TN:one\n", "x", 1), ("", "y", 2)]))]);
    assert_eq!(folder.run(&["a"]).status.code(), Some(1));
    let expected = text(&[("TN:t\n", "x", 1), ("TN:t\n", "y", 2)]);
    assert_eq!(printed(&folder.run(&["--test-name", "t", "a"])), expected);
}

/// Two sections of one file that become one are refused, as any that replaces another.
#[test]
fn sections_that_become_one_are_guarded() {
    let two_tests = text(&[("TN:one\n", "x", 1), ("TN:two\n", "x", 2)]);
    let two_paths = text(&[("TN:\n", "/a/x", 1), ("TN:\n", "/b/x", 2)]);
    let folder = Folder::with(&[("tests", &two_tests), ("paths", &two_paths)]);
    for (words, told) in [
        (
            &["--test-name", "t", "tests"][..],
            "tests:8: the section of x replaces the one at tests:2",
        ),
        (
            &["--map-path", "/a=/r", "--map-path", "/b=/r", "paths"],
            "paths:8: the section of /r/x replaces the one at paths:2",
        ),
    ] {
        let output = folder.run(words);
        assert_eq!(output.status.code(), Some(1));
        assert!(said(&output).contains(told), "{}", said(&output));
    }
}

/// As written, the later of two sections that become one replaces the earlier, in the order of the file.
#[test]
fn as_written_a_section_that_becomes_one_with_another_replaces_it() {
    let folder = Folder::with(&[
        (
            "a",
            &text(&[
                ("TN:two\n", "x", 1),
                ("TN:one\n", "/b/x", 2),
                ("TN:one\n", "x", 4),
            ]),
        ),
        ("b", &text(&[("TN:one\n", "x", 8), ("TN:two\n", "y", 16)])),
    ]);
    let named = folder.run(&["--as-written", "--test-name", "t", "-q", "a", "b"]);
    let expected = [
        ("TN:t\n", "/b/x", 2),
        ("TN:t\n", "x", 12),
        ("TN:t\n", "y", 16),
    ];
    assert_eq!(printed(&named), text(&expected));
    let mapped = [
        "--as-written",
        "--test-name",
        "t",
        "--map-path",
        "/b=",
        "-q",
        "a",
        "b",
    ];
    let expected = [("TN:t\n", "x", 12), ("TN:t\n", "y", 16)];
    assert_eq!(printed(&folder.run(&mapped)), text(&expected));
    let apart = printed(&folder.run(&["--as-written", "-q", "a", "b"]));
    assert_eq!(apart.matches("SF:x\n").count(), 2);
}

#[test]
fn paths_of_two_labs_become_one() {
    let folder = Folder::with(&[
        (
            "a",
            &text(&[
                ("TN:\n", "/build/lab1/src/x.c", 1),
                ("TN:\n", "/usr/include/h", 2),
            ]),
        ),
        ("b", &text(&[("TN:\n", "/home/me//src/x.c", 4)])),
    ]);
    let words = [
        "--map-path=/build/lab1=",
        "--map-path",
        "/home/me/=",
        "a",
        "b",
    ];
    let output = folder.run(&words);
    let expected = text(&[("TN:\n", "/usr/include/h", 2), ("TN:\n", "src/x.c", 5)]);
    assert_eq!(printed(&output), expected);
    assert_eq!(said(&output), "");
}

#[test]
fn the_first_map_counts_and_one_that_fits_nothing_is_told() {
    let folder = Folder::with(&[("a", &text(&[("TN:\n", "/b/c/x", 1)]))]);
    let words = [
        "--map-path",
        "/b/c=/first",
        "--map-path",
        "/b=/second",
        "--map-path",
        "/c=/d",
        "a",
    ];
    let output = folder.run(&words);
    assert_eq!(printed(&output), text(&[("TN:\n", "/first/x", 1)]));
    assert_eq!(
        said(&output),
        "lcov-gather: --map-path /b: no path begins so\nlcov-gather: --map-path /c: no path begins so\n"
    );
    let quiet = folder.run(&[&["-q"], &words[..]].concat());
    assert_eq!(said(&quiet), "");
}

#[test]
fn lines_are_cut_by_the_new_paths() {
    let folder = Folder::with(&[("a", &text(&[("TN:\n", "/b/x", 1)]))]);
    let output = folder.run(&["--map-path", "/b=/d", "--lines", "/d/x:2", "a"]);
    assert_eq!(printed(&output), "TN:\nSF:/d/x\nend_of_record\n");
}

#[test]
fn a_refusal_names_the_line_of_the_file() {
    let folder = Folder::with(&[(
        "a",
        "TN:t\nSF:/b/x\nDA:1,1\nend_of_record\nTN:u\nSF:/b/y\nDA:q\n",
    )]);
    let output = folder.run(&["--test-name", "n", "--map-path", "/b=/d", "a"]);
    assert_eq!(output.status.code(), Some(1));
    assert!(
        said(&output).starts_with("lcov-gather: a:7: field 1: bad digit"),
        "{}",
        said(&output)
    );
}

#[test]
fn control_bytes_and_missing_parts_are_wrong_usage() {
    let folder = Folder::with(&[("a", "")]);
    for words in [
        ["--test-name", "a\nb"],
        ["--test-name", "a\x1b"],
        ["--map-path", "/a"],
        ["--map-path", "=/b"],
        ["--map-path", "/a=/b\n"],
        ["--map-path", "/a\t=/b"],
    ] {
        let output = folder.run(&[&words[..], &["a"]].concat());
        assert_eq!(output.status.code(), Some(2), "{words:?}");
        assert!(said(&output).contains(words[0]), "{}", said(&output));
    }
}
