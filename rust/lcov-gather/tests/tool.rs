//! The tool driven as a user would: files in a folder, the command, and what it leaves.

mod common;

use common::{missing, printed, said, said_in_short, say_loudly, section, Folder};
use std::fs;
use std::path::{Path, PathBuf};
use std::process::Command;

fn samples() -> PathBuf {
    Path::new(env!("CARGO_MANIFEST_DIR")).join("../../tests/samples")
}

#[test]
fn two_rooms_become_one_release() {
    let folder = Folder::new();
    let room = |name| samples().join(name).display().to_string();
    let output = folder.run(&[
        "-o",
        "release.info",
        &room("room-a.info"),
        &room("room-b.info"),
    ]);
    assert_eq!(printed(&output), "");
    let joined = fs::read_to_string(samples().join("joined.info")).unwrap();
    assert_eq!(folder.text("release.info"), joined);
    assert_eq!(folder.names(), ["release.info"]);
}

#[test]
fn standard_input_is_a_file_too() {
    let folder = Folder::with(&[("a", &section("x", &[(1, 1)]))]);
    let output = folder.run_with(&["a", "-"], &section("x", &[(1, 2), (2, 0)]));
    assert_eq!(printed(&output), section("x", &[(1, 3), (2, 0)]));
}

#[test]
fn a_refusal_names_file_line_and_field_and_leaves_the_output() {
    let folder = Folder::with(&[
        ("good", &section("x", &[(1, 1)])),
        ("bad", "SF:x\nDA:1,2z\nend_of_record\n"),
        ("release", "the last release\n"),
    ]);
    let output = folder.run(&["-o", "release", "good", "bad"]);
    assert_eq!(output.status.code(), Some(1));
    assert_eq!(
        said_in_short(&output),
        "lcov-gather: bad:2: field 2: bad digit (refusal 5)\n"
    );
    assert_eq!(folder.text("release"), "the last release\n");
    assert_eq!(folder.names(), ["bad", "good", "release"]);
}

#[test]
fn start_lines_that_differ_are_refused_unless_lossy() {
    let text = |start| format!("SF:x\nFN:{start},f\nFNDA:1,f\nend_of_record\n");
    let folder = Folder::with(&[("a", &text(3)), ("b", &text(4))]);
    let output = folder.run(&["a", "b"]);
    assert_eq!(output.status.code(), Some(1));
    assert_eq!(
        said_in_short(&output),
        "lcov-gather: b: the start lines of a function differ (refusal 11)\n"
    );
    assert_eq!(
        printed(&folder.run(&["--lossy", "a", "b"])),
        "TN:\nSF:x\nFN:4,f\nFNDA:2,f\nFNF:1\nFNH:1\nend_of_record\n"
    );
}

#[test]
fn lines_of_one_file_are_kept() {
    let decoder = section("src/decoder.c", &[(1, 1), (10, 2), (20, 0), (21, 4)]);
    let other = section("src/other.c", &[(1, 1)]);
    let folder = Folder::with(&[("a", &(decoder + &other))]);
    let cut = folder.run(&["--lines", "src//decoder.c:10-20", "a"]);
    let kept = section("src/decoder.c", &[(10, 2), (20, 0)]);
    assert_eq!(printed(&cut), kept + &other);
    let twice = folder.run(&[
        "--lines",
        "src/decoder.c:1",
        "--lines",
        "src/./decoder.c:21-",
        "a",
    ]);
    let ends = section("src/decoder.c", &[(1, 1), (21, 4)]);
    assert_eq!(printed(&twice), ends + &other);
    let none = folder.run(&["--lines", "src/decoder.c:2-9,30-", "a"]);
    let emptied = "TN:\nSF:src/decoder.c\nend_of_record\n".to_owned();
    assert_eq!(printed(&none), emptied + &other);
}

/// FILE is the end of one path; of several, or of none, there is no output.
#[test]
fn lines_of_a_file_that_is_named_by_the_end_of_its_path() {
    let decoder = |lines| section("/build/x/src/decoder.c", lines);
    let other = |lines| section("/build/x/lib/decoder.c", lines);
    let of_test = decoder(&[(1, 1), (2, 2)]).replace("TN:", "TN:t");
    let all = decoder(&[(1, 1), (2, 2)]) + &other(&[(1, 1)]) + &of_test;
    let folder = Folder::with(&[("a", &all), ("out", "old")]);
    let cut = printed(&folder.run(&["--lines", "src/decoder.c:2", "a"]));
    let of_test = decoder(&[(2, 2)]).replace("TN:", "TN:t");
    assert_eq!(cut, other(&[(1, 1)]) + &decoder(&[(2, 2)]) + &of_test);
    let twice = [
        "--lines",
        "src/decoder.c:2",
        "--lines",
        "/build/x/src/decoder.c:1",
        "a",
    ];
    assert_eq!(printed(&folder.run(&twice)).matches("DA:").count(), 5);
    for (file, told) in [
        (
            "decoder.c",
            "the paths of 2 files end with decoder.c; name more of the one that is meant\n  \
            /build/x/lib/decoder.c\n  /build/x/src/decoder.c\n",
        ),
        (
            "rc/decoder.c",
            "no section is of the file rc/decoder.c; the nearest are\n  \
            /build/x/lib/decoder.c\n  /build/x/src/decoder.c\n",
        ),
        (
            "rc/decode.c",
            "no section is of the file rc/decode.c; the nearest are\n  \
            /build/x/src/decoder.c\n  /build/x/lib/decoder.c\n",
        ),
    ] {
        let output = folder.run(&["-o", "out", "--lines", &format!("{file}:1"), "a"]);
        assert_eq!(output.status.code(), Some(2));
        assert_eq!(said(&output), format!("lcov-gather: {told}"));
        assert_eq!(folder.text("out"), "old");
    }
    fs::write(folder.path("empty"), "").unwrap();
    let none = folder.run(&["-q", "--lines", "x:1", "empty"]);
    assert_eq!(said(&none), "lcov-gather: no section is of the file x\n");
}

/// More files than a bundle names: the sums are those of all, in every place of the fold.
#[test]
fn two_hundred_files_are_gathered() {
    let folder = Folder::new();
    let names: Vec<String> = (0..200).map(|k| format!("f{k:03}")).collect();
    for (k, name) in (0..).zip(&names) {
        let text = section("x", &[(1, 1), (k + 2, u64::from(k))]);
        fs::write(folder.0.join(name), text).unwrap();
    }
    let words: Vec<&str> = names.iter().map(String::as_str).collect();
    let mut lines = vec![(1, 200)];
    lines.extend((0..200).map(|k| (k + 2, u64::from(k))));
    assert_eq!(printed(&folder.run(&words)), section("x", &lines));

    fs::write(folder.0.join("f150"), "SF:x\nDA:1,\nend_of_record\n").unwrap();
    let output = folder.run(&words);
    assert_eq!(output.status.code(), Some(1));
    assert_eq!(
        said_in_short(&output),
        "lcov-gather: f150:2: field 2: number empty (refusal 4)\n"
    );
}

#[test]
fn wrong_usage_and_missing_files_have_status_2() {
    let folder = Folder::with(&[("a", "")]);
    for words in [
        &[][..],
        &["--unknown", "a"],
        &["--lines", "x", "a"],
        &["--lines", "x:5-3", "a"],
        &["-o"],
        &["-", "-"],
        &["missing"],
        &["-o", "no/such/folder", "a"],
    ] {
        let output = folder.run(words);
        assert_eq!(output.status.code(), Some(2), "{words:?}");
        assert!(said(&output).starts_with("lcov-gather: "), "{words:?}");
        assert!(output.stdout.is_empty(), "{words:?}");
    }
    assert_eq!(folder.names(), ["a"]);
}

#[test]
fn help_tells_every_option() {
    let help = printed(&Folder::new().run(&["--help"]));
    let page = fs::read_to_string(Path::new(env!("CARGO_MANIFEST_DIR")).join("lcov-gather.1"));
    let page = page.unwrap();
    for option in [
        "--lossy",
        "--as-geninfo",
        "--as-written",
        "--threads",
        "--lines",
        "--same-start",
        "--test-name",
        "--map-path",
        "--tags",
        "--check",
        "--keep-going",
        "-o",
        "--output",
        "--files-from",
        "-0",
        "--null",
        "--revisions",
        "--lab",
        "--quota",
        "-q",
        "--quiet",
        "--stats",
        "--totals",
        "--windows",
        "--completions",
        "-h",
        "--help",
        "-V",
        "--version",
    ] {
        assert!(help.contains(option), "{option}");
        assert!(page.contains(&format!("Fl {}", &option[1..])), "{option}");
    }
    assert!(help.contains("Exit status: 0 done; 1 "));
    assert!(help.lines().all(|line| line.chars().count() <= 80));
}

#[test]
fn version_and_suggestions() {
    let folder = Folder::new();
    let version = format!("lcov-gather {}\n", env!("CARGO_PKG_VERSION"));
    assert_eq!(printed(&folder.run(&["--version"])), version);
    let output = folder.run(&["--as-writen", "a"]);
    assert_eq!(output.status.code(), Some(2));
    assert!(
        said(&output).contains("'--as-written'"),
        "{}",
        said(&output)
    );
    assert!(said(&output).ends_with("\ntry 'lcov-gather --help'\n"));
}

/// Each script names the options, and its shell finds no fault in it.
#[test]
fn completion_scripts() {
    let folder = Folder::new();
    for shell in ["bash", "zsh", "fish"] {
        let script = printed(&folder.run(&["--completions", shell]));
        for option in ["files-from", "revisions"] {
            assert!(script.contains(option), "{shell}: {option}");
        }
        fs::write(folder.path(shell), script).unwrap();
        let mut check = Command::new(shell);
        match check.arg("-n").arg(folder.path(shell)).output() {
            Ok(check) => assert!(check.status.success(), "{shell}: {}", said(&check)),
            Err(_) => say_loudly(&format!("{shell} -n on its completion script")),
        }
    }
    let unknown = folder.run(&["--completions", "tcsh"]);
    assert_eq!(unknown.status.code(), Some(2));
}

#[test]
fn bash_completes_an_option() {
    let folder = Folder::new();
    let script = printed(&folder.run(&["--completions", "bash"]));
    let ask = "COMP_WORDS=(lcov-gather --as-w); COMP_CWORD=1; _lcov-gather lcov-gather --as-w lcov-gather; echo ${COMPREPLY[@]}";
    let mut bash = Command::new("bash");
    match bash.args(["-c", &format!("{script}\n{ask}")]).output() {
        Ok(answer) => assert_eq!(printed(&answer), "--as-written\n"),
        Err(_) => missing("bash"),
    }
}

#[test]
fn a_file_that_is_named_twice_counts_twice_and_is_told() {
    let folder = Folder::with(&[("a", &section("x", &[(1, 1)])), ("b", "")]);
    fs::hard_link(folder.path("a"), folder.path("c")).unwrap();
    std::os::unix::fs::symlink("a", folder.path("d")).unwrap();
    let words = ["a", "./a", "c", "d", "b"];
    let output = folder.run(&words);
    assert_eq!(printed(&output), section("x", &[(1, 4)]));
    assert_eq!(
        said(&output),
        "lcov-gather: ./a: the same file as a, counted once more\n\
         lcov-gather: c: the same file as a, counted once more\n\
         lcov-gather: d: the same file as a, counted once more\n\
         lcov-gather: b: the file is empty\n"
    );
    for quiet in ["-q", "--quiet"] {
        let output = folder.run(&[&[quiet], &words[..]].concat());
        assert_eq!(printed(&output), section("x", &[(1, 4)]));
        assert_eq!(said(&output), "");
    }
}

#[test]
fn standard_input_may_be_a_file_that_is_named() {
    let folder = Folder::with(&[("a", &section("x", &[(1, 1)]))]);
    let output = folder
        .command(&["a", "-"])
        .stdin(fs::File::open(folder.path("a")).unwrap())
        .output()
        .unwrap();
    assert_eq!(printed(&output), section("x", &[(1, 2)]));
    assert_eq!(
        said(&output),
        "lcov-gather: standard input: the same file as a, counted once more\n"
    );
}

#[test]
fn a_file_without_counts_is_told() {
    let folder = Folder::with(&[("a", "TN:t\nSF:x\nLF:0\nend_of_record\n")]);
    let output = folder.run(&["a"]);
    assert_eq!(printed(&output), "");
    assert_eq!(
        said(&output),
        "lcov-gather: a: the file has no functions, branches and lines\n"
    );
    assert_eq!(said(&folder.run(&["--quiet", "a"])), "");
}

/// A path with any byte but the one that ends it; the named files come first, as the spelling of the path shows.
#[test]
fn files_from_a_list() {
    let folder = Folder::with(&[
        ("a", &section("x//y", &[(1, 1)])),
        ("b b", &section("x/y", &[(1, 2)])),
        ("c\nc", &section("x/./y", &[(1, 4)])),
        ("lines", "b b\n\nb b"),
        ("nulls", "c\nc\0b b\0"),
        ("none", ""),
    ]);
    let prints = |words: &[&str], input: &str, spelling: &str, count| {
        let output = folder.run_with(words, input);
        assert_eq!(printed(&output), section(spelling, &[(1, count)]));
    };
    prints(&["--files-from", "lines", "a"], "", "x//y", 5);
    prints(&["--files-from", "lines"], "", "x/y", 4);
    prints(&["--files-from", "-", "a"], "b b\n", "x//y", 3);
    prints(&["--files-from", "nulls", "-0"], "", "x/./y", 6);
    prints(&["--null", "--files-from", "-", "a"], "c\nc", "x//y", 5);
    prints(&["--files-from", "none", "a"], "", "x//y", 1);
    for words in [
        &["--files-from", "none"][..],
        &["--files-from", "missing", "a"],
        &["--files-from", "-", "-"],
        &["--files-from", "nulls", "a"],
        &["-0", "a"],
    ] {
        assert_eq!(folder.run(words).status.code(), Some(2), "{words:?}");
    }
}

/// A note that nobody can read is no reason to write no result.
#[test]
fn standard_error_may_be_full() {
    let folder = Folder::with(&[("a", &section("x", &[(1, 1)])), ("b", "")]);
    let Ok(full) = fs::OpenOptions::new().write(true).open("/dev/full") else {
        return missing("/dev/full");
    };
    let output = folder.command(&["a", "b"]).stderr(full).output().unwrap();
    assert_eq!(printed(&output), section("x", &[(1, 1)]));
}

/// A fifo can be read only once.
#[test]
fn a_fifo_is_a_file_too() {
    let folder = Folder::with(&[("a", &section("x", &[(1, 1)]))]);
    let made = Command::new("mkfifo").arg(folder.path("fifo")).status();
    assert!(made.unwrap().success());
    let fifo = folder.path("fifo");
    let writer = std::thread::spawn(move || fs::write(fifo, section("x", &[(1, 2)])));
    let output = folder.run(&["fifo", "a"]);
    writer.join().unwrap().unwrap();
    assert_eq!(printed(&output), section("x", &[(1, 3)]));
}

/// Debian's tools read what was written, where they are installed.
#[test]
fn lcov_and_genhtml_read_the_release() {
    let folder = Folder::with(&[("x.c", "int main(void)\n{\n  return 0;\n}\n")]);
    let source = folder.0.join("x.c").display().to_string();
    fs::write(folder.0.join("a"), section(&source, &[(1, 1), (3, 0)])).unwrap();
    fs::write(folder.0.join("b"), section(&source, &[(1, 2), (3, 0)])).unwrap();
    printed(&folder.run(&["-o", "release.info", "a", "b"]));
    let tool = |name: &str, words: &[&str]| {
        Command::new(name)
            .args(words)
            .current_dir(&folder.0)
            .output()
    };
    let Ok(summary) = tool("lcov", &["--summary", "release.info"]) else {
        return missing("lcov");
    };
    let told = String::from_utf8_lossy(&summary.stdout) + String::from_utf8_lossy(&summary.stderr);
    assert!(summary.status.success(), "{told}");
    assert!(told.contains("50.0% (1 of 2 lines)"), "{told}");
    let pages = tool("genhtml", &["-o", "pages", "release.info"]).unwrap();
    assert!(pages.status.success());
    assert!(folder.0.join("pages/index.html").exists());
}
