//! Tracefiles that are packed by gzip.

mod common;

use common::{printed, said, section, Folder};
use std::fs::{self, File};
use std::process::{Command, Output, Stdio};

/// What the command gzip makes of a text.
fn packed(folder: &Folder, text: &str) -> Vec<u8> {
    let plain = folder.path("plain");
    fs::write(&plain, text).unwrap();
    let output = Command::new("gzip").arg("-c").arg(&plain).output().unwrap();
    assert!(output.status.success());
    output.stdout
}

fn write(folder: &Folder, name: &str, bytes: &[u8]) {
    fs::write(folder.path(name), bytes).unwrap();
}

fn run_on_input(folder: &Folder, words: &[&str], file: &str) -> Output {
    let input = File::open(folder.path(file)).unwrap();
    let mut command = folder.command(words);
    command.stdin(input).output().unwrap()
}

#[test]
fn packed_files_are_read_under_any_name() {
    let folder = Folder::with(&[("plain.gz", &section("x", &[(1, 4)]))]);
    let bytes = packed(&folder, &section("x", &[(1, 1), (2, 5)]));
    write(&folder, "a.info.gz", &bytes);
    write(&folder, "b.info", &bytes);
    let output = folder.run(&["a.info.gz", "plain.gz", "b.info"]);
    assert_eq!(printed(&output), section("x", &[(1, 6), (2, 10)]));
}

#[test]
fn standard_input_may_be_packed() {
    let folder = Folder::new();
    let bytes = packed(&folder, &section("x", &[(1, 3)]));
    write(&folder, "a", &bytes);
    let from_file = run_on_input(&folder, &["a", "-"], "a");
    assert_eq!(printed(&from_file), section("x", &[(1, 6)]));
    let mut cat = Command::new("cat");
    let mut cat = cat
        .arg(folder.path("a"))
        .stdout(Stdio::piped())
        .spawn()
        .unwrap();
    let mut command = folder.command(&["-"]);
    let from_pipe = command.stdin(cat.stdout.take().unwrap()).output().unwrap();
    assert!(cat.wait().unwrap().success());
    assert_eq!(printed(&from_pipe), section("x", &[(1, 3)]));
}

#[test]
fn members_are_one_file() {
    let folder = Folder::new();
    let text = section("x", &[(1, 3), (2, 4)]);
    let (head, rest) = text.split_at(20);
    let members = [packed(&folder, head), packed(&folder, rest)].concat();
    write(&folder, "a", &members);
    assert_eq!(printed(&folder.run(&["a"])), text);
}

#[test]
fn a_cut_or_changed_file_is_refused_and_nothing_is_written() {
    let folder = Folder::with(&[("out", "old")]);
    let bytes = packed(&folder, &section("x", &[(1, 3)]));
    write(&folder, "good", &bytes);
    write(&folder, "cut", &bytes[..bytes.len() - 5]);
    let mut changed = bytes.clone();
    let last = changed.len() - 6;
    changed[last] ^= 1;
    write(&folder, "changed", &changed);
    write(&folder, "followed", &[&bytes[..], b"rest"].concat());
    write(&folder, "begun", &bytes[..2]);
    for name in ["cut", "changed", "followed", "begun"] {
        let output = folder.run(&["-o", "out", "good", name]);
        assert_eq!(output.status.code(), Some(2), "{name}");
        let expected = format!("lcov-gather: {name}: the gzip data is damaged or cut: ");
        assert!(said(&output).starts_with(&expected), "{}", said(&output));
        assert_eq!(folder.text("out"), "old");
    }
    let input = run_on_input(&folder, &["-"], "cut");
    assert_eq!(input.status.code(), Some(2));
    assert!(said(&input).starts_with("lcov-gather: standard input: the gzip data"));
}

#[test]
fn a_refusal_names_the_line_of_what_is_packed() {
    let folder = Folder::new();
    let bytes = packed(&folder, "SF:x\nDA:1,z\nend_of_record\n");
    write(&folder, "a.gz", &bytes);
    let output = folder.run(&["a.gz"]);
    assert_eq!(output.status.code(), Some(1));
    assert!(said(&output).starts_with("lcov-gather: a.gz:2: field 2: bad digit (refusal 5)\n"));
}
