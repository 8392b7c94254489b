//! The command is killed, at each of its calls and at random times: the output is the old file or the new one, and a next run is not
//! disturbed. The order of the calls is looked at too: a file is private until it has its owner, and file and folder are synced.

mod common;

use common::{missing, printed, section, Folder};
use lcov_gather::replace::PREFIX;
use std::collections::BTreeSet;
use std::fs::{self, Permissions};
use std::os::unix::fs::PermissionsExt;
use std::path::{Path, PathBuf};
use std::process::{Command, Output};
use std::time::{Duration, Instant};

/// tests/calls.c compiled into a folder; none where there is no C compiler.
fn calls_library(folder: &Folder) -> Option<PathBuf> {
    let source = Path::new(env!("CARGO_MANIFEST_DIR")).join("tests/calls.c");
    let library = folder.path("calls.so");
    let mut compiler = Command::new("cc");
    compiler.args(["-shared", "-fPIC", "-Wall", "-Werror", "-o"]);
    compiler.arg(&library).arg(source).arg("-ldl");
    let Ok(output) = compiler.output() else {
        missing("cc");
        return None;
    };
    printed(&output);
    Some(library)
}

fn run_with(folder: &Folder, library: &Path, variable: &str, value: &str) -> Output {
    folder
        .command(&["-o", "out", "a"])
        .env("LD_PRELOAD", library)
        .env(variable, value)
        .output()
        .unwrap()
}

/// The calls of a run, with `NEW` for the name of the new file and `FOLDER` for that of the folder.
fn calls_of(folder: &Folder, library: &Path) -> Vec<String> {
    let log = folder.path("log");
    printed(&run_with(
        folder,
        library,
        "CALLS_LOG",
        log.to_str().unwrap(),
    ));
    let calls = folder.text("log");
    fs::remove_file(log).unwrap();
    let new = calls.split_whitespace().nth(2).unwrap().to_owned();
    assert!(new.starts_with(PREFIX) && new.ends_with(".tmp"), "{new}");
    let calls = calls.replace(&new, "NEW");
    let name = folder.0.file_name().unwrap().to_str().unwrap();
    let calls = calls.replace(&format!("fsync {name}\n"), "fsync FOLDER\n");
    calls.lines().map(str::to_owned).collect()
}

#[test]
fn private_until_owned_and_synced_before_and_after_the_rename() {
    let tools = Folder::new();
    let Some(library) = calls_library(&tools) else {
        return;
    };
    let folder = Folder::with(&[("a", &section("x", &[(1, 1)])), ("out", "old")]);
    fs::set_permissions(folder.path("out"), Permissions::from_mode(0o640)).unwrap();
    let expected = [
        "open 600 NEW",
        "write NEW",
        "fchown NEW",
        "fchmod 640 NEW",
        "fsync NEW",
        "rename NEW out",
        "fsync FOLDER",
    ];
    assert_eq!(calls_of(&folder, &library), expected);
}

#[test]
fn killed_at_each_call() {
    let tools = Folder::new();
    let Some(library) = calls_library(&tools) else {
        return;
    };
    let new = section("x", &[(1, 1)]);
    let mut found = BTreeSet::new();
    for call in 0.. {
        let folder = Folder::with(&[("a", &new), ("out", "old")]);
        let output = run_with(&folder, &library, "CALLS_KILL", &call.to_string());
        let text = folder.text("out");
        assert!(text == "old" || text == new, "{call}: {text}");
        disturbs_nothing(&folder, &new);
        if output.status.success() {
            assert!(call >= 7, "{call}");
            break;
        }
        found.insert(text);
    }
    assert_eq!(found.len(), 2, "{found:?}");
}

/// Beside the files there is at most one with the prefix, and a next run succeeds and leaves it.
fn disturbs_nothing(folder: &Folder, new: &str) {
    let others = |folder: &Folder| {
        let mut names = folder.names();
        names.retain(|name| !["a", "out"].contains(&name.as_str()));
        names
    };
    let left = others(folder);
    assert!(left.len() <= 1, "{left:?}");
    assert!(left.iter().all(|name| name.starts_with(PREFIX)), "{left:?}");
    printed(&folder.run(&["-o", "out", "a"]));
    assert_eq!(folder.text("out"), new);
    assert_eq!(others(folder), left);
}

#[test]
fn killed_at_random_times() {
    let lines: Vec<(u32, u64)> = (0..60_000).map(|line| (line, u64::from(line))).collect();
    let new = section("x", &lines);
    let folder = Folder::with(&[("a", &new), ("out", "old")]);
    let started = Instant::now();
    printed(&folder.run(&["-o", "out", "a"]));
    let longest = started.elapsed().as_micros() as u64 * 5 / 4;
    let (mut killed, mut done) = (0, 0);
    for round in 0..100 {
        let old = format!("the release before {round}\n");
        fs::write(folder.path("out"), &old).unwrap();
        let mut child = folder.command(&["-o", "out", "a"]).spawn().unwrap();
        // A step that shares no factor with the length goes through all parts of it in no order.
        std::thread::sleep(Duration::from_micros(round * 7_919 % longest));
        child.kill().unwrap();
        let finished = child.wait().unwrap().success();
        let text = folder.text("out");
        assert!(text == new || (text == old && !finished), "{round}");
        *(if finished { &mut done } else { &mut killed }) += 1;
    }
    assert!(killed > 0, "{killed} killed, {done} done");
    let left = folder.names();
    let others = left.iter().filter(|name| !name.starts_with(PREFIX));
    assert_eq!(others.collect::<Vec<_>>(), ["a", "out"]);
    printed(&folder.run(&["-o", "out", "a"]));
    assert_eq!(folder.text("out"), new);
}
