//! The files in upstream/ are the published ones: their sums are those of SHA256SUMS, and there are no others.

use std::fs;
use std::path::{Path, PathBuf};
use std::process::Command;

fn upstream() -> PathBuf {
    Path::new(env!("CARGO_MANIFEST_DIR")).join("upstream")
}

/// The files below a folder, as seen from `root`.
fn files(root: &Path, folder: &Path) -> Vec<String> {
    let mut found = Vec::new();
    for entry in fs::read_dir(folder).unwrap() {
        let path = entry.unwrap().path();
        if path.is_dir() {
            found.extend(files(root, &path));
        } else {
            found.push(path.strip_prefix(root).unwrap().display().to_string());
        }
    }
    found.sort();
    found
}

#[test]
fn each_file_has_its_sum() {
    let checked = Command::new("sha256sum")
        .args(["--check", "--strict", "SHA256SUMS"])
        .current_dir(upstream())
        .output()
        .expect("sha256sum of coreutils");
    let told = String::from_utf8_lossy(&checked.stdout).into_owned();
    assert!(checked.status.success(), "{told}");
}

#[test]
fn each_file_is_listed() {
    let sums = fs::read_to_string(upstream().join("SHA256SUMS")).unwrap();
    let mut listed: Vec<&str> = sums
        .lines()
        .filter_map(|line| line.split_whitespace().nth(1))
        .collect();
    listed.sort();
    assert_eq!(files(&upstream(), &upstream().join("lcov")), listed);
    assert_eq!(listed.len(), 11);
}
