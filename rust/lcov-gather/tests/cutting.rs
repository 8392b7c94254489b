//! `--lines` before and after adding, on the recorded texts for which the two print other bytes (tests/cutting).

mod common;

use common::{printed, Folder};
use std::fs;
use std::path::Path;

fn recorded(name: &str) -> String {
    let folder = Path::new(env!("CARGO_MANIFEST_DIR")).join("../../tests/cutting");
    fs::read_to_string(folder.join(name)).expect("a recorded file")
}

/// The option that keeps the recorded lines of this file.
fn lines(case: &str, file: &str) -> String {
    format!(
        "--lines={file}:{}",
        recorded(&format!("{case}.lines")).trim_end()
    )
}

fn written(folder: &Folder, words: &[&str], file: &str) {
    let done = folder.run(&[words, &["-o", file]].concat());
    assert!(done.status.success(), "{done:?}");
}

/// Reading the result back drops emptied sections.
#[test]
fn both_ways_print_what_is_recorded() {
    for (case, file) in [
        ("spelling", "a/b"),
        ("reckoned-end", "a"),
        ("given-ends", "a"),
    ] {
        let texts = ["1", "2"].map(|number| recorded(&format!("{case}.{number}.info")));
        let folder = Folder::with(&[("1", &texts[0]), ("2", &texts[1])]);
        let lines = lines(case, file);
        written(&folder, &[&lines, "1"], "cut-1");
        written(&folder, &[&lines, "2"], "cut-2");
        let cut_first = printed(&folder.run(&["cut-1", "cut-2"]));
        written(&folder, &[&lines, "1", "2"], "cut");
        let add_first = printed(&folder.run(&["cut"]));
        assert_eq!(cut_first, recorded(&format!("{case}.cut-first.info")));
        assert_eq!(add_first, recorded(&format!("{case}.add-first.info")));
    }
}
