//! Lays the unchanged Rust out in OUT_DIR/lcov, beside our stand-ins for the three files that are not published with it.
//!
//! The Rust is found in the folder LCOV_SRC (as seen from the repository's root), by default in `upstream` of this package.

use std::path::{Path, PathBuf};
use std::{env, fs};

/// The one file that is added to: what a query asks is private there.
const PROBED: &str = "filter/line_num.rs";

fn main() {
    let package = PathBuf::from(env::var_os("CARGO_MANIFEST_DIR").unwrap());
    let laid_out = PathBuf::from(env::var_os("OUT_DIR").unwrap()).join("lcov");
    let upstream = upstream_folder(&package).join("lcov/src");
    let stubs = package.join("stubs");

    println!("cargo:rerun-if-env-changed=LCOV_SRC");
    println!("cargo:rerun-if-changed={}", upstream.display());
    println!("cargo:rerun-if-changed={}", stubs.display());

    // A file that upstream no longer has must not stay behind.
    let _ = fs::remove_dir_all(&laid_out);
    copy_tree(&upstream, &laid_out);
    append_probe(
        &stubs.join("probe.rs"),
        &upstream.join(PROBED),
        &laid_out.join(PROBED),
    );
    for name in ["lib.rs", "reader.rs", "filter/mod.rs"] {
        stub(&stubs.join(name), &laid_out.join(name));
    }
}

fn upstream_folder(package: &Path) -> PathBuf {
    match env::var_os("LCOV_SRC") {
        Some(named) => package.join("../..").join(named),
        None => package.join("upstream"),
    }
}

fn copy_tree(from: &Path, to: &Path) {
    let listed =
        fs::read_dir(from).unwrap_or_else(|e| panic!("no Rust to ask in {} ({e})", from.display()));
    fs::create_dir_all(to).unwrap();
    for entry in listed {
        let entry = entry.unwrap();
        let target = to.join(entry.file_name());
        if entry.file_type().unwrap().is_dir() {
            copy_tree(&entry.path(), &target);
        } else {
            fs::write(target, fs::read(entry.path()).unwrap()).unwrap();
        }
    }
}

/// The copy gets one impl more, and is the original in all before it.
fn append_probe(probe: &Path, original: &Path, copy: &Path) {
    let probe = fs::read(probe).unwrap();
    let mut probed = fs::read(copy).unwrap();
    probed.extend_from_slice(&probe);
    fs::write(copy, probed).unwrap();

    let written = fs::read(copy).unwrap();
    let kept = written
        .strip_suffix(probe.as_slice())
        .expect("the probe ends the copy");
    assert!(
        kept == fs::read(original).unwrap(),
        "the copy differs from {}",
        original.display()
    );
}

fn stub(ours: &Path, place: &Path) {
    assert!(
        !place.exists(),
        "{} is there: a stand-in would hide it",
        place.display()
    );
    fs::copy(ours, place).unwrap();
}
