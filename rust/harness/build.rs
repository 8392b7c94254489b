//! Links the port, an archive that `rt lib` in crates/lcov_c writes, into the programs that call it.
//!
//! It is found where LCOV_PORT says (as seen from the repository's root), by default `crates/lcov_c/out/liblcov_c.a`.

use std::env;
use std::path::PathBuf;

const CALLERS: [&str; 3] = ["harness", "bench", "port"];

fn main() {
    let root = PathBuf::from(env::var_os("CARGO_MANIFEST_DIR").unwrap()).join("../..");
    let named = env::var_os("LCOV_PORT").unwrap_or_else(|| "crates/lcov_c/out/liblcov_c.a".into());
    let archive = root.join(named);

    println!("cargo:rerun-if-env-changed=LCOV_PORT");
    println!("cargo:rerun-if-changed={}", archive.display());
    for caller in CALLERS {
        println!("cargo:rustc-link-arg-bin={caller}={}", archive.display());
    }
}
