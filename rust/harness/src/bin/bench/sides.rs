//! The two sides of a comparison.

use harness::Build;
use lcov_sys::Calls;
use libloading::Library;
use std::error::Error;
use std::{env, fs, process};

/// What is measured beside what.
pub enum Sides {
    RustAndPort(Build),
    /// Before and now, so often loaded.
    Builds(Vec<[Build; 2]>),
}

/// The same code can be some per cent faster at one address than at another, so each build is loaded at several.
const LOADED: usize = 8;

impl Sides {
    /// The Rust, and the port as linked.
    pub fn linked() -> Self {
        Sides::RustAndPort(Build(Calls::LINKED))
    }

    /// Two builds of the port, each a shared object.
    pub fn loaded(before: &str, now: &str) -> Result<Self, Box<dyn Error>> {
        let pairs = (0..LOADED).map(|k| Ok([load(before, 2 * k)?, load(now, 2 * k + 1)?]));
        pairs.collect::<Result<_, _>>().map(Sides::Builds)
    }

    /// Whether all calls may be measured: an old build may lack some.
    pub fn has_all_calls(&self) -> bool {
        matches!(self, Sides::RustAndPort(_))
    }

    pub fn names(&self) -> [&'static str; 2] {
        match self {
            Sides::RustAndPort(_) => ["Rust", "port"],
            Sides::Builds(_) => ["before", "now"],
        }
    }

    /// The builds of the port, as often as they are loaded, each with what tells it from the other.
    pub fn ports(&self) -> Vec<(&'static str, Vec<Build>)> {
        match self {
            Sides::RustAndPort(port) => vec![("", vec![*port])],
            Sides::Builds(pairs) => vec![
                (", before", pairs.iter().map(|pair| pair[0]).collect()),
                (", now", pairs.iter().map(|pair| pair[1]).collect()),
            ],
        }
    }
}

/// Whether an old build may lack the call.
fn is_added(name: &str) -> bool {
    const ADDED: [&str; 6] = [
        "lcov_read_number",
        "lcov_filter_distinct_starts",
        "lcov_totals",
        "lcov_gather_revisions",
        "lcov_windows",
        "lcov_gather_quotas",
    ];
    ADDED.contains(&name) || name.ends_with("_tagged")
}

/// Stands in for such calls, whatever they are lent. Nothing that is measured of two builds makes one.
extern "C" fn added_later() -> u32 {
    panic!("the build lacks a call that was added later")
}

/// Loads a copy of the shared object with a name of its own: the same file or name would be loaded once.
fn load(path: &str, number: usize) -> Result<Build, Box<dyn Error>> {
    let copy = env::temp_dir().join(format!("bench-{}-{number}.so", process::id()));
    fs::copy(path, &copy).map_err(|error| format!("{path}: {error}"))?;
    // SAFETY: the shared object is made of an archive of the port, which runs nothing when it is loaded, and whose functions are those of
    // include/lcov.h. It is never unloaded.
    let found = unsafe {
        Library::new(&copy).and_then(|library| {
            let library = Box::leak(Box::new(library));
            Calls::found(|name| match library.get(name.as_bytes()) {
                Err(_) if is_added(name) => Ok(added_later as *const ()),
                found => found.map(|symbol| *symbol),
            })
        })
    };
    fs::remove_file(&copy)?;
    Ok(Build(found.map_err(|error| format!("{path}: {error}"))?))
}
