//! Measures the port beside the Rust, or two builds of the port beside each other: on the lines of a tracefile as `geninfo` writes it and
//! on their paths, on ranges and filters, on texts and bundles, on functions and branches as `geninfo` and `lcov` order them, and on
//! real tracefiles in the folder LCOV_DATA.
//!
//!     cargo run --offline --profile fast --bin bench -- [PART] [--before OLD.so --now NEW.so]
//!
//! The parts are `lines`, `ranges`, `reports`, `growth`, `functions` and `real`.
//!
//! The profile leaves out the overflow checks that the comparison needs. Both sides get the same questions in turn, round by round; time
//! is the thread's time on its processor. The Rust makes a `Record` that owns its texts, and prints it as `to_string` does, into a new
//! string, or into one that is kept; the port answers with places in the line, and prints into a buffer that is kept. Of texts the Rust
//! makes a `Report`, and prints its records into a new string; the port gets scratch and an output that are kept.

mod archives;
mod clock;
mod compared;
mod functions;
mod growth;
mod kept;
mod lines;
mod ranges;
mod real;
mod reports;
mod rounds;
mod rust;
mod sides;
mod table;

use sides::Sides;
use std::process::ExitCode;

const USAGE: &str =
    "usage: bench [lines | ranges | reports | growth | functions | real] [--before OLD.so --now NEW.so]";

/// Of all that is drawn at random.
const SEED: u64 = 1;

type Measure = fn(&Sides);

const PARTS: [(&str, Measure); 6] = [
    ("lines", lines::measure),
    ("ranges", ranges::measure),
    ("reports", reports::measure),
    ("growth", growth::measure),
    ("functions", functions::measure),
    ("real", real::measure),
];

#[derive(Default)]
struct Options {
    part: Option<String>,
    before: Option<String>,
    now: Option<String>,
}

fn main() -> ExitCode {
    let Some(options) = options(std::env::args().skip(1)) else {
        eprintln!("{USAGE}");
        return ExitCode::from(2);
    };
    let sides = match (options.before, options.now) {
        (Some(before), Some(now)) => Sides::loaded(&before, &now),
        _ => Ok(Sides::linked()),
    };
    match sides {
        Ok(sides) => {
            measure(options.part.as_deref(), &sides);
            ExitCode::SUCCESS
        }
        Err(error) => {
            eprintln!("bench: {error}");
            ExitCode::FAILURE
        }
    }
}

/// None where they are none of the usage.
fn options(mut words: impl Iterator<Item = String>) -> Option<Options> {
    let mut options = Options::default();
    while let Some(word) = words.next() {
        match word.as_str() {
            "--before" => options.before = Some(words.next()?),
            "--now" => options.now = Some(words.next()?),
            part if PARTS.iter().any(|&(name, _)| name == part) => options.part = Some(word),
            _ => return None,
        }
    }
    (options.before.is_some() == options.now.is_some()).then_some(options)
}

fn measure(part: Option<&str>, sides: &Sides) {
    clock::stay_on_this_processor();
    for (name, measure) in PARTS {
        if part.is_none_or(|part| part == name) {
            measure(sides);
        }
    }
}
