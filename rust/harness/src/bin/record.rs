//! Writes the recorded sample, tests/lines.in and tests/lines.out, from a fixed seed, the recorded calls on range structs,
//! crates/test_line_num/stdin and stdout, the recorded bundles, tests/bundles/NAME.in and NAME.out, those whose pages of totals are recorded,
//! tests/totals/NAME.in and NAME.out, those with revisions, tests/revisions/NAME.in and NAME.out, those with widths, tests/windows/NAME.in and NAME.out,
//! those with labs and quotas, tests/quotas/NAME.in and NAME.out, and the recorded cuts, tests/cutting; see tests/README.md.
//!
//!     record             writes the files
//!     record --check     writes nothing, and fails unless the files are what would be written and what the Rust answers, or what it lacks

use harness::cutting::recorded as cuts;
use harness::files::{file, files_in, write_in, Files};
use harness::ranges::recorded::{self as calls, Calls};
use harness::reports::recorded::{self, files_of, Recorded};
use harness::reports::{pages, quotas, revisions, windows};
use harness::sample::{self, Sample};
use std::process::ExitCode;
use std::{env, fs, io};

fn main() -> ExitCode {
    oracle::hush_overflow();
    let words: Vec<String> = env::args().skip(1).collect();
    let words: Vec<&str> = words.iter().map(String::as_str).collect();
    let done = match words.as_slice() {
        [] => write_all().map_err(|error| error.to_string()),
        ["--check"] => check()
            .and_then(|()| check_ranges())
            .and_then(|()| PROGRAMS.iter().try_for_each(check_program))
            .and_then(|()| check_cuts()),
        _ => Err("usage: record [--check]".to_owned()),
    };
    match done {
        Ok(()) => ExitCode::SUCCESS,
        Err(why) => {
            eprintln!("{why}");
            ExitCode::FAILURE
        }
    }
}

fn write_all() -> io::Result<()> {
    write(&sample::make())?;
    write_ranges(&calls::make())?;
    PROGRAMS.iter().try_for_each(write_program)?;
    write_in(cuts::FOLDER, &cuts::files())
}

// The sample, and the copy that crates/test_lines replays.
const SAMPLES: [(&str, &str); 2] = [
    ("lines.in", "lines.out"),
    ("../crates/test_lines/stdin", "../crates/test_lines/stdout"),
];

fn write(sample: &Sample) -> io::Result<()> {
    for (lines, answers) in SAMPLES {
        fs::write(file(lines), &sample.lines)?;
        fs::write(file(answers), &sample.answers)?;
    }
    println!(
        "{} bytes of lines, {} bytes of answers",
        sample.lines.len(),
        sample.answers.len()
    );
    Ok(())
}

fn check() -> Result<(), String> {
    let [recorded, replayed] =
        recorded().map_err(|error| format!("the sample can't be read: {error}"))?;
    if replayed != recorded {
        return Err("crates/test_lines replays another sample: run `record`".to_owned());
    }
    let lines = sample::decoded(&recorded.lines).ok_or("lines.in is cut within a case")?;
    // first, since it tells of the Rust, whatever made the lines
    if sample::answers(&lines) != recorded.answers {
        return Err(
            "lines.out is not what the Rust answers to lines.in, or what it lacks".to_owned(),
        );
    }
    if sample::make() != recorded {
        return Err("the seed makes another sample: run `record`".to_owned());
    }
    println!(
        "{} recorded answers are the Rust's, or what it lacks",
        lines.len()
    );
    Ok(())
}

fn recorded() -> io::Result<[Sample; 2]> {
    let read = |(lines, answers)| -> io::Result<Sample> {
        Ok(Sample {
            lines: fs::read(file(lines))?,
            answers: fs::read(file(answers))?,
        })
    };
    let [sample, replayed] = SAMPLES;
    Ok([read(sample)?, read(replayed)?])
}

// ---- ranges

const ASKED: &str = "../crates/test_line_num/stdin";
const ANSWERED: &str = "../crates/test_line_num/stdout";

fn write_ranges(calls: &Calls) -> io::Result<()> {
    fs::write(file(ASKED), &calls.asked)?;
    fs::write(file(ANSWERED), &calls.answered)?;
    println!("{} calls on range structs", calls.answered.lines().count());
    Ok(())
}

fn check_ranges() -> Result<(), String> {
    let written = || -> io::Result<Calls> {
        Ok(Calls {
            asked: fs::read(file(ASKED))?,
            answered: fs::read_to_string(file(ANSWERED))?,
        })
    };
    let written = written().map_err(|error| format!("no recorded calls: {error}"))?;
    if written != calls::make() {
        return Err("crates/test_line_num has other calls or answers: run `record`".to_owned());
    }
    println!(
        "{} recorded calls on range structs are answered by the Rust",
        written.answered.lines().count()
    );
    Ok(())
}

// ---- bundles

/// A program that reads a bundle, or would, and the folder of what is recorded of it.
struct Program {
    folder: &'static str,
    files: fn() -> Files,
}

const PROGRAMS: [Program; 5] = [
    Program {
        folder: "bundles",
        files: || printed(recorded::all(), Recorded::answer),
    },
    Program {
        folder: pages::FOLDER,
        files: || printed(pages::all(), Recorded::page),
    },
    Program {
        folder: revisions::recorded::FOLDER,
        files: || printed(revisions::recorded::all(), Recorded::revised),
    },
    Program {
        folder: windows::recorded::FOLDER,
        files: windows::recorded::files,
    },
    Program {
        folder: quotas::recorded::FOLDER,
        files: quotas::recorded::files,
    },
];

/// The bundles, and what a program prints for them.
fn printed(all: Vec<Recorded>, prints: fn(&Recorded) -> Vec<u8>) -> Files {
    files_of(all.into_iter().map(|recorded| {
        let printed = prints(&recorded);
        (recorded.name, recorded.bundle, printed)
    }))
}

fn write_program(program: &Program) -> io::Result<()> {
    let files = (program.files)();
    write_in(program.folder, &files)?;
    println!("{} bundles in {}", files.len() / 2, program.folder);
    Ok(())
}

fn check_program(program: &Program) -> Result<(), String> {
    let folder = program.folder;
    let written =
        files_in(folder).map_err(|error| format!("no recorded bundles in {folder}: {error}"))?;
    if written != (program.files)() {
        return Err(format!(
            "tests/{folder} holds other bundles or answers: run `record`"
        ));
    }
    println!(
        "{} recorded bundles in {folder} are answered by the Rust, or what it lacks",
        written.len() / 2
    );
    Ok(())
}

// ---- cuts

fn check_cuts() -> Result<(), String> {
    let written = files_in(cuts::FOLDER).map_err(|error| format!("no recorded cuts: {error}"))?;
    if written != cuts::files() {
        return Err("tests/cutting holds other texts or answers: run `record`".to_owned());
    }
    println!(
        "{} files of recorded cuts are the Rust's, or what it lacks",
        written.len()
    );
    Ok(())
}
