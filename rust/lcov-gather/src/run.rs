//! One run: files are looked at and gathered, what came of them is checked, cut and written.

use crate::audit::Sums;
use crate::check::{Check, Detail};
use crate::explain::explained;
use crate::failure::Failure;
use crate::gathering::Gathered;
use crate::labs::{Labs, Mark};
use crate::meaning::Meaning;
use crate::numbers::Numbers;
use crate::options::{Action, Options};
use crate::reporter::{tell, tell_plainly, Reporter};
use crate::source::{Source, Sources};
use crate::tracefile::Tracefile;
use crate::windows::{Build, Windows};
use crate::{audit, gathering, lines, list, output, totals};
use std::os::unix::ffi::OsStrExt;

/// The exit status of a run that left files out.
const LEFT_OUT: u8 = 4;

/// The exit status of a run that did not fail.
pub fn run(options: &Options) -> Result<u8, Failure> {
    run_from(options, Sums::default())
}

/// The sums over the files begin at `start`, which is 0 in every run of the command. A test begins elsewhere, and the audit must refuse.
pub fn run_from(options: &Options, start: Sums) -> Result<u8, Failure> {
    let files = list::files(options)?;
    let source = match options.stats {
        true => Source::counting,
        false => Source::new,
    };
    let mut files: Vec<Source> = files.into_iter().map(source).collect();
    match &options.action {
        Action::Gather => {
            write(options, gather(options, &files, start)?)?;
            tell_numbers(&files);
            Ok(0)
        }
        Action::Check => check(options, &mut files, start),
        Action::KeepGoing => keep_going(options, &mut files, start),
        Action::Windows(asked) => windows(options, *asked, &files, start),
        Action::Labs(named) => labs(options, named, files, start),
    }
}

/// The joined tracefile.
fn gather(options: &Options, files: &[Source], start: Sums) -> Result<Tracefile, Failure> {
    let reporter = Reporter::new(options.quiet, files.len());
    let gathered = gather_with(options, files, start, &reporter)?;
    note_unused(options, &reporter);
    accepted(options, gathered, &reporter)
}

fn gather_with(
    options: &Options,
    files: &[Source],
    start: Sums,
    reporter: &Reporter,
) -> Result<Gathered, Failure> {
    let rewriting = &options.rewriting;
    let sources = Sources { files, rewriting };
    gathering::gather(sources, options.reading, start, reporter)
        .map_err(|failure| explained(failure, sources, options.reading))
}

fn note_unused(options: &Options, reporter: &Reporter) {
    for map in options.rewriting.unused() {
        let from = map.from().display();
        reporter.note(format_args!("--map-path {from}: no path begins so"));
    }
}

/// The joined tracefile, unless the guard or the audit refuses it.
fn accepted(
    options: &Options,
    gathered: Gathered,
    reporter: &Reporter,
) -> Result<Tracefile, Failure> {
    if !gathered.replaced.is_empty() {
        return Err(Failure::Replaced(gathered.replaced));
    }
    let joined = options.rewriting.name_tests(gathered.joined);
    let printed = Sums::of_parts(&joined.slices(), options.reading.threads);
    if let Err(difference) = audit::compare(gathered.read, printed) {
        if options.reading.meaning != Meaning::AsWritten {
            return Err(Failure::Audit(difference));
        }
        reporter.note(difference);
    }
    Ok(joined)
}

/// The result goes to its file, and its totals, where they are asked for, to standard output. They are counted before anything is written.
fn write(options: &Options, joined: Tracefile) -> Result<(), Failure> {
    let kept = lines::keep(joined, &options.lines, options.starts)?;
    let totals = options
        .totals
        .map(|form| totals::printed(&kept, form, options.reading.threads))
        .transpose()?;
    let kept = options.rewriting.write_tags(kept);
    match totals {
        None => put(options, &kept.slices()),
        Some(totals) => {
            if options.output.is_some() {
                put(options, &kept.slices())?;
            }
            output::print(&[&totals])
        }
    }
}

/// To the file that is named, or to standard output.
fn put(options: &Options, slices: &[&[u8]]) -> Result<(), Failure> {
    match &options.output {
        Some(path) => output::write(path, slices),
        None => output::print(slices),
    }
}

/// Each window is gathered by itself, so a file is read for each that has it.
fn windows(
    options: &Options,
    windows: Windows,
    files: &[Source],
    start: Sums,
) -> Result<u8, Failure> {
    let mut reporter = Reporter::of_windows(options.quiet, files.len());
    let mut builds = Vec::with_capacity(files.len());
    for (window, last) in windows.of(files.len()).zip(files) {
        reporter.begin_after(window.start);
        let gathered = gather_with(options, &files[window], start, &reporter)?;
        let joined = accepted(options, gathered, &reporter)?;
        let kept = lines::keep(joined, &options.lines, options.starts)?;
        builds.push(Build {
            name: last.path().as_os_str().as_bytes(),
            lines: totals::sums(&kept, options.reading.threads)?.lines,
        });
    }
    note_unused(options, &reporter);
    drop(reporter);
    put(options, &[&windows.printed(&builds)])?;
    tell_numbers(files);
    Ok(0)
}

/// What `--stats` asks for: the numbers of each file that is gathered, and of all where there are several.
fn tell_numbers(files: &[Source]) {
    let counted = |source: &Source| Some((source.name(), source.numbers()?));
    let all: Vec<(String, Numbers)> = files.iter().filter_map(counted).collect();
    for (name, numbers) in &all {
        tell_plainly(format_args!("{name}: {numbers}"));
    }
    if all.len() > 1 {
        let sum: Numbers = all.iter().map(|&(_, numbers)| numbers).sum();
        tell_plainly(format_args!("{sum} in all"));
    }
}

/// Every failure of every file is told. What is left is gathered, since files that fit one by one may have too many entries together.
fn check(options: &Options, files: &mut Vec<Source>, start: Sums) -> Result<u8, Failure> {
    let mut status = 0;
    let mut refused = Vec::with_capacity(files.len());
    for result in checked(options, files, Detail::All).results() {
        refused.push(result.is_err());
        if let Err(failure) = result {
            tell(&failure);
            status = status.max(failure.status());
        }
    }
    let left_out = leave_out(files, &refused);
    if !files.is_empty() {
        gather(options, files, start)?;
    }
    if !options.quiet {
        let (number, all) = (left_out.len(), refused.len());
        tell(format_args!("{number} of {all} files are refused"));
    }
    Ok(status)
}

/// A file that can't be read ends the run: it is no refused file, but most likely a mistake in the command.
fn keep_going(options: &Options, files: &mut Vec<Source>, start: Sums) -> Result<u8, Failure> {
    let mut refused = Vec::with_capacity(files.len());
    for result in checked(options, files, Detail::Some).results() {
        refused.push(result.is_err());
        match result {
            Err(failure) if failure.is_of_content() => tell(&failure),
            other => other?,
        }
    }
    let left_out = leave_out(files, &refused);
    if files.is_empty() {
        return Err(Failure::NothingLeft("every file is refused"));
    }
    write(options, gather(options, files, start)?)?;
    tell_numbers(files);
    if left_out.is_empty() {
        return Ok(0);
    }
    let (number, all, names) = (left_out.len(), refused.len(), left_out.join("\n  "));
    tell(format_args!("left out {number} of {all} files:\n  {names}"));
    Ok(LEFT_OUT)
}

/// Each lab is gathered by itself, and those that are let in together. A file that can't be read ends the run here too.
fn labs(options: &Options, labs: &Labs, files: Vec<Source>, start: Sums) -> Result<u8, Failure> {
    let of_labs = labs.split(files);
    let mut marks = Vec::with_capacity(of_labs.len());
    for (lab, files) in of_labs.iter().enumerate() {
        marks.push(match entries_of(options, files, start) {
            Err(failure) if failure.is_of_content() => Mark::Refused(failure),
            entries => labs.mark(lab, entries?),
        });
    }
    tell_marks(labs, &marks);
    let files = labs.let_in(of_labs, &marks);
    if files.is_empty() {
        return Err(Failure::NothingLeft("every lab is left out"));
    }
    write(options, gather(options, &files, start)?)?;
    tell_numbers(&files);
    match marks.iter().all(Mark::is_let_in) {
        true => Ok(0),
        false => Ok(LEFT_OUT),
    }
}

/// Of what is joined of a lab's files. Notes are told when they are joined with those of the other labs.
fn entries_of(options: &Options, files: &[Source], start: Sums) -> Result<u64, Failure> {
    let reporter = Reporter::new(true, files.len());
    let gathered = gather_with(options, files, start, &reporter)?;
    let joined = accepted(options, gathered, &reporter)?;
    totals::entries(&joined, options.reading.threads)
}

fn tell_marks(labs: &Labs, marks: &[Mark]) {
    tell_plainly(labs.table(marks).trim_end());
    for mark in marks {
        if let Mark::Refused(failure) = mark {
            tell(failure);
        }
    }
}

fn checked<'a>(options: &'a Options, files: &'a [Source], detail: Detail) -> Check<'a> {
    let rewriting = &options.rewriting;
    Check {
        sources: Sources { files, rewriting },
        reading: options.reading,
        detail,
    }
}

/// Takes the refused ones out of `files`: their names.
fn leave_out(files: &mut Vec<Source>, refused: &[bool]) -> Vec<String> {
    let mut refused = refused.iter().copied();
    let left_out = files.extract_if(.., |_| refused.next().unwrap_or(false));
    left_out.map(|source| source.name()).collect()
}
