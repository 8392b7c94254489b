//! The command line.

use crate::failure::Failure;
use crate::gathering::{Mode, Reading, ROUND};
use crate::labs::Labs;
use crate::lines::{Cut, Starts};
use crate::list::{List, Names};
use crate::meaning::Meaning;
use crate::rewrite::Rewriting;
use crate::tag_file;
use crate::totals::Form;
use crate::windows::Windows;
use clap::builder::ValueParser;
use clap::error::ErrorKind;
use clap::{value_parser, Arg, ArgAction, ArgMatches, Command, ValueHint};
use clap_complete::shells::{Bash, Fish, Zsh};
use std::ffi::OsString;
use std::num::NonZeroUsize;
use std::path::{Path, PathBuf};
use std::thread;

const NAME: &str = "lcov-gather";

/// More are used only where they are asked for: each takes some 4 MB.
const THREADS: usize = 3;

// The forms of `--totals`.
const PAGE: &str = "page";
const TABLE: &str = "table";

/// What names other tracefiles than those of labs, or does something else with them.
const NOT_OF_LABS: [&str; 7] = [
    "files-from",
    "null",
    "revisions",
    "files",
    "check",
    "keep-going",
    "windows",
];

const ABOUT: &str = "\
Joins LCOV tracefiles into one and prints it: every count is the sum over all
files, or nothing is written. '-' is standard input.";

const AFTER: &str = "\
A file is refused in which a section, DA or BRDA replaces an earlier one, FN
sets a count above 0 to 0, or a section has no TN after one with TN: counts or
test names may be lost. --as-geninfo adds what comes again, and --as-written
takes such files as they are.

In every run the counts of the DA, BRDA and FNDA lines of all files are added
up and compared with those of the result.

Exit status: 0 done; 1 a tracefile was refused, and the message names the file
and line; 2 wrong usage, or a file can't be read or written; 3 the sums of the
files and of the result differ; 4 done, but refused files or labs are left out.";

/// What is done with the files.
#[derive(Debug)]
pub enum Action {
    /// All are gathered, or none.
    Gather,
    /// Those that are not refused are gathered.
    KeepGoing,
    /// They are read, and nothing is written.
    Check,
    /// All are gathered, some neighbours at a time, and what is hit and found is written.
    Windows(Windows),
    /// Those of labs that are within their quota are gathered.
    Labs(Labs),
}

pub struct Options {
    pub reading: Reading,
    pub action: Action,
    pub rewriting: Rewriting,
    pub quiet: bool,
    /// The numbers of each file are told.
    pub stats: bool,
    pub lines: Vec<Cut>,
    /// Which starts end a function where lines are kept.
    pub starts: Starts,
    pub output: Option<PathBuf>,
    /// The totals of the result are printed, and the result only to `output`.
    pub totals: Option<Form>,
    pub files: Vec<PathBuf>,
    pub list: Option<List>,
}

pub enum Asked {
    /// Help, version or a completion script.
    Print(Vec<u8>),
    Gather(Box<Options>),
}

/// The words begin with the command's name.
pub fn parse(words: impl Iterator<Item = OsString>) -> Result<Asked, Failure> {
    let matches = match command().try_get_matches_from(words) {
        Ok(matches) => matches,
        Err(error) => return explained(&error),
    };
    match matches.get_one::<String>("completions") {
        Some(shell) => Ok(Asked::Print(script(shell))),
        None => Ok(Asked::Gather(Box::new(options(matches)?))),
    }
}

fn options(mut matches: ArgMatches) -> Result<Options, Failure> {
    let mode = if matches.get_flag("lossy") {
        Mode::Lossy
    } else {
        Mode::Checked
    };
    let cuts = matches.remove_many::<OsString>("lines").unwrap_or_default();
    let maps = matches.remove_many("map-path").unwrap_or_default();
    let output = matches.remove_one::<PathBuf>("output");
    let totals = totals(&matches, output.as_deref())?;
    let tags = matches.remove_one::<PathBuf>("tags");
    let tags = tags.map(|path| tag_file::load(&path)).transpose()?;
    let (action, files) = action(&mut matches)?;
    Ok(Options {
        reading: Reading {
            mode,
            meaning: meaning(&matches),
            threads: threads(&matches),
            round: ROUND,
        },
        action,
        rewriting: Rewriting::new(matches.remove_one("test-name"), maps)?.with_tags(tags),
        quiet: matches.get_flag("quiet"),
        stats: matches.get_flag("stats"),
        lines: cuts.map(|cut| Cut::parse(&cut)).collect::<Result<_, _>>()?,
        starts: starts(&matches),
        output: output.filter(|path| !is_standard_output(path)),
        totals,
        files,
        list: list(&mut matches),
    })
}

/// Of both options one is given at most.
fn list(matches: &mut ArgMatches) -> Option<List> {
    let names = match matches.get_flag("null") {
        true => Names::UpToZero,
        false => Names::Lines,
    };
    let of = |names| move |path| List { path, names };
    let from = matches.remove_one("files-from").map(of(names));
    from.or_else(|| matches.remove_one("revisions").map(of(Names::Revisions)))
}

/// With the tracefiles that are named.
fn action(matches: &mut ArgMatches) -> Result<(Action, Vec<PathBuf>), Failure> {
    if let Some(labs) = matches.remove_many("lab") {
        let quotas = matches.remove_many("quota").unwrap_or_default();
        let (labs, files) = Labs::parse(labs, quotas)?;
        return Ok((Action::Labs(labs), files));
    }
    let action = if matches.get_flag("check") {
        Action::Check
    } else if let Some(&windows) = matches.get_one("windows") {
        Action::Windows(windows)
    } else if matches.get_flag("keep-going") {
        Action::KeepGoing
    } else {
        Action::Gather
    };
    let files = matches.remove_many("files").unwrap_or_default();
    Ok((action, files.collect()))
}

fn meaning(matches: &ArgMatches) -> Meaning {
    if matches.get_flag("as-geninfo") {
        Meaning::Geninfo
    } else if matches.get_flag("as-written") {
        Meaning::AsWritten
    } else {
        Meaning::Guarded
    }
}

/// The result and its totals can't both be printed.
fn totals(matches: &ArgMatches, output: Option<&Path>) -> Result<Option<Form>, Failure> {
    let form = matches.get_one::<String>("totals");
    match (form.map(String::as_str), output) {
        (Some(_), Some(output)) if is_standard_output(output) => Err(Failure::Usage(
            "--totals prints to standard output, so -o wants another file".to_owned(),
        )),
        (form, _) => Ok(form.map(|form| match form {
            TABLE => Form::Table,
            _ => Form::Page,
        })),
    }
}

fn is_standard_output(output: &Path) -> bool {
    output.as_os_str() == "-"
}

fn starts(matches: &ArgMatches) -> Starts {
    match matches.get_flag("same-start") {
        true => Starts::Distinct,
        false => Starts::All,
    }
}

/// One where the number of processors can't be told.
fn threads(matches: &ArgMatches) -> usize {
    let processors = || thread::available_parallelism().map_or(1, NonZeroUsize::get);
    let named = matches.get_one::<u16>("threads");
    named.map_or_else(|| processors().min(THREADS), |&named| usize::from(named))
}

fn command() -> Command {
    Command::new(NAME)
        .version(env!("CARGO_PKG_VERSION"))
        .about(ABOUT)
        .after_help(AFTER)
        .term_width(80)
        .args(reading_arguments())
        .args(rewriting_arguments())
        .args(action_arguments())
        .args(file_arguments())
        .args(lab_arguments())
        .args(telling_arguments())
        .arg(
            Arg::new("completions")
                .long("completions")
                .value_name("SHELL")
                .value_parser(["bash", "zsh", "fish"])
                .help("Print a completion script for this shell"),
        )
}

fn reading_arguments() -> [Arg; 6] {
    let lossy =
        "Where start lines or checksums differ, the later wins; without it such files are refused";
    let as_written =
        "Take files in which one thing replaces another as they are; what is lost is told";
    let as_geninfo =
        "Read files as geninfo means them: TN holds up to the next one, and a section, DA, BRDA or FNDA that comes again adds";
    let lines =
        "Keep only these lines of the source file FILE, as 10-20, 7 or 100- with commas between; \
        FILE may be the end of a path that no other path has; sections of other files stay as \
        they are; given twice, all lines are kept";
    let same_start =
        "With --lines, functions that start on the same line stay together, not the last alone: \
        one without an end line then ends before the next greater start";
    [
        flag("lossy", lossy),
        flag("as-geninfo", as_geninfo).conflicts_with("as-written"),
        flag("as-written", as_written),
        value("threads", "N", value_parser!(u16).range(1..).into())
            .help("Use N threads; without it, as many as there are processors, at most 3"),
        value("lines", "FILE:RANGES", value_parser!(OsString))
            .action(ArgAction::Append)
            .help(lines),
        flag("same-start", same_start).requires("lines"),
    ]
}

fn action_arguments() -> [Arg; 2] {
    let check =
        "Write nothing, and tell every refusal and every replacement of every file, and all \
        conflicts between files";
    let keep_going = "Leave refused files out, and tell them; the exit status is then 4";
    [
        flag("check", check).conflicts_with_all([
            "keep-going",
            "output",
            "lines",
            "same-start",
            "stats",
            "totals",
            "windows",
        ]),
        flag("keep-going", keep_going),
    ]
}

fn rewriting_arguments() -> [Arg; 3] {
    let test_name = "Put all sections under this test name, so that the counts of all tests add up";
    let map_path =
        "In paths that begin with the folders FROM put TO in their place; may be given more than \
        once, and the first that applies counts";
    let tags = "Read and write the tags of FILE in place of the default ones: thirteen lines, each a default \
        tag, a blank, and the tag in its place";
    [
        value("test-name", "NAME", value_parser!(OsString)).help(test_name),
        value("map-path", "FROM=TO", value_parser!(OsString))
            .action(ArgAction::Append)
            .help(map_path),
        value("tags", "FILE", value_parser!(PathBuf))
            .value_hint(ValueHint::FilePath)
            .help(tags),
    ]
}

fn file_arguments() -> [Arg; 5] {
    let output = "Write to OUT, which is replaced only when all is done; a device, fifo or socket is written to";
    let from = "Read the tracefiles' names from FILE, one a line; '-' is standard input";
    let revisions =
        "Read lines 'RUN REVISION TRACEFILE' from FILE, and of each run only the tracefile with the \
        highest revision; '-' is standard input; no other tracefiles may be named";
    [
        value("output", "OUT", value_parser!(PathBuf))
            .short('o')
            .value_hint(ValueHint::FilePath)
            .help(output),
        value("files-from", "FILE", value_parser!(PathBuf))
            .value_hint(ValueHint::FilePath)
            .help(from),
        flag(
            "null",
            "In the FILE of --files-from a byte 0 ends each name",
        )
        .short('0')
        .requires("files-from"),
        value("revisions", "FILE", value_parser!(PathBuf))
            .value_hint(ValueHint::FilePath)
            .conflicts_with_all(["files-from", "null", "files"])
            .help(revisions),
        Arg::new("files")
            .value_name("TRACEFILE")
            .num_args(0..)
            .value_parser(value_parser!(PathBuf))
            .value_hint(ValueHint::FilePath)
            .help("The tracefiles, before those of --files-from"),
    ]
}

fn lab_arguments() -> [Arg; 2] {
    let lab =
        "Read FILE as a tracefile of lab LAB, 1 to 8; may be given more than once. Each lab is \
        gathered by itself, a lab that is refused or above its quota is left out, and the others \
        are gathered together; a table tells what came of each lab; no other tracefiles may be \
        named";
    let quota =
        "Let lab LAB have at most N sections, functions, branches and lines; a lab without \
        a quota may have any number";
    [
        value("lab", "LAB:FILE", value_parser!(OsString))
            .action(ArgAction::Append)
            .conflicts_with_all(NOT_OF_LABS)
            .help(lab),
        value("quota", "LAB=N", value_parser!(OsString))
            .action(ArgAction::Append)
            .requires("lab")
            .conflicts_with_all(NOT_OF_LABS)
            .help(quota),
    ]
}

fn telling_arguments() -> [Arg; 4] {
    let stats =
        "Tell how many numbers each tracefile has, and how many digits, leading zeros included";
    let totals =
        "Print the totals of the result, and the result only to OUT: for each section functions, \
        branches and lines as hit/found, the lines' share in tenths of a percent, test name and \
        path, then the sums; as a table it has columns for people, the lowest share last";
    let windows =
        "Print in place of the result for each tracefile a line 'HIT/FOUND NAME': the lines of it \
        and of the up to W - 1 tracefiles before it, gathered together; W is 1 to 16. svg:W draws \
        that, and svg each tracefile by itself";
    [
        flag("quiet", "Print no notes and no progress bar").short('q'),
        flag("stats", stats),
        value("totals", "FORM", [PAGE, TABLE].into())
            .num_args(0..=1)
            .require_equals(true)
            .default_missing_value(PAGE)
            .help(totals),
        value("windows", "W", ValueParser::new(Windows::parse))
            .conflicts_with_all(["totals", "keep-going"])
            .help(windows),
    ]
}

fn flag(name: &'static str, help: &'static str) -> Arg {
    let flag = Arg::new(name).long(name);
    flag.action(ArgAction::SetTrue).help(help)
}

fn value(name: &'static str, shown: &'static str, parser: ValueParser) -> Arg {
    let value = Arg::new(name).long(name);
    value.value_name(shown).value_parser(parser)
}

fn script(shell: &str) -> Vec<u8> {
    let mut script = Vec::new();
    let (command, out) = (&mut command(), &mut script);
    match shell {
        "bash" => clap_complete::generate(Bash, command, NAME, out),
        "zsh" => clap_complete::generate(Zsh, command, NAME, out),
        _ => clap_complete::generate(Fish, command, NAME, out),
    }
    script
}

/// Help and version are errors to clap. Its messages of wrong usage get the form of this command's: the command's name in front, a small
/// letter, and no usage lines.
fn explained(error: &clap::Error) -> Result<Asked, Failure> {
    let text = error.render().to_string();
    if matches!(
        error.kind(),
        ErrorKind::DisplayHelp | ErrorKind::DisplayVersion
    ) {
        return Ok(Asked::Print(text.into_bytes()));
    }
    let text = text.strip_prefix("error: ").unwrap_or(&text);
    let text = text.split("\nUsage:").next().unwrap_or(text);
    let text = text.split("\nFor more information").next().unwrap_or(text);
    let mut letters = text.trim_end().chars();
    let first = letters.next().map(|letter| letter.to_ascii_lowercase());
    Err(Failure::Usage(first.into_iter().chain(letters).collect()))
}

#[cfg(test)]
mod tests {
    #[test]
    fn the_arguments_fit_together() {
        super::command().debug_assert();
    }
}
