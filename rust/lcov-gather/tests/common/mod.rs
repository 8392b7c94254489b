//! What the tests of the command share: folders, runs of the command, and real data.

// Each test file is a program of its own and uses a part of this.
#![allow(dead_code)]

use lcov_sys::Refusal;
use std::fs;
use std::io::{self, Write};
use std::path::{Path, PathBuf};
use std::process::{Command, Output, Stdio};
use std::sync::atomic::{AtomicU32, Ordering};

pub const COMMAND: &str = env!("CARGO_BIN_EXE_lcov-gather");

/// The repository.
pub const ROOT: &str = concat!(env!("CARGO_MANIFEST_DIR"), "/../..");

/// A folder of its own, removed at the end.
pub struct Folder(pub PathBuf);

impl Folder {
    pub fn new() -> Self {
        static MADE: AtomicU32 = AtomicU32::new(0);
        let number = MADE.fetch_add(1, Ordering::Relaxed);
        let name = format!("lcov-gather-{}-{number}", std::process::id());
        let path = std::env::temp_dir().join(name);
        fs::create_dir(&path).unwrap();
        Folder(path)
    }

    pub fn with(files: &[(&str, &str)]) -> Self {
        let folder = Folder::new();
        for (name, text) in files {
            fs::write(folder.0.join(name), text).unwrap();
        }
        folder
    }

    pub fn path(&self, name: &str) -> PathBuf {
        self.0.join(name)
    }

    pub fn command(&self, words: &[&str]) -> Command {
        let mut command = Command::new(COMMAND);
        command.args(words).current_dir(&self.0);
        command
    }

    pub fn run(&self, words: &[&str]) -> Output {
        self.run_with(words, "")
    }

    pub fn run_with(&self, words: &[&str], input: &str) -> Output {
        let mut child = self
            .command(words)
            .stdin(Stdio::piped())
            .stdout(Stdio::piped())
            .stderr(Stdio::piped())
            .spawn()
            .unwrap();
        // A command that is refused before it reads closes the pipe.
        let _ = child.stdin.take().unwrap().write_all(input.as_bytes());
        child.wait_with_output().unwrap()
    }

    pub fn text(&self, name: &str) -> String {
        fs::read_to_string(self.0.join(name)).unwrap()
    }

    /// What is there, in order.
    pub fn names(&self) -> Vec<String> {
        let mut names: Vec<String> = fs::read_dir(&self.0)
            .unwrap()
            .map(|entry| entry.unwrap().file_name().into_string().unwrap())
            .collect();
        names.sort();
        names
    }
}

impl Drop for Folder {
    fn drop(&mut self) {
        let _ = fs::remove_dir_all(&self.0);
    }
}

pub fn printed(output: &Output) -> String {
    assert!(output.status.success(), "{}", said(output));
    String::from_utf8(output.stdout.clone()).unwrap()
}

pub fn said(output: &Output) -> String {
    String::from_utf8(output.stderr.clone()).unwrap()
}

/// What is said without the indented lines, which explain a refusal; explain.rs is about those.
pub fn said_in_short(output: &Output) -> String {
    in_short(&said(output))
}

pub fn in_short(said: &str) -> String {
    let lines = said.split_inclusive('\n');
    lines.filter(|line| !line.starts_with("  ")).collect()
}

pub fn section(path: &str, lines: &[(u32, u64)]) -> String {
    let mut text = format!("TN:\nSF:{path}\n");
    for (line, count) in lines {
        text += &format!("DA:{line},{count}\n");
    }
    let hit = lines.iter().filter(|(_, count)| *count > 0).count();
    text + &format!("LF:{}\nLH:{hit}\nend_of_record\n", lines.len())
}

/// A bundle by the library's own rules (SPEC 7.1), written here again.
pub fn bundle(texts: &[String]) -> Vec<u8> {
    let bytes: String = texts.concat();
    let starts = texts.iter().scan(0, |start, text| {
        let own = *start;
        *start += text.len() as u32;
        Some(own)
    });
    let head = [texts.len() as u32, bytes.len() as u32].into_iter();
    let lens = texts.iter().map(|text| text.len() as u32);
    let words = head.chain(starts).chain(lens);
    let words = words.flat_map(u32::to_le_bytes);
    words.chain(bytes.bytes()).collect()
}

/// A text in which nothing is replaced. Some have faults, and some are in conflict with others.
pub fn some_sent_text(random: &mut Random) -> String {
    let mut text = String::new();
    for path in [random.of(&["p/q", "p//q"]), "r"] {
        if random.below(3) == 0 {
            continue;
        }
        text += &format!("TN:{}\nSF:{path}\n", random.of(&["", "t"]));
        if random.below(3) == 0 {
            let start = 1 + random.below(24) / 23;
            text += &format!("FN:{start},f\nFNDA:{},f\n", random.below(2));
        }
        for line in 0..random.below(5) {
            let count = random.of(&["0", "0", "1", "2", "3", "1", "0", "9223372036854775807"]);
            let checksum = ["", "", ",aa", ",bb"][random.below(3) + random.below(16) / 15];
            text += &format!("DA:{line},{count}{checksum}\n");
        }
        let fault = ["DA:7\n", "DA:7,x\n", "X:7\n"].get(random.below(120));
        text += fault.copied().unwrap_or_default();
        if random.below(60) > 0 {
            text += "end_of_record\n";
        }
    }
    text
}

/// The first line of what is told of a refusal.
pub fn told_of(refusal: &Refusal, file: &Path) -> String {
    let mut told = format!("{}:", file.display());
    if refusal.line > 0 {
        told += &format!("{}:", refusal.line);
    }
    if refusal.field > 0 {
        told += &format!(" field {}:", refusal.field);
    }
    told + &format!(" {} (refusal {})", refusal.meaning(), refusal.number)
}

/// The lines about functions of what is printed.
pub fn functions(printed: &str) -> String {
    let lines = printed.split_inclusive('\n');
    lines.filter(|line| line.starts_with("FN")).collect()
}

/// Each run of the command with this option that README shows, by a shell in the repository: its words, what README says that it prints, and
/// what it does.
pub fn readme_runs(option: &str) -> Vec<(String, String, Output)> {
    let readme = fs::read_to_string(Path::new(ROOT).join("README.md")).unwrap();
    let begin = format!("    $ lcov-gather {option}");
    let mut lines = readme.lines().peekable();
    let mut runs = Vec::new();
    while let Some(line) = lines.next() {
        let Some(words) = line.strip_prefix(&begin) else {
            continue;
        };
        let words = format!("{option}{words}");
        let mut shown = String::new();
        let is_answer = |line: &&str| line.starts_with("    ") && !line.starts_with("    $");
        while let Some(line) = lines.next_if(is_answer) {
            shown += &format!("{}\n", &line[4..]);
        }
        let mut shell = Command::new("sh");
        shell.arg("-c").arg(format!("'{COMMAND}' {words}"));
        runs.push((words, shown, shell.current_dir(ROOT).output().unwrap()));
    }
    runs
}

/// Says past the test harness, which hides what a passed test prints.
fn say_past_harness(what: &str) {
    let _ = io::stderr().write_all(format!("\n*** {what} ***\n").as_bytes());
}

/// Something that can be installed is missing; tests/run looks for these words.
pub fn say_loudly(what: &str) {
    say_past_harness(&format!("NOT RUN: {what}"));
}

/// Only a superuser may do what a test needs, and nothing that is installed changes that.
pub fn say_not_permitted(what: &str) {
    say_past_harness(&format!("NOT PERMITTED: {what}"));
}

/// A tool that a test needs is missing: a failure where CI is set.
pub fn missing(what: &str) {
    assert!(std::env::var_os("CI").is_none(), "missing: {what}");
    say_loudly(&format!("{what} is missing"));
}

/// The files of an archive of real tracefiles, for a test that needs them.
pub fn real_files(archive: &str, folder: &Folder) -> Vec<PathBuf> {
    let files = unpacked(archive, folder);
    files.unwrap_or_else(|| panic!("no {archive}.tar.xz in LCOV_DATA, or no tar with xz"))
}

/// The files of an archive of real tracefiles, in order; none if it, or the tool that unpacks it, is missing. The archives are not part of
/// the repository: they are where LCOV_DATA says, as seen from its root.
pub fn unpacked(archive: &str, folder: &Folder) -> Option<Vec<PathBuf>> {
    let named = std::env::var_os("LCOV_DATA").unwrap_or_else(|| "../shared/data".into());
    let data = Path::new(env!("CARGO_MANIFEST_DIR"))
        .join("../..")
        .join(named);
    let mut tar = Command::new("tar");
    tar.arg("-xJf").arg(data.join(format!("{archive}.tar.xz")));
    let output = tar.current_dir(&folder.0).output().ok()?;
    if !output.status.success() {
        return None;
    }
    let entries = fs::read_dir(folder.path(archive)).unwrap();
    let mut files: Vec<PathBuf> = entries.map(|entry| entry.unwrap().path()).collect();
    files.sort();
    Some(files)
}

/// A generator of numbers below a bound (xorshift), the same in each run.
pub struct Random(pub u64);

impl Random {
    pub fn below(&mut self, bound: usize) -> usize {
        self.0 ^= self.0 << 13;
        self.0 ^= self.0 >> 7;
        self.0 ^= self.0 << 17;
        (self.0 >> 11) as usize % bound
    }

    pub fn of<'a>(&mut self, words: &[&'a str]) -> &'a str {
        words[self.below(words.len())]
    }
}
