//! The peak of memory over many files: they are read round by round and never all.

mod common;

use common::{said, unpacked, Folder};
use std::collections::HashSet;
use std::fs;
use std::process::{Command, Stdio};

const FILES: usize = 1_010;

/// The most that so many files, of 143 MB in all, may take, in bytes.
const LIMIT: i64 = 60_000_000;

/// A real file as a lab with one test name would send it: each section has that name, no section comes twice, no count is below 0.
fn with_one_name(text: &str) -> String {
    let mut changed = String::with_capacity(text.len());
    let mut paths = HashSet::new();
    for line in text.lines().filter(|line| !line.starts_with("TN:")) {
        let end = match line.strip_prefix("SF:") {
            Some(path) => {
                changed += "TN:one\n";
                if paths.insert(path) {
                    "\n"
                } else {
                    ".again\n"
                }
            }
            None => "\n",
        };
        match line.rsplit_once(",-") {
            Some((start, digits)) if digits.parse::<u64>().is_ok() => {
                changed += start;
                changed += ",0";
            }
            _ => changed += line,
        }
        changed += end;
    }
    changed
}

/// A text of the size of the real ones, 140 kB: lines, branches and functions of 20 sections.
fn generated() -> String {
    let mut text = String::new();
    for section in 0..20 {
        text += &format!("TN:one\nSF:/build/src/file{section}.c\n");
        for function in 0..20 {
            text += &format!("FN:{function},function_{function}\nFNDA:1,function_{function}\n");
        }
        for branch in 0..120 {
            text += &format!("BRDA:{branch},0,0,{branch}\nBRDA:{branch},0,1,-\n");
        }
        for line in 0..240 {
            text += &format!("DA:{line},{}\n", 100_000 + line);
        }
        text += "end_of_record\n";
    }
    text
}

/// The names of the files, which are made one by one so that this process stays small: its own peak counts for its children.
fn make_files(folder: &Folder) -> Vec<String> {
    let real = unpacked("recogniser-gcc", folder).unwrap_or_default();
    let real: Vec<_> = real
        .iter()
        .filter(|file| fs::metadata(file).unwrap().len() > 0)
        .collect();
    let mut names = Vec::new();
    for number in 0..FILES {
        let text = match real.get(number % real.len().max(1)) {
            Some(file) => with_one_name(&fs::read_to_string(file).unwrap()),
            None => generated(),
        };
        let name = format!("{number:04}.info");
        fs::write(folder.path(&name), text).unwrap();
        names.push(name);
    }
    names
}

/// Status and peak of a command, in bytes. `Child::wait` does not tell the peak, so the child is waited for by wait4.
#[allow(clippy::zombie_processes)]
fn peak_of(command: &mut Command) -> (i32, i64) {
    let child = command.spawn().unwrap();
    let mut status = 0;
    // SAFETY: all zeros are a rusage, and both places are lent for the call. Nothing else waits for this child.
    let usage = unsafe {
        let mut usage: libc::rusage = std::mem::zeroed();
        let waited = libc::wait4(child.id() as i32, &mut status, 0, &mut usage);
        assert_eq!(waited, child.id() as i32);
        usage
    };
    (status, usage.ru_maxrss * 1024)
}

/// The peak of the command over the files that a list names, in bytes.
fn peak_over(folder: &Folder, names: &[String], options: &[&str]) -> i64 {
    fs::write(folder.path("list"), names.join("\n")).unwrap();
    let words = ["--files-from", "list", "-o", "out"];
    let mut command = folder.command(&[&words[..], options].concat());
    let (status, peak) = peak_of(command.stdin(Stdio::null()).stdout(Stdio::null()));
    assert_eq!(status, 0, "{}", said(&command.output().unwrap()));
    assert!(!folder.text("out").is_empty());
    peak
}

#[test]
fn many_files_stay_under_60_mb() {
    let folder = Folder::new();
    let names = make_files(&folder);
    let len = |name: &String| fs::metadata(folder.path(name)).unwrap().len();
    let bytes: u64 = names.iter().map(len).sum();
    assert!(bytes > 130_000_000, "{bytes}");
    for options in [&[][..], &["--as-written"], &["--as-geninfo"], &["--lossy"]] {
        let peak = peak_over(&folder, &names, options);
        println!("{} MB, peak {} kB", bytes / 1_000_000, peak / 1000);
        assert!(peak < LIMIT, "{options:?}: {peak}");
    }
}

/// A round holds at most 64 files, also where they are short of its 24 MiB: 160 files, of 14 MB more than 64, take no more memory. By one
/// thread, since several share the files of a round otherwise in each run.
#[test]
fn no_more_than_64_files_are_held() {
    let folder = Folder::new();
    let text = generated();
    let names: Vec<String> = (0..160).map(|number| format!("{number}.info")).collect();
    for name in &names {
        fs::write(folder.path(name), &text).unwrap();
    }
    assert!(text.len() > 120_000 && 160 * text.len() < 24 << 20);
    for options in [&[][..], &["--as-written"], &["--as-geninfo"], &["--lossy"]] {
        let words = [&["--threads", "1"], options].concat();
        let [few, many] = [64, 160].map(|count| peak_over(&folder, &names[..count], &words));
        println!("{options:?}: {} kB, {} kB", few / 1000, many / 1000);
        assert!(many < few + 6_000_000, "{options:?}: {few} {many}");
    }
}

/// Totals are counted some sections at a time: a result of a million entries takes no more memory with them.
#[test]
fn totals_take_little_memory_beside_the_result() {
    let folder = Folder::new();
    let text = generated();
    let mut names = Vec::new();
    for number in 0..100 {
        let name = format!("{number}.info");
        let own = text.replace("/build/", &format!("/build/{number}/"));
        fs::write(folder.path(&name), own).unwrap();
        names.push(name);
    }
    let [plain, totals] = [&["--threads", "1"][..], &["--threads", "1", "--totals"]]
        .map(|options| peak_over(&folder, &names, options));
    println!("{} kB, {} kB", plain / 1000, totals / 1000);
    assert!(totals < plain + 4_000_000, "{plain} {totals}");
}
