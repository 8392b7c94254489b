//! Real tracefiles: those in which something is replaced are refused with the right places, and each is taken as it is written.
//!
//! Which places these are is found here again, by other means than the guard's: by texts, `std::path::Path` and ordered maps.

mod common;

use common::{real_files, said, Folder};
use std::collections::{BTreeMap, BTreeSet};
use std::path::{Path, PathBuf};

/// What is counted over the files of a set.
#[derive(Debug, Default, PartialEq, Eq)]
struct Facts {
    files_without_name: usize,
    sections_without_name: usize,
    repeated_sections: usize,
    repeated_lines: usize,
    repeated_branches: usize,
    reset_functions: usize,
    refused_by_library: usize,
    dropped_without_name: usize,
}

/// The places of one file, later and earlier; none of a file that ends inside a section or has a count below 0.
#[derive(Default)]
struct Places<'a> {
    without_name: BTreeSet<(usize, usize)>,
    sections: BTreeSet<(usize, usize)>,
    lines: BTreeSet<(usize, usize)>,
    branches: BTreeSet<(usize, usize)>,
    functions: BTreeSet<(usize, usize)>,
    kept: BTreeMap<(&'a str, &'a Path), usize>,
    /// Sections without items, which the library drops.
    dropped_without_name: usize,
}

impl Places<'_> {
    fn all(&self) -> Vec<(usize, usize)> {
        let sets = [
            &self.without_name,
            &self.sections,
            &self.lines,
            &self.branches,
            &self.functions,
        ];
        sets.into_iter().flatten().copied().collect()
    }
}

fn places_of(text: &str) -> Places<'_> {
    let mut places = Places::default();
    let lines: Vec<(usize, &str)> = (1..).zip(text.lines()).collect();
    let mut last_name = None;
    for section in lines.split_inclusive(|(_, line)| *line == "end_of_record") {
        let name = section.iter().find(|(_, line)| line.starts_with("TN:"));
        let (place, path) = section
            .iter()
            .find_map(|(place, line)| Some((*place, line.strip_prefix("SF:")?)))
            .unwrap();
        last_name = name.or(last_name);
        let is_item = |(_, line): &(usize, &str)| {
            let tags = ["FN:", "FNDA:", "BRDA:", "DA:"];
            tags.iter().any(|tag| line.starts_with(tag))
        };
        if !section.iter().any(is_item) {
            places.dropped_without_name += usize::from(name.is_none());
            continue;
        }
        if let (None, Some((earlier, _))) = (name, last_name) {
            places.without_name.insert((place, *earlier));
        }
        let key = (name.map_or("", |(_, name)| &name[3..]), Path::new(path));
        if let Some(earlier) = places.kept.insert(key, place) {
            places.sections.insert((place, earlier));
        }
        repeated(section, &mut places);
    }
    places
}

/// DA and BRDA with the text of an earlier key, and FN of a function that was called. Real files write no number in two ways.
fn repeated(section: &[(usize, &str)], places: &mut Places) {
    let (mut keys, mut called) = (BTreeMap::new(), BTreeMap::new());
    for &(place, line) in section {
        let (tag, body) = line.split_once(':').unwrap_or((line, ""));
        match tag {
            "DA" | "BRDA" => {
                let fields: Vec<&str> = body.split(',').collect();
                let key = (tag, fields[..if tag == "DA" { 1 } else { 3 }].to_vec());
                if let Some(earlier) = keys.insert(key, place) {
                    let set = if tag == "DA" {
                        &mut places.lines
                    } else {
                        &mut places.branches
                    };
                    set.insert((place, earlier));
                }
            }
            "FNDA" if !body.starts_with("0,") => {
                called
                    .entry(body.split_once(',').unwrap().1)
                    .or_insert(place);
            }
            "FN" => {
                if let Some(earlier) = called.remove(body.split_once(',').unwrap().1) {
                    places.functions.insert((place, earlier));
                }
            }
            _ => {}
        }
    }
}

/// The places that the command tells of a file, and how many it counts.
fn told(message: &str, file: &str) -> (Vec<(usize, usize)>, usize) {
    let mut places = Vec::new();
    let mut count = 0;
    let start = format!("{file}:");
    for line in message.lines() {
        if let Some(more) = line.strip_prefix("lcov-gather: and ") {
            count += more
                .strip_suffix(" more")
                .unwrap()
                .parse::<usize>()
                .unwrap();
        }
        let mut numbers = line.split(&start).skip(1).map(|rest| {
            let digits = rest
                .find(|c: char| !c.is_ascii_digit())
                .unwrap_or(rest.len());
            rest[..digits].parse::<usize>().unwrap()
        });
        if let (Some(later), Some(earlier)) = (numbers.next(), numbers.next()) {
            places.push((later, earlier));
            count += 1;
        }
    }
    (places, count)
}

/// Runs the command over one file, with and without the option, and compares with the places that are found here.
fn check(folder: &Folder, file: &Path, facts: &mut Facts) {
    let text = std::fs::read_to_string(file).unwrap();
    let name = file.to_str().unwrap();
    let plain = folder.run(&["--quiet", name]);
    let as_written = folder.run(&["--as-written", name]);
    let message = said(&plain);
    if text
        .lines()
        .any(|line| line.starts_with("DA:") && line.contains(",-"))
    {
        for output in [&plain, &as_written] {
            assert_eq!(output.status.code(), Some(1), "{name}");
            assert!(said(output).contains("(refusal 5)"), "{name}");
        }
        facts.refused_by_library += 1;
        return;
    }
    let places = places_of(&text);
    let expected = places.all();
    let status = i32::from(!expected.is_empty());
    assert_eq!(plain.status.code(), Some(status), "{name}: {message}");
    assert_eq!(as_written.status.code(), Some(0), "{name}");
    let (shown, count) = told(&message, name);
    assert_eq!(count, expected.len(), "{name}: {message}");
    assert_eq!(shown.len(), count.min(10), "{name}: {message}");
    assert!(
        shown.iter().all(|place| expected.contains(place)),
        "{name}: {message}"
    );
    assert_eq!(message.contains("--as-written"), status == 1, "{name}");
    facts.files_without_name += usize::from(!places.without_name.is_empty());
    facts.sections_without_name += places.without_name.len();
    facts.repeated_sections += places.sections.len();
    facts.repeated_lines += places.lines.len();
    facts.repeated_branches += places.branches.len();
    facts.reset_functions += places.functions.len();
    facts.dropped_without_name += places.dropped_without_name;
}

fn facts_of(archive: &str) -> (Facts, Vec<PathBuf>) {
    let folder = Folder::new();
    let files = real_files(archive, &folder);
    let mut facts = Facts::default();
    for file in &files {
        check(&folder, file, &mut facts);
    }
    (facts, files)
}

/// The numbers are those of the data's README.
#[test]
#[ignore = "needs the real tracefiles of LCOV_DATA"]
fn recogniser_by_gcc() {
    let (facts, files) = facts_of("recogniser-gcc");
    println!("{} files, {facts:?}", files.len());
    assert_eq!(facts.files_without_name, 28);
    assert_eq!(facts.sections_without_name, 115);
    assert_eq!(facts.repeated_sections, 19);
    assert_eq!(facts.refused_by_library, 1);
}

#[test]
#[ignore = "needs the real tracefiles of LCOV_DATA"]
fn recogniser_by_clang() {
    let (facts, files) = facts_of("recogniser-clang");
    println!("{} files, {facts:?}", files.len());
    assert_eq!(facts, Facts::default());
    assert_eq!(files.len(), 49);
}

#[test]
#[ignore = "needs the real tracefiles of LCOV_DATA"]
fn jsoncpp() {
    let (facts, files) = facts_of("jsoncpp-gcc");
    println!("{} files, {facts:?}", files.len());
    // 260 with those that the library drops.
    assert_eq!(
        facts.sections_without_name + facts.dropped_without_name,
        260
    );
    // 91 with those that the library drops.
    assert_eq!(facts.repeated_sections, 79);
    assert_eq!(facts.repeated_lines, 16_640);
    assert_eq!(facts.repeated_branches, 18_840);
}
