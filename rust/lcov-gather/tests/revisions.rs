//! `--revisions`: of each run only the file with the highest revision is read. What the command chooses is compared with the library's call.

mod common;

use common::{printed, said, said_in_short, section, Folder, Random};
use lcov_gather::revisions;
use lcov_sys::{Refusal, MAX_TEXTS, WORDS, WORDS_PER_ENTRY};
use std::collections::HashSet;
use std::fs;
use std::path::Path;

/// Two rooms, of which the first sent its run again; what it sent first is no tracefile.
fn rooms() -> Folder {
    Folder::with(&[
        ("a.info", "bad microphone\n"),
        ("a again.info", &section("x//y", &[(1, 2)])),
        ("b.info", &section("x/y", &[(1, 5)])),
        (
            "list",
            "# run revision file\n1 1 a.info\n\n9 4 b.info\n1\t2\ta again.info\n",
        ),
    ])
}

#[test]
fn a_corrected_run_replaces_the_faulty_one() {
    let folder = rooms();
    let joined = section("x/y", &[(1, 7)]);
    assert_eq!(printed(&folder.run(&["--revisions", "list"])), joined);
    let list = folder.text("list");
    assert_eq!(
        printed(&folder.run_with(&["--revisions", "-"], &list)),
        joined
    );
    let output = folder.run(&["--revisions", "list", "-o", "out", "--totals"]);
    assert_eq!(
        printed(&output),
        "0/0 0/0 1/1 1000  x/y\n0/0 0/0 1/1 1000\n"
    );
    assert_eq!(folder.text("out"), joined);
    assert_eq!(said(&output), "", "what is passed over is not told");
}

#[test]
fn files_are_gathered_in_the_order_of_the_list() {
    let folder = rooms();
    let output = folder.run_with(&["--revisions", "-"], "9 1 a again.info\n1 1 b.info\n");
    assert_eq!(printed(&output), section("x//y", &[(1, 7)]));
    let output = folder.run_with(&["--revisions", "-"], "7 1 b.info\n1 7 a again.info\n");
    assert_eq!(printed(&output), section("x/y", &[(1, 7)]));
}

#[test]
fn what_is_passed_over_is_not_opened() {
    let folder = rooms();
    let list = "1 1 no/such/file\n1 2 b.info\n1 0 .\n";
    let output = folder.run_with(&["--revisions", "-"], list);
    assert_eq!(printed(&output), section("x/y", &[(1, 5)]));
    let list = "1 1 b.info\n1 2 no/such/file\n";
    let output = folder.run_with(&["--revisions", "-"], list);
    assert_eq!(output.status.code(), Some(2));
    assert!(said(&output).contains("no/such/file"), "{}", said(&output));
}

#[test]
fn a_refusal_names_the_chosen_file() {
    let folder = rooms();
    fs::write(folder.path("list"), "2 1 b.info\n1 1 b.info\n1 2 a.info\n").unwrap();
    let output = folder.run(&["--revisions", "list", "-o", "out"]);
    assert_eq!(output.status.code(), Some(1));
    assert_eq!(
        said_in_short(&output),
        "lcov-gather: a.info:1: tag unknown (refusal 1)\n"
    );
    assert!(!folder.path("out").exists());
}

/// A lower revision does not stand in for a refused one.
#[test]
fn other_options_go_with_it() {
    let folder = rooms();
    let check = folder.run(&["--check", "--revisions", "list"]);
    assert_eq!(said(&check), "lcov-gather: 0 of 2 files are refused\n");
    assert_eq!(check.status.code(), Some(0));
    fs::write(
        folder.path("list"),
        "1 1 a again.info\n1 2 a.info\n2 1 b.info\n",
    )
    .unwrap();
    let check = folder.run(&["--check", "--revisions", "list"]);
    assert_eq!(check.status.code(), Some(1));
    assert!(said(&check).ends_with("1 of 2 files are refused\n"));
    let kept = folder.run(&["--keep-going", "--revisions", "list"]);
    assert_eq!(kept.status.code(), Some(4));
    assert_eq!(kept.stdout, section("x/y", &[(1, 5)]).into_bytes());
    let stats = folder.run_with(&["--stats", "--revisions", "-"], "1 1 a.info\n1 2 b.info\n");
    assert_eq!(said(&stats), "b.info: 4 numbers, 4 digits\n");
}

#[test]
fn the_same_revision_twice_is_told_with_both_lines() {
    let folder = rooms();
    for (list, line, earlier) in [
        ("1 2 b.info\n# again\n1 2 b.info\n", 3, 1),
        ("3 1 no\n3 1 no\n3 2 b.info\n", 2, 1),
        (
            "1 1 b.info\n2 1 b.info\n1 2 b.info\n2 1 b.info\n1 2 b.info\n",
            4,
            2,
        ),
    ] {
        fs::write(folder.path("list"), list).unwrap();
        let output = folder.run(&["--revisions", "list", "-o", "out"]);
        assert_eq!(output.status.code(), Some(2), "{list}");
        let said = said(&output);
        let what =
            format!("lcov-gather: list:{line}: a run has the same revision twice (refusal 20)\n");
        assert!(said.starts_with(&what), "{said}");
        assert!(
            said.contains(&format!("  help: line {earlier} has run")),
            "{said}"
        );
        assert!(!folder.path("out").exists());
    }
}

#[test]
fn wrong_lists_and_wrong_usage() {
    let folder = rooms();
    for (list, what) in [
        ("1 1 b.info\nb.info\n", "standard input:2: run: bad digit"),
        ("1 b.info\n", "standard input:1: revision: bad digit"),
        ("1 1\n", "standard input:1: the path is missing"),
        ("# nothing\n", "no tracefile is named"),
        ("1 1 -\n", "standard input can be read only once"),
    ] {
        let output = folder.run_with(&["--revisions", "-"], list);
        assert_eq!(output.status.code(), Some(2), "{list}");
        assert!(
            said(&output).starts_with(&format!("lcov-gather: {what}")),
            "{}",
            said(&output)
        );
    }
    for words in [
        &["--revisions", "list", "b.info"][..],
        &["--revisions", "list", "--files-from", "list"],
        &["--revisions", "list", "-0"],
        &["--revisions", "missing"],
        &["--revisions", "list", "--revisions", "list"],
    ] {
        assert_eq!(folder.run(words).status.code(), Some(2), "{words:?}");
    }
}

/// A list may name standard input as a tracefile, where it is not read from there, and a run that is passed over does not read it.
#[test]
fn standard_input_is_a_tracefile() {
    let folder = rooms();
    let text = section("x/y", &[(1, 3)]);
    fs::write(folder.path("list"), "1 1 -\n2 1 b.info\n").unwrap();
    let output = folder.run_with(&["--revisions", "list"], &text);
    assert_eq!(printed(&output), section("x/y", &[(1, 8)]));
    let output = folder.run_with(&["--revisions", "-"], "1 1 -\n1 2 b.info\n");
    assert_eq!(printed(&output), section("x/y", &[(1, 5)]));
}

/// More files than a bundle names.
#[test]
fn any_number_of_files() {
    let folder = rooms();
    let runs = 3 * MAX_TEXTS as u64;
    let mut list = String::new();
    for run in 0..runs {
        fs::write(folder.path(&run.to_string()), section("z", &[(1, run)])).unwrap();
        list += &format!("{run} 1 a.info\n{run} 2 {run}\n");
    }
    let output = folder.run_with(&["-q", "--revisions", "-"], &list);
    let sum = runs * (runs - 1) / 2;
    assert_eq!(printed(&output), section("z", &[(1, sum)]));
}

// ---- the library's call

/// A random list, each of its texts a section of a path of its own.
struct Sent(Vec<(u32, u32, String)>);

impl Sent {
    fn random(random: &mut Random, most: usize) -> Self {
        const NUMBERS: [u32; 6] = [0, 1, 2, 255, 256, u32::MAX];
        let many = random.below(most + 1);
        // few that repeat a pair, and many that do
        let kinds = 1 + random.below(NUMBERS.len());
        let mut number = |place: usize| match random.below(8) {
            0..=4 => NUMBERS[random.below(kinds)],
            _ => 1000 + (random.below(3) + place) as u32,
        };
        let sent = (0..many).map(|place| {
            let text = section(&format!("f{place}"), &[(1, 1)]);
            (number(place), number(place), text)
        });
        Sent(sent.collect())
    }

    fn list(&self) -> String {
        let lines = self.0.iter().enumerate();
        lines
            .map(|(place, (run, revision, _))| format!("{run} {revision} f{place}\n"))
            .collect()
    }

    fn bundle(&self) -> Vec<u8> {
        let mut before = 0;
        let mut columns: [Vec<u32>; 4] = Default::default();
        for (run, revision, text) in &self.0 {
            let row = [before, text.len() as u32, *run, *revision];
            columns
                .iter_mut()
                .zip(row)
                .for_each(|(column, number)| column.push(number));
            before += text.len() as u32;
        }
        let head = [self.0.len() as u32, before].into_iter();
        let mut bundle: Vec<u8> = head
            .chain(columns.into_iter().flatten())
            .flat_map(u32::to_le_bytes)
            .collect();
        self.0
            .iter()
            .for_each(|(_, _, text)| bundle.extend_from_slice(text.as_bytes()));
        bundle
    }

    /// What the library gathers.
    fn gathered(&self) -> Result<String, Refusal> {
        let bundle = self.bundle();
        let mut scratch = vec![0; 2 * MAX_TEXTS * WORDS_PER_ENTRY];
        let mut out = vec![0; lcov_sys::roomy(bundle.len())];
        let mut answer = [0; WORDS];
        let number = lcov_sys::gather_revisions(&bundle, &mut scratch, &mut out, &mut answer);
        let written = Refusal::unless_answered(number, answer)?;
        out.truncate(written as usize);
        Ok(String::from_utf8(out).unwrap())
    }
}

/// The command's choice, by the places of the files, or the line that repeats an earlier one.
fn chosen(sent: &Sent) -> Result<Vec<String>, String> {
    let files = revisions::files(Path::new("list"), sent.list().as_bytes());
    let shown = |path: std::path::PathBuf| path.to_str().unwrap().to_owned();
    files
        .map(|files| files.into_iter().map(shown).collect())
        .map_err(|failure| failure.to_string())
}

#[test]
fn the_command_chooses_as_the_library_does() {
    let mut random = Random(4);
    let (mut accepted, mut repeated) = (0, 0);
    for _ in 0..20_000 {
        let sent = Sent::random(&mut random, 7);
        match (sent.gathered(), chosen(&sent)) {
            (Ok(report), Ok(mut files)) => {
                accepted += 1;
                files.sort();
                let paths: Vec<&str> = report
                    .lines()
                    .filter_map(|line| line.strip_prefix("SF:"))
                    .collect();
                assert_eq!(files, paths, "{}", sent.list());
            }
            (Err(refusal), Err(said)) => {
                repeated += 1;
                let line = refusal.text + 1;
                let expected = format!(
                    "list:{line}: {} (refusal {})",
                    refusal.meaning(),
                    refusal.number
                );
                assert!(said.starts_with(&expected), "{said}");
            }
            (gathered, chosen) => panic!("{gathered:?}, {chosen:?}:\n{}", sent.list()),
        }
    }
    assert!(
        accepted > 2_000 && repeated > 2_000,
        "{accepted} {repeated}"
    );
}

/// The bytes too, by the command itself, of lists of up to as many files as a bundle may have.
#[test]
fn the_command_prints_what_the_library_does() {
    let mut random = Random(5);
    let mut passed_over = 0;
    for round in 0..40 {
        let mut sent = Sent::random(&mut random, [6, MAX_TEXTS][round % 2]);
        let mut seen = HashSet::new();
        sent.0
            .retain(|(run, revision, _)| seen.insert((*run, *revision)));
        if sent.0.is_empty() {
            continue;
        }
        let report = sent.gathered().unwrap();
        passed_over += sent.0.len() - report.matches("SF:").count();
        let folder = Folder::new();
        for (place, (_, _, text)) in sent.0.iter().enumerate() {
            fs::write(folder.path(&format!("f{place}")), text).unwrap();
        }
        let output = folder.run_with(&["--revisions", "-"], &sent.list());
        assert_eq!(printed(&output), report, "{}", sent.list());
    }
    assert!(passed_over > 100, "{passed_over}");
}
