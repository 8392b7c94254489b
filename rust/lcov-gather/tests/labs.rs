//! `--lab` and `--quota`: labs that are refused or above their quota are left out. Marks and bytes are compared with the library's call.

mod common;

use common::{bundle, in_short, printed, readme_runs, said, section};
use common::{some_sent_text, told_of, Folder, Random};
use lcov_sys::{Refusal, LABS, MARK_WORDS, MAX_TEXTS, WORDS, WORDS_PER_ENTRY};
use std::collections::BTreeMap;
use std::fs;
use std::path::{Path, PathBuf};
use std::process::Output;

/// Labs 1 and 2 have three and four entries, and a file of lab 3 is refused.
fn rooms() -> Folder {
    Folder::with(&[
        ("a", &section("x//y", &[(1, 1), (2, 0)])),
        ("b1", &section("x/y", &[(1, 5), (2, 0), (3, 0)])),
        ("b2", &section("x/y", &[(1, 2)])),
        ("c", "SF:x\nDA:1,2z\nend_of_record\n"),
        ("out", "before"),
    ])
}

/// The table, whose rows are indented, and what is said after it in short.
fn table_and_messages(output: &Output) -> String {
    let said = said(output);
    let (table, messages) = said.split_at(said.find("lcov-gather: ").unwrap_or(said.len()));
    table.to_owned() + &in_short(messages)
}

const FILES: [&str; 8] = [
    "--lab", "2:b1", "--lab", "1:a", "--lab", "2:b2", "--lab", "3:c",
];

#[test]
fn labs_are_let_in_or_left_out() {
    let folder = rooms();
    let quotas = ["--quota", "1=3", "--quota", "2=3", "--quota", "5=0"];
    let output = folder.run(&[&quotas[..], &FILES].concat());
    assert_eq!(output.status.code(), Some(4));
    assert_eq!(output.stdout, section("x//y", &[(1, 1), (2, 0)]).as_bytes());
    let expected = "lab  entries  quota  state
  1        3      3  let in
  2        4      3  above its quota
  3        -      -  refused
  5        0      0  let in
lcov-gather: c:2: field 2: bad digit (refusal 5)
";
    assert_eq!(table_and_messages(&output), expected);
    assert!(
        said(&output).contains("  2 | DA:1,2z\n"),
        "{}",
        said(&output)
    );
}

/// Of a path that is spelled twice the first file that is let in decides.
#[test]
fn those_that_are_let_in_are_joined_in_the_order_given() {
    let folder = rooms();
    let words = [&["--quota", "2=4", "--quota", "1=3"], &FILES[..6]].concat();
    let joined = section("x/y", &[(1, 8), (2, 0), (3, 0)]);
    let output = folder.run(&words);
    assert_eq!(printed(&output), joined);
    assert_eq!(
        said(&output),
        "lab  entries  quota  state\n  1        3      3  let in\n  2        4      4  let in\n"
    );
    let output = folder.run(&[&words, &["-o", "out", "--totals"][..]].concat());
    assert_eq!(printed(&output), "0/0 0/0 1/3 333  x/y\n0/0 0/0 1/3 333\n");
    assert_eq!(folder.text("out"), joined);
    let output = folder.run(&["--lab", "1:a", "--lab", "2:b1", "--lab", "2:b2"]);
    assert_eq!(printed(&output), section("x//y", &[(1, 8), (2, 0), (3, 0)]));
}

/// A lab's own files may be in conflict, and those of two labs.
#[test]
fn conflicts_in_a_lab_and_between_labs() {
    let checked = |sum: &str| format!("SF:x\nDA:1,1,{sum}\nend_of_record\n");
    let folder = Folder::with(&[
        ("a", &checked("aa")),
        ("b", &checked("bb")),
        ("z", &section("z", &[(1, 1)])),
        ("out", "before"),
    ]);
    let conflict =
        |file| format!("lcov-gather: {file}: the checksums of a line differ (refusal 12)\n");
    let words = ["-o", "out", "--lab", "1:a", "--lab", "2:z", "--lab", "1:b"];
    let output = folder.run(&words);
    assert_eq!(output.status.code(), Some(4));
    let table =
        "lab  entries  quota  state\n  1        -      -  refused\n  2        2      -  let in\n";
    assert_eq!(
        table_and_messages(&output),
        table.to_owned() + &conflict("b")
    );
    assert!(said(&output).contains("checksum 'aa' by a:2, checksum 'bb' by b:2"));
    assert_eq!(folder.text("out"), section("z", &[(1, 1)]));

    fs::write(folder.path("out"), "before").unwrap();
    let output = folder.run(&["-o", "out", "--lab", "2:b", "--lab", "1:a"]);
    assert_eq!(output.status.code(), Some(1));
    let table =
        "lab  entries  quota  state\n  1        2      -  let in\n  2        2      -  let in\n";
    assert_eq!(
        table_and_messages(&output),
        table.to_owned() + &conflict("a")
    );
    assert_eq!(folder.text("out"), "before");
}

#[test]
fn where_every_lab_is_left_out_nothing_is_written() {
    let folder = rooms();
    let words = [
        "-o", "out", "--quota", "1=2", "--quota", "4=9", "--lab", "1:a", "--lab", "3:c",
    ];
    let output = folder.run(&words);
    assert_eq!(output.status.code(), Some(1));
    let told = table_and_messages(&output);
    assert!(
        told.ends_with("lcov-gather: every lab is left out; nothing is written\n"),
        "{told}"
    );
    assert_eq!(folder.text("out"), "before");
    let missing = folder.run(&["-o", "out", "--lab", "1:none", "--lab", "2:a"]);
    assert_eq!(missing.status.code(), Some(2));
    assert!(
        said(&missing).starts_with("lcov-gather: none: "),
        "{}",
        said(&missing)
    );
    assert_eq!(folder.text("out"), "before");
}

/// What the guard refuses is refused, and a quota counts what is joined, before `--lines` cuts it.
#[test]
fn other_options_go_with_it() {
    let folder = rooms();
    let twice = "TN:t\nSF:x\nDA:1,1\nend_of_record\nTN:u\nSF:x\nDA:1,1\nDA:1,1\nend_of_record\n";
    fs::write(folder.path("twice"), twice).unwrap();
    let words = ["-q", "--quota", "2=4", "--lab", "2:twice", "--lab", "1:a"];
    let guarded = folder.run(&words);
    assert_eq!(guarded.status.code(), Some(4));
    let told = table_and_messages(&guarded);
    assert!(
        told.contains("\n  2        -      4  refused\nlcov-gather: twice:8"),
        "{told}"
    );
    for (options, entries) in [
        (&["--as-geninfo"][..], "4"),
        (&["--as-written"], "4"),
        (&["--as-geninfo", "--test-name", "t"], "2"),
        (&["--as-geninfo", "--map-path", "x/y=x"], "4"),
        (&["--as-geninfo", "--lines", "x:7"], "4"),
        (&["--as-geninfo", "--threads", "1", "--lossy"], "4"),
    ] {
        let output = folder.run(&[options, &words].concat());
        printed(&output);
        let row = format!("\n  2        {entries}      4  let in\n");
        assert!(
            said(&output).contains(&row),
            "{options:?}: {}",
            said(&output)
        );
    }
    let stats = folder.run(&["--stats", "--lab", "3:c", "--lab", "1:a"]);
    assert!(
        said(&stats).ends_with("\na: 6 numbers, 6 digits\n"),
        "{}",
        said(&stats)
    );
}

/// A note is told of a file that is let in, and once.
#[test]
fn notes_are_told_once() {
    let folder = rooms();
    fs::write(folder.path("empty"), "").unwrap();
    let words = [
        "--lab",
        "1:empty",
        "--lab",
        "1:a",
        "--lab",
        "2:./a",
        "--map-path",
        "no=z",
    ];
    let output = folder.run(&words);
    printed(&output);
    let table =
        "lab  entries  quota  state\n  1        3      -  let in\n  2        3      -  let in\n";
    let notes = "lcov-gather: ./a: the same file as a, counted once more\n\
                 lcov-gather: empty: the file is empty\n\
                 lcov-gather: --map-path no: no path begins so\n";
    assert_eq!(said(&output), format!("{table}{notes}"));
    assert_eq!(said(&folder.run(&[&["-q"], &words[..]].concat())), table);
}

#[test]
fn standard_input_and_any_number_of_files() {
    let folder = rooms();
    let input = section("x/y", &[(7, 7)]);
    let output = folder.run_with(&["--lab", "1:-", "--lab", "2:b2"], &input);
    assert_eq!(printed(&output), section("x/y", &[(1, 2), (7, 7)]));

    let large: Vec<(u32, u64)> = (0..65_534).map(|line| (line, 1)).collect();
    fs::write(
        folder.path("large"),
        section("l", &large) + &section("m", &large),
    )
    .unwrap();
    let many = 3 * MAX_TEXTS as u32;
    let mut words = vec!["-q".to_owned(), "--quota".to_owned(), "8=131070".to_owned()];
    for file in 0..many {
        let name = file.to_string();
        fs::write(folder.path(&name), section("z", &[(file, 1), (9_999, 1)])).unwrap();
        words.extend(["--lab".to_owned(), format!("{}:{name}", 1 + file % 2)]);
    }
    words.extend(["--lab", "8:large"].map(str::to_owned));
    let words: Vec<&str> = words.iter().map(String::as_str).collect();
    let output = folder.run(&words);
    let mut lines: Vec<(u32, u64)> = (0..many).map(|file| (file, 1)).collect();
    lines.push((9_999, many.into()));
    let joined = section("l", &large) + &section("m", &large) + &section("z", &lines);
    assert!(printed(&output) == joined, "the sum of all files");
    let table = "lab  entries   quota  state
  1       98       -  let in
  2       98       -  let in
  8   131070  131070  let in
";
    assert_eq!(said(&output), table);
    let above = folder.run(&["--quota", "8=131069", "--lab", "8:large", "--lab", "1:a"]);
    assert_eq!(above.status.code(), Some(4));
}

#[test]
fn wrong_usage() {
    let folder = rooms();
    for words in [
        &["--lab", "9:a"][..],
        &["--lab", "0:a"],
        &["--lab", "1:a", "--quota", "9=1"],
    ] {
        let output = folder.run(words);
        assert_eq!(output.status.code(), Some(2), "{words:?}");
        let told = said(&output);
        assert!(told.contains("a lab number is outside 1 to 8"), "{told}");
        assert!(told.contains("(refusal 29)"), "{told}");
    }
    for words in [
        &["--lab", "a"][..],
        &["--lab", "1:"],
        &["--quota", "1=5"],
        &["--quota", "1=5", "a"],
        &["--lab", "1:a", "--quota", "1=5", "--quota", "1=5"],
        &["--lab", "1:a", "a"],
        &["--lab", "1:a", "--files-from", "out"],
        &["--lab", "1:a", "--revisions", "out"],
        &["--lab", "1:a", "--check"],
        &["--lab", "1:a", "--keep-going"],
        &["--lab", "1:a", "--windows", "1"],
        &["--lab", "1:-", "--lab", "2:-"],
    ] {
        let output = folder.run(words);
        assert_eq!(output.status.code(), Some(2), "{words:?}");
        assert_eq!(output.stdout, b"", "{words:?}");
    }
}

#[test]
fn the_readme_shows_what_is_told_and_printed() {
    let runs = readme_runs("--quota");
    assert_eq!(runs.len(), 1);
    for (words, shown, output) in runs {
        assert_eq!(output.status.code(), Some(4));
        let out = String::from_utf8(output.stdout.clone()).unwrap();
        assert_eq!(said(&output) + &out, shown, "{words}");
    }
}

// ---- the library's call

/// Texts with their labs, and the quotas of all labs; none where a lab has no limit.
struct Sent {
    texts: Vec<String>,
    labs: Vec<u8>,
    quotas: [Option<u32>; LABS],
}

impl Sent {
    fn random(random: &mut Random, most: usize) -> Self {
        let many = 1 + random.below(most);
        let kinds = 1 + random.below(LABS);
        let quota = |random: &mut Random| match random.below(4) {
            0 => None,
            _ => Some(random.below(20) as u32),
        };
        Sent {
            texts: (0..many).map(|_| some_sent_text(random)).collect(),
            labs: (0..many).map(|_| 1 + random.below(kinds) as u8).collect(),
            quotas: std::array::from_fn(|_| quota(random)),
        }
    }

    fn words(&self) -> Vec<String> {
        let labs = self.labs.iter().enumerate();
        let labs = labs.flat_map(|(file, lab)| ["--lab".to_owned(), format!("{lab}:f{file}")]);
        let quotas = self.quotas.iter().zip(1..);
        let quotas = quotas.filter_map(|(quota, lab)| quota.map(|quota| format!("{lab}={quota}")));
        let quotas = quotas.flat_map(|quota| ["--quota".to_owned(), quota]);
        labs.chain(quotas).collect()
    }

    /// The marks of all labs, and what the library writes.
    fn gathered(&self) -> ([[u64; MARK_WORDS]; LABS], Result<String, Refusal>) {
        let bundle = bundle(&self.texts);
        let quotas = self.quotas.map(|quota| quota.unwrap_or(u32::MAX));
        let mut scratch = vec![0; 4_096 * WORDS_PER_ENTRY];
        let mut out = vec![0; lcov_sys::roomy(bundle.len())];
        let (mut marks, mut answer) = ([[0; MARK_WORDS]; LABS], [0; WORDS]);
        let number = lcov_sys::gather_quotas(
            &bundle,
            &self.labs,
            &quotas,
            &mut scratch,
            &mut out,
            marks.as_flattened_mut(),
            &mut answer,
        );
        let written = Refusal::unless_answered(number, answer);
        let text = |len| String::from_utf8(out[..len as usize].to_vec()).unwrap();
        (marks, written.map(text))
    }

    /// The file that is a text of a lab.
    fn file(&self, lab: u8, text: u64) -> PathBuf {
        let own = (0..self.labs.len()).filter(|&file| self.labs[file] == lab);
        PathBuf::from(format!("f{}", own.collect::<Vec<_>>()[text as usize]))
    }

    /// What the command is to tell of these marks, with one blank between words.
    fn told(&self, marks: &[[u64; MARK_WORDS]; LABS]) -> String {
        let (mut rows, mut messages) = ("lab entries quota state\n".to_owned(), String::new());
        for ((&[state, number, text, line, field], quota), lab) in
            marks.iter().zip(self.quotas).zip(1..)
        {
            if quota.is_none() && !self.labs.contains(&lab) {
                continue;
            }
            let quota = quota.map_or("-".to_owned(), |quota| quota.to_string());
            rows += &match state {
                0 => format!("{lab} {number} {quota} let in\n"),
                1 => format!("{lab} {number} {quota} above its quota\n"),
                _ => format!("{lab} - {quota} refused\n"),
            };
            if state == 2 {
                let refusal = Refusal {
                    number: number as u32,
                    text: 0,
                    line,
                    field,
                    needed: 0,
                };
                messages += &format!(
                    "lcov-gather: {}\n",
                    told_of(&refusal, &self.file(lab, text))
                );
            }
        }
        rows + &messages
    }
}

fn with_one_blank(told: &str) -> String {
    let lines = told.lines();
    let words = lines.map(|line| line.split_whitespace().collect::<Vec<_>>().join(" ") + "\n");
    words.collect()
}

/// How the command is to end, beside its table, given what the library answers.
fn end_of(
    sent: &Sent,
    marks: &[[u64; MARK_WORDS]; LABS],
    answer: &Result<String, Refusal>,
) -> (i32, String) {
    let is_let_in = |lab: &u8| marks[usize::from(*lab) - 1][0] == 0;
    match answer {
        Err(refusal) => {
            let file = format!("f{}", refusal.text);
            (
                1,
                format!("lcov-gather: {}\n", told_of(refusal, Path::new(&file))),
            )
        }
        Ok(_) if !sent.labs.iter().any(is_let_in) => (
            1,
            "lcov-gather: every lab is left out; nothing is written\n".to_owned(),
        ),
        Ok(_) if marks.iter().all(|mark| mark[0] == 0) => (0, String::new()),
        Ok(_) => (4, String::new()),
    }
}

#[test]
fn the_command_marks_and_prints_as_the_library_does() {
    let mut random = Random(12);
    let (mut ends, mut states) = (BTreeMap::new(), [0; 3]);
    for round in 0..500 {
        let sent = Sent::random(&mut random, [6, 6, 6, MAX_TEXTS][round % 4]);
        let folder = Folder::new();
        for (file, text) in sent.texts.iter().enumerate() {
            fs::write(folder.path(&format!("f{file}")), text).unwrap();
        }
        let (marks, answer) = sent.gathered();
        let words = sent.words();
        let words: Vec<&str> = words.iter().map(String::as_str).collect();
        let output = folder.run(&[&["-q", "--threads", "1"], &words[..]].concat());
        let (status, message) = end_of(&sent, &marks, &answer);
        assert_eq!(output.status.code(), Some(status), "{words:?}");
        let told = with_one_blank(&table_and_messages(&output));
        assert_eq!(told, sent.told(&marks) + &message, "{words:?}");
        assert_eq!(
            output.stdout,
            answer.unwrap_or_default().as_bytes(),
            "{words:?}"
        );
        *ends.entry(status).or_insert(0) += 1;
        marks.iter().for_each(|mark| states[mark[0] as usize] += 1);
    }
    assert!(
        ends.len() == 3 && ends.values().all(|&times| times > 20),
        "{ends:?}"
    );
    assert!(states.iter().all(|&times| times > 100), "{states:?}");
}
