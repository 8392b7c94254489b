//! The gather by sections, in rounds and by threads, against one call of the library over whole files: the same bytes, the same refusal.

mod common;

use common::{bundle, printed, said_in_short, section, Folder, Random};
use lcov_gather::audit::Sums;
use lcov_gather::failure::Failure;
use lcov_gather::gathering::{gather, Mode, Reading, ROUND};
use lcov_gather::guard::Guard;
use lcov_gather::meaning::Meaning;
use lcov_gather::reporter::Reporter;
use lcov_gather::rewrite::Rewriting;
use lcov_gather::scan::scan;
use lcov_gather::source::{Source, Sources};
use lcov_sys::{Refusal, MAX_ENTRIES, MAX_TEXTS, WORDS, WORDS_PER_ENTRY};
use std::fs;
use std::path::{Path, PathBuf};
use std::time::Duration;

/// One gather of whole texts. Where there are more than a bundle names, what was written is the first text of the next bundle
/// (docs/AUDIT.md).
fn by_library(texts: &[String], mode: Mode) -> Result<String, Refusal> {
    let (first, rest) = texts.split_at(texts.len().min(MAX_TEXTS));
    let mut joined = by_one_call(first, mode)?;
    for (round, texts) in rest.chunks(MAX_TEXTS - 1).enumerate() {
        let before = MAX_TEXTS + round * (MAX_TEXTS - 1);
        let all = [&[joined], texts].concat();
        joined = by_one_call(&all, mode).map_err(|refusal| Refusal {
            text: before + refusal.text - 1,
            ..refusal
        })?;
    }
    Ok(joined)
}

fn by_one_call(texts: &[String], mode: Mode) -> Result<String, Refusal> {
    let bundle = bundle(texts);
    let mut scratch = vec![0; 4_096 * WORDS_PER_ENTRY];
    let mut out = vec![0; 1 << 20];
    let mut answer = [0; WORDS];
    let number = match mode {
        Mode::Checked => lcov_sys::gather_with(&bundle, &mut scratch, &mut out, &mut answer),
        Mode::Lossy => lcov_sys::gather_lossy(&bundle, &mut scratch, &mut out, &mut answer),
    };
    let len = Refusal::unless_answered(number, answer)?;
    Ok(String::from_utf8(out[..len as usize].to_vec()).unwrap())
}

/// The same by the command's own gather.
fn by_command(files: &[PathBuf], reading: Reading) -> Result<String, Refusal> {
    let reporter = Reporter::new(true, files.len());
    let files: Vec<Source> = files.iter().cloned().map(Source::new).collect();
    let sources = Sources {
        files: &files,
        rewriting: &Rewriting::default(),
    };
    match gather(sources, reading, Sums::default(), &reporter) {
        Ok(gathered) => Ok(String::from_utf8(gathered.joined.slices().concat()).unwrap()),
        Err(Failure::Refused(path, refusal)) => {
            assert_eq!(files[refusal.text].path(), path);
            Err(refusal)
        }
        Err(failure) => panic!("{failure}"),
    }
}

/// Readings that must all answer alike.
fn readings(mode: Mode, meaning: Meaning) -> impl Iterator<Item = Reading> {
    let limits = [(1, ROUND), (3, ROUND), (1, 1), (2, 1), (2, 150)];
    limits.into_iter().map(move |(threads, round)| Reading {
        mode,
        meaning,
        threads,
        round,
    })
}

fn write_all(texts: &[String], folder: &Folder) -> Vec<PathBuf> {
    let files = texts.iter().enumerate().map(|(k, text)| {
        let file = folder.path(&k.to_string());
        fs::write(&file, text).unwrap();
        file
    });
    files.collect()
}

/// A line of a section; one in `faults` of them has a fault, where that is not 0.
fn line(random: &mut Random, faults: usize) -> String {
    if faults > 0 && random.below(faults) == 0 {
        let wrong = [
            "DA:1,x",
            "DA:1",
            "TN:t",
            "VER:1",
            "LF:x",
            "FNDA:18446744073709551615,f",
            "FN:9,f",
            "FN:9,10,g",
            "FN:9,8,f",
            "FN:1,4294967296,f",
            "DA:1,18446744073709551615",
            "DA:2,18446744073709551615,s",
            "DA:3,1,other",
            "BRDA:1,0,0,18446744073709551615",
            "BRDA:1,0,0",
            "",
        ];
        return random.of(&wrong).to_owned();
    }
    match random.below(7) {
        0 => {
            let end = random.of(&["", "1,", "5,", "9,"]);
            format!("FN:1,{end}{}", random.of(&["f", "g", "h"]))
        }
        1 => format!("FNDA:{},{}", random.below(3), random.of(&["f", "g", "h"])),
        2 => format!(
            "BRDA:{},0,0,{}",
            random.below(3),
            random.of(&["-", "0", "2"])
        ),
        3 => "LF:1".to_owned(),
        _ => {
            let checksum = random.of(&["", ",s"]);
            format!("DA:{},{}{checksum}", random.below(9), random.below(4))
        }
    }
}

/// A section may have no TN where `has_gaps`.
fn text(random: &mut Random, faults: usize, has_gaps: bool) -> String {
    let mut text = String::new();
    for _ in 0..random.below(5) {
        if !has_gaps || random.below(3) > 0 {
            text += &format!("TN:{}\n", random.of(&["", "t", "u"]));
        }
        if random.below(8) > 0 {
            let path = random.of(&["x", "x/.", "y", "a/b", "a-b", "a//b"]);
            text += &format!("SF:{path}\n");
        }
        for _ in 0..random.below(6) {
            text += &(line(random, faults) + random.of(&["\n", "\n", "\r\n"]));
        }
        if faults == 0 || random.below(20) > 0 {
            text += "end_of_record\n";
        }
    }
    if random.below(4) == 0 {
        text.truncate(text.trim_end().len());
    }
    text
}

/// Whether something in the text replaces something else. Sections that come twice add here, so that another fault may be found first.
fn is_guarded(text: &String) -> bool {
    !scan(text.as_bytes(), "", Meaning::Guarded, Guard::default())
        .replaced
        .is_empty()
}

/// How many of the bundles the command took and refused, and in how many the guard finds something. With [`Meaning::Guarded`] the guard
/// refuses these; all others are compared with the library, in all readings.
fn compare_bundles(bundles: usize, faults: usize, mode: Mode, meaning: Meaning) -> [usize; 3] {
    let folder = Folder::new();
    let mut random = Random(0x2545_f491_4f6c_dd1d + faults as u64);
    let mut tally = [0; 3];
    for _ in 0..bundles {
        let texts: Vec<String> = (0..1 + random.below(5))
            .map(|_| text(&mut random, faults, meaning == Meaning::AsWritten))
            .collect();
        let is_guarded = texts.iter().any(is_guarded);
        tally[2] += usize::from(is_guarded);
        if is_guarded && meaning == Meaning::Guarded {
            continue;
        }
        let files = write_all(&texts, &folder);
        let expected = by_library(&texts, mode);
        for reading in readings(mode, meaning) {
            let answer = by_command(&files, reading);
            tally[usize::from(answer.is_err())] += 1;
            assert_eq!(answer, expected, "{reading:?} {texts:#?}");
        }
    }
    tally
}

#[test]
fn what_is_taken_has_the_bytes_of_one_gather() {
    for mode in [Mode::Checked, Mode::Lossy] {
        let [taken, _, guarded] = compare_bundles(600, 0, mode, Meaning::Guarded);
        assert!(taken > 500 && guarded > 50, "{taken} {guarded}");
        let [taken, _, guarded] = compare_bundles(600, 0, mode, Meaning::AsWritten);
        assert!(taken > 2_500 && guarded > 300, "{taken} {guarded}");
    }
}

#[test]
fn what_is_refused_has_the_file_line_and_field_of_one_gather() {
    for mode in [Mode::Checked, Mode::Lossy] {
        for faults in [30, 8] {
            let [taken, refused, _] = compare_bundles(600, faults, mode, Meaning::Guarded);
            assert!(taken > 20 && refused > 200, "{taken} {refused}");
            let [taken, refused, guarded] = compare_bundles(600, faults, mode, Meaning::AsWritten);
            assert!(
                taken > 200 && refused > 200 && guarded > 200,
                "{taken} {refused} {guarded}"
            );
        }
    }
}

/// So many texts that there are several rounds of the command, and many sections that only a few have. One text in `faulty` may have
/// faults.
fn many_texts(random: &mut Random, faulty: usize) -> Vec<String> {
    let texts = (0..60 + random.below(200)).map(|_| {
        let faults = match random.below(faulty) {
            0 => 12,
            _ => 0,
        };
        let own = format!("own/{}", random.below(300));
        section(&own, &[(random.below(9) as u32, 1)]) + &text(random, faults, true)
    });
    texts.collect()
}

/// Rounds of at most 64 files, by one and by more threads, against one gather of all.
#[test]
fn many_files_have_the_bytes_and_the_refusal_of_one_gather() {
    let folder = Folder::new();
    let mut random = Random(0x51ab_77c3);
    let mut tally = [0; 2];
    for round in 0..60 {
        let texts = many_texts(&mut random, [1_000_000, 60][round % 2]);
        let files = write_all(&texts, &folder);
        for mode in [Mode::Checked, Mode::Lossy] {
            let expected = by_library(&texts, mode);
            for threads in 1..3 {
                let reading = Reading {
                    mode,
                    meaning: Meaning::AsWritten,
                    threads,
                    round: ROUND,
                };
                let answer = by_command(&files, reading);
                tally[usize::from(answer.is_err())] += 1;
                assert_eq!(answer, expected, "{reading:?} {texts:#?}");
            }
        }
    }
    assert!(tally.iter().all(|&answers| answers > 40), "{tally:?}");
}

/// As geninfo means them, one round of all files is compared with rounds of one file.
#[test]
fn as_geninfo_the_rounds_do_not_matter() {
    let folder = Folder::new();
    let mut random = Random(0x0ddb_a11d);
    let mut tally = [0; 2];
    for bundle in 0..1_200 {
        let faults = [0, 30][bundle % 2];
        let texts: Vec<String> = (0..1 + random.below(6))
            .map(|_| text(&mut random, faults, true))
            .collect();
        let files = write_all(&texts, &folder);
        for mode in [Mode::Checked, Mode::Lossy] {
            let mut answers = readings(mode, Meaning::Geninfo)
                .map(|reading| (reading, by_command(&files, reading)));
            let (_, first) = answers.next().unwrap();
            tally[usize::from(first.is_err())] += 1;
            for (reading, answer) in answers {
                assert_eq!(answer, first, "{reading:?} {texts:#?}");
            }
        }
    }
    assert!(tally.iter().all(|&answers| answers > 400), "{tally:?}");
}

/// Many texts of one section and of others: rounds of 64 texts, batches of sections, and any number of threads.
#[test]
fn the_number_of_threads_does_not_matter() {
    let folder = Folder::new();
    let names: Vec<String> = (0..150).map(|k| format!("f{k:03}")).collect();
    for (k, name) in (0..).zip(&names) {
        let own = format!("own{k}");
        let mut text = section("x", &[(1, 1), (k + 2, 5)]) + &section(&own, &[(1, 3)]);
        for file in 0..40 {
            text += &section(
                &format!("y{}", (file + k) % 70),
                &[(k, 1), (200, u64::from(k))],
            );
        }
        fs::write(folder.path(name), text).unwrap();
    }
    let mut words = vec!["--threads", "1"];
    words.extend(names.iter().map(String::as_str));
    let one = printed(&folder.run(&words));
    assert!(one.contains("SF:x\nDA:1,150\n"));
    for threads in ["2", "3", "16", "100"] {
        words[1] = threads;
        assert!(printed(&folder.run(&words)) == one, "{threads}");
    }
    fs::write(folder.path("f077"), "SF:x\nDA:1,5,sum\nend_of_record\n").unwrap();
    fs::write(folder.path("f140"), "SF:x\nDA:1,5,other\nend_of_record\n").unwrap();
    fs::write(folder.path("f141"), "SF:x\nDA:1,\nend_of_record\n").unwrap();
    for threads in ["1", "2", "16"] {
        words[1] = threads;
        let output = folder.run(&words);
        assert_eq!(output.status.code(), Some(1));
        assert_eq!(
            said_in_short(&output),
            "lcov-gather: f140: the checksums of a line differ (refusal 12)\n"
        );
    }
    for wrong in ["0", "x", "-1"] {
        words[1] = wrong;
        assert_eq!(folder.run(&words).status.code(), Some(2), "{wrong}");
    }
}

/// More entries than a call of the library holds, in sections that it does hold; and one section that it does not.
#[test]
fn the_limit_is_that_of_a_section() {
    let lines = |path: &str, lines: std::ops::Range<usize>| {
        let lines: Vec<(u32, u64)> = lines.map(|line| (line as u32, 1)).collect();
        section(path, &lines)
    };
    let most = MAX_ENTRIES - 1;
    let folder = Folder::with(&[
        ("a", &(lines("x", 0..most) + &lines("y", 0..most))),
        ("b", &lines("z", 0..most)),
        ("c", &lines("y", most..most + 1)),
        ("d", &lines("x", 0..most + 1)),
    ]);
    let both = lines("x", 0..most) + &lines("y", 0..most) + &lines("z", 0..most);
    assert!(printed(&folder.run(&["a", "b"])) == both);
    let joined = folder.run(&["a", "b", "c"]);
    let expected = "lcov-gather: c: too many entries (refusal 10)\n";
    assert_eq!(
        (joined.status.code(), said_in_short(&joined)),
        (Some(1), expected.into())
    );
    let one = folder.run(&["b", "d"]);
    let expected = format!(
        "lcov-gather: d:{}: too many entries (refusal 10)\n",
        most + 3
    );
    assert_eq!(
        (one.status.code(), said_in_short(&one)),
        (Some(1), expected)
    );
}

/// A file of so many sections of two lines each.
fn many(count: usize, is_shuffled: bool) -> String {
    let mut numbers: Vec<usize> = (0..count).collect();
    if is_shuffled {
        let mut random = Random(count as u64);
        for place in (1..count).rev() {
            numbers.swap(place, random.below(place + 1));
        }
    }
    let sections = numbers
        .iter()
        .map(|number| section(&format!("/src/{number:07}.c"), &[(1, 1), (2, 0)]));
    sections.collect()
}

/// The time of this thread's processor: others use the machine too.
fn processor_time() -> Duration {
    let mut time = libc::timespec {
        tv_sec: 0,
        tv_nsec: 0,
    };
    // SAFETY: the place is lent for the call.
    let done = unsafe { libc::clock_gettime(libc::CLOCK_THREAD_CPUTIME_ID, &mut time) };
    assert_eq!(done, 0);
    Duration::new(time.tv_sec as u64, time.tv_nsec as u32)
}

/// The least of several gathers of one file by one thread, for each of its sections, in seconds.
fn time_per_section(file: &Path, sections: usize, meaning: Meaning) -> f64 {
    let reading = Reading {
        mode: Mode::Checked,
        meaning,
        threads: 1,
        round: ROUND,
    };
    let runs = (0..2 + 20_000 / sections).map(|_| {
        let start = processor_time();
        let written = by_command(&[file.to_owned()], reading).unwrap();
        assert_eq!(written.matches("SF:").count(), sections);
        processor_time() - start
    });
    runs.min().unwrap().as_secs_f64() / sections as f64
}

#[test]
fn time_is_linear_in_sections() {
    let folder = Folder::new();
    for meaning in [Meaning::Geninfo, Meaning::Guarded] {
        for is_shuffled in [false, true] {
            let [few, lots] = [1_000, 100_000].map(|sections| {
                let file = folder.path("a");
                fs::write(&file, many(sections, is_shuffled)).unwrap();
                time_per_section(&file, sections, meaning)
            });
            println!("{meaning:?} {is_shuffled}: {few:e} s, {lots:e} s a section");
            assert!(
                lots < 4.0 * few,
                "{meaning:?} {is_shuffled}: {few:e} {lots:e}"
            );
        }
    }
}

/// Ten sections of a test, each with these lines.
fn sections_of_test(test: &str, lines: &[(u32, u64)]) -> String {
    let sections = (0..10).map(|k| section(&format!("/src/{k}.c"), lines));
    let text: String = sections.collect();
    text.replace("TN:\n", &format!("TN:{test}\n"))
}

/// Files that have a test name of their own each, so that no two sections are alike.
fn files_of_own_tests(folder: &Folder, count: usize) -> Vec<PathBuf> {
    let files = (0..count).map(|number| {
        let test = format!("test{:06}", number * 7_919 % count);
        let file = folder.path(&number.to_string());
        fs::write(&file, sections_of_test(&test, &[(1, 1), (2, 0), (3, 7)])).unwrap();
        file
    });
    files.collect()
}

/// The sections of one round lie between those of others.
#[test]
fn sections_of_many_rounds_are_written_in_key_order() {
    let folder = Folder::new();
    let files = files_of_own_tests(&folder, 200);
    let names: Vec<&str> = files.iter().map(|file| file.to_str().unwrap()).collect();
    let all = |lines: &[(u32, u64)]| -> String {
        let tests = (0..200).map(|test| sections_of_test(&format!("test{test:06}"), lines));
        tests.collect()
    };
    let expected = all(&[(1, 1), (2, 0), (3, 7)]);
    assert!(printed(&folder.run(&names)) == expected);
    printed(&folder.run(&[&["-o", "out"], &names[..]].concat()));
    assert!(folder.text("out") == expected);
    let cuts: Vec<String> = (0..10).map(|k| format!("--lines={k}.c:2-3")).collect();
    let cuts: Vec<&str> = cuts.iter().map(String::as_str).collect();
    let cut = printed(&folder.run(&[&cuts[..], &names].concat()));
    assert!(cut == all(&[(2, 0), (3, 7)]));
    let one = printed(&folder.run(&[&["--test-name", "one"], &names[..]].concat()));
    assert_eq!(
        one,
        sections_of_test("one", &[(1, 200), (2, 0), (3, 1_400)])
    );
}

/// Rounds of 64 files leave what they do not touch: the time for a file does not grow with their number.
#[test]
fn time_is_linear_in_files() {
    let folder = Folder::new();
    for meaning in [Meaning::Guarded, Meaning::AsWritten, Meaning::Geninfo] {
        let reading = Reading {
            mode: Mode::Checked,
            meaning,
            threads: 1,
            round: ROUND,
        };
        let [few, lots] = [256, 8_192].map(|count| {
            let files = files_of_own_tests(&folder, count);
            let runs = (0..2 + 1_000 / count).map(|_| {
                let start = processor_time();
                let written = by_command(&files, reading).unwrap();
                assert_eq!(written.matches("SF:").count(), 10 * count);
                processor_time() - start
            });
            runs.min().unwrap().as_secs_f64() / count as f64
        });
        println!("{meaning:?}: {few:e} s, {lots:e} s a file");
        assert!(lots < 4.0 * few, "{meaning:?}: {few:e} {lots:e}");
    }
}

/// A tag alone is a record with an empty body (SPEC 2.2), in any mode.
#[test]
fn tags_without_a_body() {
    let text = "TN\nSF\nDA:1,2\nend_of_record\n";
    let folder = Folder::with(&[("a", text)]);
    for words in [&["a"][..], &["--as-geninfo", "a"], &["--as-written", "a"]] {
        let expected = section("", &[(1, 2)]);
        assert_eq!(printed(&folder.run(words)), expected, "{words:?}");
    }
}
