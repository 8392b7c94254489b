//! Compares the port with the unchanged Rust on lines, paths, ranges, texts, filters and bundles, and with what include/lcov.h says on
//! single number fields. Where an FN has an end line, the Rust is asked about the same without end lines, and these are put in here. The filter by
//! distinct starts is compared with a reference that agrees with the Rust by all starts, and with the port's other filter. What takes
//! a table of tags is compared with the port's own calls without one, on the same in default tags. A page of totals is compared with what the
//! entries of the Rust's report add up to. A gather of a bundle with revisions is compared with the Rust's gather of the texts that are chosen here, and
//! the lines of windows with what the Rust's gather of each window's texts holds, and the marks of labs and what they give together with the Rust's gathers
//! of their texts; two of the port's own gathers of labs are held against each other.
//! Cutting before adding is compared with cutting after it, by the port's own calls.
//!
//!     harness [--seed N] [--minutes M | [--lines N] [--numbers N] [--ranges N] [--reports N] [--revisions N] [--windows N] [--quotas N] [--tables N] [--cuts N]]
//!
//! Every run asks the systematic lines, number fields and bundles, all pairs of paths, the recorded revisions, windows, quotas and cuts. Random
//! questions follow: so many lines, number fields, lists of ranges, texts, filters and bundles, bundles with revisions, windows, labs with quotas,
//! tables of tags, and bundles that are cut, or rounds of all of them until so many minutes have passed since the start. It prints how often each answer came, ten
//! differences of each kind in full (of texts and bundles the smallest), how many calls there were, and a last line `N compared, M differences`; the
//! exit status is 0 only if M is 0.

use harness::differences::Differences;
use harness::files::{files_in, Files};
use harness::interface::{INNER_WORDS, MAX_ENTRIES, WORDS_PER_ENTRY};
use harness::lines::{random, systematic};
use harness::ranges::cases::ROOM;
use harness::ranges::program::Program;
use harness::tagged::tables;
use harness::{cutting, numbers, paths, ranges, reports, sample, tagged, Build, Comparison, Rng};
use lcov_sys::{Calls, DEFAULT_TAGS};
use std::process::ExitCode;
use std::time::{Duration, Instant};

const USAGE: &str =
    "usage: harness [--seed N] [--minutes M | [--lines N] [--numbers N] [--ranges N] [--reports N] [--revisions N] [--windows N] [--quotas N] [--tables N] [--cuts N]]";

/// The number of random questions.
#[derive(Clone, Copy)]
struct Round {
    lines: u64,
    numbers: u64,
    /// Lists, each filled by a dozen inserts with queries between them.
    ranges: u64,
    /// Half of them texts, each filtered too, half bundles, each asked checked and lossy and for its page of totals. Texts with many equal starts
    /// are filtered besides.
    reports: u64,
    /// Bundles with revisions.
    revisions: u64,
    /// Bundles with a width.
    windows: u64,
    /// Bundles with labs and quotas, each followed by one in which other labs' texts change, and by one in another order.
    quotas: u64,
    /// Tables of tags, each with lines, a text, which is filtered too, one with many equal starts, filtered alone, a bundle of each kind, windows,
    /// and labs with quotas.
    tables: u64,
    /// Bundles that are cut before and after adding, by a list that inserts fill.
    cuts: u64,
}

/// What a run asks where nothing else is said.
const USUAL: Round = Round {
    lines: 1_000_000,
    numbers: 500_000,
    ranges: 20_000,
    reports: 200_000,
    revisions: 60_000,
    windows: 40_000,
    quotas: 30_000,
    tables: 40_000,
    cuts: 30_000,
};

/// What is asked again and again until the time is over.
const AGAIN: Round = Round {
    lines: 200_000,
    numbers: 100_000,
    ranges: 4_000,
    reports: 40_000,
    revisions: 12_000,
    windows: 8_000,
    quotas: 6_000,
    tables: 8_000,
    cuts: 6_000,
};

/// Of how many lists one is asked of range structs too, which another process answers.
const STRUCTS_ONE_IN: u64 = 20;

struct Options {
    seed: u64,
    round: Round,
    minutes: Option<u64>,
}

fn main() -> ExitCode {
    let Some(options) = options(std::env::args().skip(1)) else {
        eprintln!("{USAGE}");
        return ExitCode::from(2);
    };
    oracle::hush_overflow();
    let start = Instant::now();
    let program = match Program::start() {
        Ok(program) => program,
        Err(error) => {
            eprintln!("the program test_line_num can't be run: {error}");
            return ExitCode::from(2);
        }
    };
    let mut run = Run::new(options.seed, program);
    run.systematic();
    match options.minutes {
        None => run.round(options.round),
        Some(minutes) => {
            while start.elapsed() < Duration::from_secs(60 * minutes) {
                run.round(AGAIN);
            }
        }
    }
    run.tell(start.elapsed());
    ExitCode::from(u8::from(run.differences() > 0))
}

/// None where they are none of the usage.
fn options(mut words: impl Iterator<Item = String>) -> Option<Options> {
    let mut options = Options {
        seed: 1,
        round: USUAL,
        minutes: None,
    };
    let mut counted = false;
    while let Some(word) = words.next() {
        let number = words.next()?.parse().ok()?;
        match word.as_str() {
            "--seed" => options.seed = number,
            "--minutes" => options.minutes = Some(number),
            "--lines" => options.round.lines = number,
            "--numbers" => options.round.numbers = number,
            "--ranges" => options.round.ranges = number,
            "--reports" => options.round.reports = number,
            "--revisions" => options.round.revisions = number,
            "--windows" => options.round.windows = number,
            "--quotas" => options.round.quotas = number,
            "--tables" => options.round.tables = number,
            "--cuts" => options.round.cuts = number,
            _ => return None,
        }
        counted |= !matches!(word.as_str(), "--seed" | "--minutes");
    }
    (options.minutes.is_none() || !counted).then_some(options)
}

struct Run {
    seed: u64,
    rng: Rng,
    lines: Comparison<Build>,
    numbers: numbers::compare::Comparison<Build>,
    ranges: ranges::compare::Comparison<Build>,
    /// Lists of range structs.
    structs: ranges::compare::Comparison<Program>,
    reports: reports::compare::Comparison<Build>,
    tagged: tagged::Comparison<Build>,
    cutting: cutting::Comparison<Build>,
}

impl Run {
    fn new(seed: u64, program: Program) -> Self {
        let port = Build(Calls::LINKED);
        Run {
            seed,
            rng: Rng::new(seed),
            lines: Comparison::new(port),
            numbers: numbers::compare::Comparison::new(port),
            ranges: ranges::compare::Comparison::new(port),
            structs: ranges::compare::Comparison::new(program),
            reports: reports::compare::Comparison::new(port, seed),
            tagged: tagged::Comparison::new(port, seed),
            cutting: cutting::Comparison::new(port, seed),
        }
    }

    fn systematic(&mut self) {
        systematic(&mut |line| self.lines.line(line));
        numbers::fields::systematic(&mut |field, max| self.numbers.field(field, max));
        let spellings = paths::spellings(&mut self.rng);
        for a in &spellings {
            for b in &spellings {
                self.lines.paths(a, b);
            }
        }
        let inner = INNER_WORDS / WORDS_PER_ENTRY;
        let reports = &mut self.reports;
        reports::pages::asked(&mut |bundle| reports.bundle(bundle));
        reports::systematic::bundles(&mut |bundle| reports.bundle(bundle));
        reports::systematic::near_the_inner_limit(inner, &mut |bundle| reports.bundle(bundle));
        for entries in [MAX_ENTRIES, MAX_ENTRIES + 1] {
            reports.text(&reports::systematic::ascending(entries));
        }
        reports::systematic::replaced(self.seed, &mut |text| reports.text(text));
        reports::systematic::starts(&mut |text, list| reports.filter(text, list));
        reports::revisions::systematic::bundles(&mut |bundle| reports.revisions(bundle));
        let windows = &mut |width, bundle: &[u8]| reports.windows(width, bundle);
        reports::windows::systematic::windows(windows);
        reports::quotas::systematic::questions(&mut |asked| reports.quotas(asked));
        self.recorded_revisions();
        self.recorded_windows();
        self.recorded_quotas();
        self.recorded_with_tables();
        self.recorded_cuts();
    }

    fn recorded_revisions(&mut self) {
        let files = files_in(reports::revisions::recorded::FOLDER);
        let files = files.expect("the recorded revisions are there");
        for recorded in reports::revisions::recorded::all() {
            let [bundle, printed] = recorded_files(&files, recorded.name);
            self.reports.recorded_revisions(bundle, printed);
        }
    }

    fn recorded_windows(&mut self) {
        let files = files_in(reports::windows::recorded::FOLDER);
        let files = files.expect("the recorded windows are there");
        for recorded in reports::windows::recorded::all() {
            let [asked, printed] = recorded_files(&files, recorded.name);
            let asked = reports::windows::recorded::Question::decoded(asked);
            let asked = asked.expect("width and sizes stand before the bundle");
            self.reports.recorded_windows(&asked, printed);
        }
    }

    fn recorded_quotas(&mut self) {
        let files = files_in(reports::quotas::recorded::FOLDER);
        let files = files.expect("the recorded quotas are there");
        for (name, _) in reports::quotas::recorded::all() {
            let [asked, printed] = recorded_files(&files, name);
            let asked = reports::quotas::recorded::Recorded::decoded(asked);
            let asked = asked.expect("sizes, quotas and labs stand before the bundle");
            self.reports.recorded_quotas(&asked, printed);
        }
    }

    fn recorded_cuts(&mut self) {
        let files = files_in(cutting::recorded::FOLDER).expect("the recorded cuts are there");
        let recorded = cutting::recorded::read(&files).expect("all recorded cuts are there");
        for recorded in &recorded {
            self.cutting.recorded(recorded);
        }
    }

    /// The recorded lines and bundles, with the default table, with one that loads, and with one that is refused or else special.
    fn recorded_with_tables(&mut self) {
        let special = tables::special();
        let lines = sample::decoded(&sample::make().lines).expect("the sample that was made");
        for line in lines {
            let (random, other) = (tables::random(&mut self.rng), self.rng.below(special.len()));
            for table in [&DEFAULT_TAGS[..], &random, &special[other]] {
                self.tagged.line(table, &line);
            }
        }
        let pages = reports::pages::all();
        for recorded in reports::recorded::all().into_iter().chain(pages) {
            let random = tables::random(&mut self.rng);
            self.tagged.bundle(&random, &recorded.bundle);
            for table in &special {
                self.tagged.bundle(table, &recorded.bundle);
            }
        }
        for recorded in reports::revisions::recorded::all() {
            let random = tables::random(&mut self.rng);
            for table in special.iter().chain([&random]) {
                self.tagged.revisions(table, &recorded.bundle);
            }
        }
        for reports::windows::recorded::Recorded { asked, .. } in reports::windows::recorded::all()
        {
            let random = tables::random(&mut self.rng);
            for table in special.iter().chain([&random]) {
                self.tagged.windows(table, asked.width, &asked.bundle);
            }
        }
        for (_, recorded) in reports::quotas::recorded::all() {
            let random = tables::random(&mut self.rng);
            for table in special.iter().chain([&random]) {
                self.tagged.quotas(table, recorded.question.asked());
            }
        }
    }

    fn round(&mut self, round: Round) {
        for _ in 0..round.lines {
            self.lines.line(&random::line(&mut self.rng));
        }
        for _ in 0..round.numbers {
            let (field, max) = numbers::fields::random(&mut self.rng);
            self.numbers.field(&field, max);
        }
        for number in 0..round.ranges {
            self.list(number % STRUCTS_ONE_IN == 0);
        }
        for _ in 0..round.reports / 2 {
            random_reports(&mut self.reports, &mut self.rng);
        }
        for _ in 0..round.revisions {
            random_revisions(&mut self.reports, &mut self.rng);
        }
        for _ in 0..round.windows {
            let (width, bundle) = reports::windows::random::question(&mut self.rng);
            self.reports.windows(width, &bundle);
        }
        for _ in 0..round.quotas {
            random_quotas(&mut self.reports, &mut self.rng);
        }
        for _ in 0..round.tables {
            random_table(&mut self.tagged, &mut self.rng);
        }
        for _ in 0..round.cuts {
            cutting::random::ask(&mut self.cutting, &mut self.rng);
        }
    }

    /// A list of pairs, and one of structs too where that is asked.
    fn list(&mut self, with_structs: bool) {
        let rng = &mut self.rng;
        let pairs = ranges::random::empty_list(rng);
        self.ranges.list(pairs, rng);
        let (a, b) = (ranges::random::line(rng), ranges::random::line(rng));
        self.ranges.half_open(a, b);
        if with_structs {
            let structs = ranges::random::begun_list(rng, ROOM);
            self.structs.list(structs, rng);
        }
    }

    fn found(&self) -> impl Iterator<Item = &Differences> {
        [
            &self.lines.differences,
            &self.numbers.differences,
            &self.ranges.differences,
            &self.structs.differences,
            &self.reports.differences,
            &self.tagged.differences,
            &self.cutting.differences,
        ]
        .into_iter()
    }

    fn differences(&self) -> u64 {
        self.found().map(|differences| differences.count).sum()
    }

    fn tell(&self, took: Duration) {
        print!("{}{}", self.lines.tally, self.numbers.tally);
        print!("{}", self.ranges.tally);
        println!("of range structs, by the program test_line_num:");
        print!("{}{}", self.structs.tally, self.reports.tally);
        print!("{}{}", self.tagged.tally, self.cutting.tally);
        for (number, difference) in (1..).zip(self.found().flat_map(Differences::shown)) {
            println!("difference {number}: {difference}");
        }
        let ranges = self.ranges.tally.calls() + self.structs.tally.calls();
        let numbers = &self.numbers.tally;
        let reports = &self.reports.tally;
        let tagged = &self.tagged.tally;
        let cutting = &self.cutting.tally;
        let calls = self.lines.calls
            + numbers.calls
            + ranges
            + reports.calls()
            + tagged.calls
            + cutting.calls;
        let compared = self.lines.compared()
            + numbers.asked()
            + ranges
            + reports.questions()
            + reports.counted()
            + tagged.asked()
            + cutting.compared();
        println!(
            "seed {}: {calls} calls in {:.1} s",
            self.seed,
            took.as_secs_f64()
        );
        println!("{compared} compared, {} differences", self.differences());
    }
}

/// What is asked and what is answered.
fn recorded_files<'a>(files: &'a Files, name: &str) -> [&'a Vec<u8>; 2] {
    ["in", "out"].map(|end| {
        let file = files.get(&format!("{name}.{end}"));
        file.expect("all recorded files are there")
    })
}

/// Of how many bundles one is followed by others in all orders of their texts.
const ORDERS_ONE_IN: usize = 20;

/// Of how many questions one is a text with a long section.
const LONG_ONE_IN: usize = 1000;

/// Of how many texts one with many equal starts follows, and the lists by which that is filtered.
const CROWDED_ONE_IN: usize = 2;
const LISTS_OF_CROWDED: usize = 3;

/// A text, read and filtered, and a bundle.
fn random_reports(comparison: &mut reports::compare::Comparison<Build>, rng: &mut Rng) {
    let habit = reports::random::Habit::random(rng);
    let text = reports::random::text(rng, habit);
    comparison.text(&text);
    comparison.filter(&text, &reports::random::lines_kept(rng));
    comparison.bundle(&reports::random::bundle(rng));
    if rng.one_in(CROWDED_ONE_IN) {
        let habit = reports::random::Habit::crowded(rng);
        let text = reports::random::text(rng, habit);
        for _ in 0..LISTS_OF_CROWDED {
            comparison.filter(&text, &reports::random::lines_at_starts(rng));
        }
    }
    if rng.one_in(LONG_ONE_IN) {
        comparison.long_text(&reports::long::text(rng));
    }
    if rng.one_in(ORDERS_ONE_IN) {
        for bundle in reports::random::in_all_orders(rng) {
            comparison.bundle(&bundle);
        }
    }
}

fn random_revisions(comparison: &mut reports::compare::Comparison<Build>, rng: &mut Rng) {
    comparison.revisions(&reports::revisions::random::bundle(rng));
    if rng.one_in(ORDERS_ONE_IN) {
        for bundle in reports::revisions::random::in_all_orders(rng) {
            comparison.revisions(&bundle);
        }
    }
}

/// A question, and others that SPEC 10.9 holds against it.
fn random_quotas(comparison: &mut reports::compare::Comparison<Build>, rng: &mut Rng) {
    let question = reports::quotas::random::question(rng);
    comparison.quotas(question.asked());
    if let Some((lab, changed)) = reports::quotas::random::others_changed(rng, &question) {
        comparison.own_mark(lab, &question, &changed);
        comparison.quotas(changed.asked());
    }
    if let Some(shuffled) = reports::quotas::random::shuffled(rng, &question) {
        comparison.any_order(&question, &shuffled);
    }
}

/// So many lines for a text.
const LINES_OF_TABLE: usize = 6;

/// The default table, one that loads, or one that does not, with lines, a text, read and filtered, a bundle of each kind, windows, and labs.
fn random_table(comparison: &mut tagged::Comparison<Build>, rng: &mut Rng) {
    let table = match rng.below(8) {
        0 | 1 => DEFAULT_TAGS.to_vec(),
        2 => tables::damaged(rng),
        _ => tables::random(rng),
    };
    for _ in 0..LINES_OF_TABLE {
        comparison.line(&table, &random::line(rng));
    }
    let habit = reports::random::Habit::random(rng);
    let text = reports::random::text(rng, habit);
    comparison.text(&table, &text);
    let habit = reports::random::Habit::crowded(rng);
    let crowded = reports::random::text(rng, habit);
    comparison.filter(&table, &text, &reports::random::lines_kept(rng));
    comparison.filter(&table, &crowded, &reports::random::lines_at_starts(rng));
    comparison.bundle(&table, &reports::random::bundle(rng));
    comparison.revisions(&table, &reports::revisions::random::bundle(rng));
    let (width, bundle) = reports::windows::random::question(rng);
    comparison.windows(&table, width, &bundle);
    comparison.quotas(&table, reports::quotas::random::question(rng).asked());
}
