//! What a user sees on standard error while files are gathered: notes, and a progress bar.

use indicatif::{ProgressBar, ProgressDrawTarget, ProgressStyle};
use std::collections::HashSet;
use std::fmt::Display;
use std::io::{self, IsTerminal, Write};
use std::sync::Mutex;
use std::time::{Duration, Instant};

/// A shorter gather has no progress bar.
const LONG: Duration = Duration::from_millis(500);

/// One line on standard error. Unlike `eprintln!`, it does not end the run where that can't be written to.
pub fn tell(what: impl Display) {
    let _ = writeln!(io::stderr(), "lcov-gather: {what}");
}

/// One line on standard error as it is: an answer to what was asked for, and no message.
pub fn tell_plainly(what: impl Display) {
    let _ = writeln!(io::stderr(), "{what}");
}

pub struct Reporter {
    quiet: bool,
    started: Instant,
    bar: ProgressBar,
    /// How many files come before those that are gathered.
    before: usize,
    /// What was noted, where gathers have files in common: it is told once.
    noted: Option<Mutex<HashSet<String>>>,
}

impl Reporter {
    pub fn new(quiet: bool, files: usize) -> Self {
        let hidden = ProgressDrawTarget::hidden();
        let bar = ProgressBar::with_draw_target(Some(files as u64), hidden);
        let style = ProgressStyle::with_template("{pos} of {len} files {wide_bar}");
        Reporter {
            quiet,
            started: Instant::now(),
            bar: bar.with_style(style.expect("a well-formed template")),
            before: 0,
            noted: None,
        }
    }

    /// One for gathers of neighbours among so many files.
    pub fn of_windows(quiet: bool, files: usize) -> Self {
        let mut reporter = Reporter::new(quiet, files);
        reporter.noted = Some(Mutex::default());
        reporter
    }

    /// The next gather begins after so many files.
    pub fn begin_after(&mut self, files: usize) {
        self.before = files;
    }

    /// One line that is no failure.
    pub fn note(&self, what: impl Display) {
        if !self.quiet && self.is_new(&what) {
            self.bar.suspend(|| tell(what));
        }
    }

    fn is_new(&self, what: &impl Display) -> bool {
        let noted = self.noted.as_ref().map(|noted| noted.lock());
        noted.is_none_or(|noted| noted.expect("no note fails").insert(what.to_string()))
    }

    /// So many files of this gather are read. The bar does not go back where an earlier gather had them.
    pub fn advance(&self, done: usize) {
        let is_due = self.bar.is_hidden() && self.started.elapsed() >= LONG;
        if is_due && !self.quiet && io::stderr().is_terminal() {
            self.bar.set_draw_target(ProgressDrawTarget::stderr());
        }
        let done = (self.before + done) as u64;
        self.bar.set_position(done.max(self.bar.position()));
    }
}

/// The bar goes before a failure is told.
impl Drop for Reporter {
    fn drop(&mut self) {
        self.bar.finish_and_clear();
    }
}
