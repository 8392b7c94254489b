//! One walk over the lines of a file, for the audit, the guard and the cutter.

use crate::audit::Sums;
use crate::cutting::Cutter;
use crate::forms;
use crate::guard::{Guard, Replacements};
use crate::meaning::Meaning;
use crate::piece::Pieces;
use crate::record::{lines, parse, ItemRun, Line};

/// What a file says.
#[derive(Debug, Default)]
pub struct Scanned {
    pub is_empty: bool,
    pub cut: Pieces,
    pub sums: Sums,
    /// Whether it has a function, branch or line.
    pub has_items: bool,
    pub replaced: Replacements,
}

impl Scanned {
    /// A line of another producer. The library refuses a line that is none.
    fn add_form(&mut self, line: &[u8]) {
        let calls = forms::calls_of(line);
        let translated = forms::translate(line);
        let record = translated.as_ref().and_then(|form| parse(&form.text));
        if let Some(count) = calls {
            self.sums.calls += u128::from(count);
        }
        if let Some(record) = record {
            self.sums.add(&record);
        }
        self.has_items |= calls.is_some() || record.is_some();
    }
}

/// `file` is what messages call it. The guard is that of the file.
pub fn scan<'t>(text: &'t [u8], file: &str, meaning: Meaning, guard: Guard<'t>) -> Scanned {
    let cutter = Cutter::new(text, meaning, guard.has_one_name());
    let scanned = Scanned {
        is_empty: text.is_empty(),
        ..Scanned::default()
    };
    let mut scan = Scan {
        file,
        meaning,
        guard,
        cutter,
        scanned,
    };
    let mut rest = lines(text);
    loop {
        if let Some(run) = rest.line_run() {
            scan.take_lines(&run);
        } else if let Some(run) = rest.branch_run() {
            scan.take_branches(&run);
        } else if let Some(line) = rest.next() {
            scan.take(&line, &text[line.start..line.end]);
        } else {
            return scan.finish();
        }
    }
}

/// The walk.
struct Scan<'t, 'f> {
    file: &'f str,
    meaning: Meaning,
    guard: Guard<'t>,
    cutter: Cutter<'t>,
    scanned: Scanned,
}

impl<'t> Scan<'t, '_> {
    #[inline]
    fn take_lines(&mut self, run: &ItemRun<'t, u32>) {
        self.cutter.take_lines(run);
        self.scanned.sums.lines += run.sum;
        self.scanned.has_items = true;
        if self.meaning == Meaning::Guarded {
            self.guard.take_lines(run);
        }
    }

    #[inline]
    fn take_branches(&mut self, run: &ItemRun<'t, [u32; 3]>) {
        self.cutter.take_branches(run);
        self.scanned.sums.branches += run.sum;
        self.scanned.has_items = true;
        if self.meaning == Meaning::Guarded {
            self.guard.take_branches(run);
        }
    }

    #[inline]
    fn take(&mut self, line: &Line<'t>, bytes: &[u8]) {
        self.cutter.take(line);
        let Some(record) = &line.record else {
            if self.meaning == Meaning::Geninfo {
                self.scanned.add_form(bytes);
            }
            return;
        };
        self.scanned.sums.add(record);
        self.scanned.has_items |= record.is_item();
        if self.meaning == Meaning::Guarded {
            let replaced = &mut self.scanned.replaced;
            self.guard.take(line.number, *record, self.file, replaced);
        }
    }

    fn finish(mut self) -> Scanned {
        self.scanned.cut = self.cutter.finish();
        self.scanned
    }
}

/// Every replacement of a file. Lines that are no records are left out.
pub fn replacements<'t>(text: &'t [u8], file: &str, mut guard: Guard<'t>) -> Replacements {
    let mut all = Replacements::all();
    for line in lines(text) {
        if let Some(record) = line.record {
            guard.take(line.number, record, file, &mut all);
        }
    }
    all
}
