//! The order in which the library reads a section fastest: functions by name, branches, lines (SPEC 4.3). geninfo and llvm-cov write others.
//!
//! A record acts on its own key alone (SPEC 3.2), so that a section means the same in each order that keeps the records of one key in
//! theirs. Functions are sorted by name and keep their order where names are equal; branches and lines keep theirs.

use crate::record::{lines, Line, Record};
use std::ops::Range;

/// A part of a text. Texts are shorter than 4 GiB.
#[derive(Debug, Clone, Copy, PartialEq, Eq)]
pub struct Run {
    pub start: u32,
    pub end: u32,
}

impl Run {
    pub fn new(start: usize, end: usize) -> Self {
        Run {
            start: start as u32,
            end: end as u32,
        }
    }

    pub fn range(self) -> Range<usize> {
        self.start as usize..self.end as usize
    }
}

/// The kinds of a section's lines, in the library's order.
#[derive(Debug, Clone, Copy, Default, PartialEq, Eq, PartialOrd, Ord)]
enum Kind {
    #[default]
    Head,
    Function,
    Branch,
    Line,
    End,
}

/// An FN or FNDA line.
struct Function<'t> {
    name: &'t [u8],
    run: Run,
    is_start: bool,
}

/// The lines of the section that is read, by kind.
#[derive(Default)]
pub struct Order<'t> {
    /// Those of each kind but functions.
    runs: [Vec<Run>; 5],
    functions: Vec<Function<'t>>,
    last: Kind,
    /// The kinds come in another order than the library's, or the functions do.
    is_mixed: bool,
    are_functions_mixed: bool,
    /// A line that is no record or is out of place: the library is to refuse the section as it is.
    is_odd: bool,
}

impl<'t> Order<'t> {
    /// The next line of the section and where it is.
    #[inline]
    pub fn add(&mut self, record: Option<&Record<'t>>, start: usize, end: usize) {
        let run = Run::new(start, end);
        match record {
            Some(Record::Line { .. }) => self.add_run(Kind::Line, run),
            Some(Record::Branch { .. }) => self.add_run(Kind::Branch, run),
            Some(Record::Function { name, .. }) => self.add_function(name, run, true),
            Some(Record::Calls { name, .. }) => self.add_function(name, run, false),
            Some(Record::SourceFile(_)) => self.add_run(Kind::Head, run),
            Some(Record::End) => self.add_run(Kind::End, run),
            // Totals act on nothing.
            Some(Record::Found) => self.extend(Kind::Head, run),
            Some(Record::TestName(_)) | None => self.is_odd = true,
        }
    }

    /// The next lines of the section, all DA or all BRDA.
    #[inline]
    pub fn add_lines(&mut self, start: usize, end: usize) {
        self.add_run(Kind::Line, Run::new(start, end));
    }

    #[inline]
    pub fn add_branches(&mut self, start: usize, end: usize) {
        self.add_run(Kind::Branch, Run::new(start, end));
    }

    #[inline]
    fn add_run(&mut self, kind: Kind, run: Run) {
        self.extend(kind, run);
        self.follow(kind);
    }

    /// Lines that follow each other are one run.
    #[inline]
    fn extend(&mut self, kind: Kind, run: Run) {
        let runs = &mut self.runs[kind as usize];
        match runs.last_mut() {
            Some(last) if last.end == run.start => last.end = run.end,
            _ => runs.push(run),
        }
    }

    #[inline]
    fn follow(&mut self, kind: Kind) {
        self.is_mixed |= kind < self.last;
        self.last = kind;
    }

    fn add_function(&mut self, name: &'t [u8], run: Run, is_start: bool) {
        let last = self.functions.last();
        self.are_functions_mixed |= last.is_some_and(|last| name < last.name);
        self.functions.push(Function {
            name,
            run,
            is_start,
        });
        self.follow(Kind::Function);
    }

    /// Functions of one name keep their order.
    fn sort_functions(&mut self) {
        if std::mem::take(&mut self.are_functions_mixed) {
            self.functions.sort_by_key(|function| function.name);
            self.is_mixed = true;
        }
    }

    /// Whether a function has more lines than one FN and then one FNDA, so that one would replace or add to another.
    pub fn has_function_again(&mut self) -> bool {
        self.sort_functions();
        let mut pairs = self.functions.windows(2);
        pairs.any(|pair| pair[0].name == pair[1].name && (!pair[0].is_start || pair[1].is_start))
    }

    /// The section's lines in the library's order; none if they are in that order, or if they are to stay. No line is left.
    pub fn take(&mut self) -> Vec<Run> {
        let mut runs = Vec::new();
        if !self.is_odd {
            self.sort_functions();
        }
        if self.is_mixed && !self.is_odd {
            let functions = self.functions.iter().map(|function| function.run);
            self.runs[Kind::Function as usize].extend(functions);
            runs = self.runs.concat();
        }
        self.runs.iter_mut().for_each(Vec::clear);
        self.functions.clear();
        // The memory is used again.
        *self = Order {
            runs: std::mem::take(&mut self.runs),
            functions: std::mem::take(&mut self.functions),
            ..Order::default()
        };
        runs
    }
}

/// The lines of a body that the library wrote, in a text that has it from `at` on. It prints functions by start line, right after SF, and
/// reads them faster by name.
pub fn ordered(body: &[u8], at: usize) -> Vec<Run> {
    let mut order = Order::default();
    let is_function = |line: &Line| {
        use Record::{Calls, Function, SourceFile};
        let record = line.record;
        matches!(record, Some(SourceFile(_) | Function { .. } | Calls { .. }))
    };
    let mut rest = 0;
    for line in lines(body).take_while(is_function) {
        order.add(line.record.as_ref(), at + line.start, at + line.end);
        rest = line.end;
    }
    let mut runs = order.take();
    if !runs.is_empty() {
        runs.push(Run::new(at + rest, at + body.len()));
    }
    runs
}

#[cfg(test)]
mod tests {
    use super::*;

    fn in_order(text: &str, runs: &[Run]) -> Option<String> {
        let parts = runs.iter().map(|run| &text[run.range()]);
        (!runs.is_empty()).then(|| parts.collect())
    }

    fn taken(text: &str) -> Option<String> {
        let mut order = Order::default();
        for line in lines(text.as_bytes()) {
            order.add(line.record.as_ref(), line.start, line.end);
        }
        let runs = order.take();
        assert_eq!(order.take(), []);
        in_order(text, &runs)
    }

    #[test]
    fn functions_by_name_then_branches_then_lines() {
        let text = "SF:x\nFN:1,g\nFNDA:1,g\nFNDA:2,g\nFN:3,f\nFNDA:4,f\nFNF:2\nDA:2,1\nBRDA:9,0,0,-\nDA:1,1\nBRDA:1,0,0,-\nLF:1\nend_of_record\n";
        let expected = "SF:x\nFNF:2\nLF:1\nFN:3,f\nFNDA:4,f\nFN:1,g\nFNDA:1,g\nFNDA:2,g\nBRDA:9,0,0,-\nBRDA:1,0,0,-\nDA:2,1\nDA:1,1\nend_of_record\n";
        assert_eq!(taken(text).as_deref(), Some(expected));
    }

    #[test]
    fn what_is_in_order_or_odd_stays() {
        for text in [
            "",
            "SF:x\nFN:1,f\nFNDA:1,f\nFNF:1\nBRDA:1,0,0,-\nBRF:1\nDA:2,1\nDA:1,1\nLF:2\nend_of_record\n",
            "DA:1,1\nTN:x\nBRDA:1,0,0,1\nend_of_record\n",
            "DA:1,1\nVER:x\nBRDA:1,0,0,1\nend_of_record\n",
        ] {
            assert_eq!(taken(text), None, "{text}");
        }
    }

    #[test]
    fn what_the_library_wrote_gets_its_functions_by_name() {
        let rest = "FNF:2\nFNH:2\nBRDA:1,0,0,1\nDA:1,1\nend_of_record\n";
        let printed = format!("SF:x\nFN:1,g\nFN:2,f\nFNDA:1,g\nFNDA:2,f\n{rest}");
        let expected = format!("SF:x\nFN:2,f\nFNDA:2,f\nFN:1,g\nFNDA:1,g\n{rest}");
        let runs = ordered(printed.as_bytes(), 0);
        assert_eq!(in_order(&printed, &runs), Some(expected.clone()));
        assert_eq!(ordered(expected.as_bytes(), 0), []);
        let later = runs
            .iter()
            .map(|run| Run::new(run.range().start + 7, run.range().end + 7));
        assert!(ordered(printed.as_bytes(), 7).into_iter().eq(later));
    }

    /// The lines that begin and end so.
    fn chosen<'t>(text: &'t str, tag: &str, end: &str) -> Vec<&'t str> {
        let is_chosen = |line: &&str| line.starts_with(tag) && line.ends_with(end);
        text.lines().filter(is_chosen).collect()
    }

    #[test]
    fn no_line_is_lost_and_those_of_one_key_keep_their_order() {
        let mut random = 0x9e37_79b9_u64;
        let mut below = |bound: usize| {
            random ^= random << 13;
            random ^= random >> 7;
            random ^= random << 17;
            (random >> 11) as usize % bound
        };
        let mut changed = 0;
        for _ in 0..5_000 {
            let lines = (0..below(9)).map(|count| match below(5) {
                0 => format!("DA:{},{count}\n", below(3)),
                1 => format!("BRDA:{},0,0,{count}\n", below(3)),
                2 => format!("FN:{count},{}\n", ["f", "g", "h"][below(3)]),
                3 => format!("FNDA:{count},{}\n", ["f", "g", "h"][below(3)]),
                _ => format!("LF:{count}\n"),
            });
            let text = format!("SF:x\n{}end_of_record\n", lines.collect::<String>());
            let Some(other) = taken(&text) else {
                continue;
            };
            let [mut sorted, mut others] = [&text, &other].map(|text| chosen(text, "", ""));
            sorted.sort_unstable();
            others.sort_unstable();
            assert_eq!(sorted, others);
            for (tag, end) in [
                ("DA", ""),
                ("BRDA", ""),
                ("FN", ",f"),
                ("FN", ",g"),
                ("FN", ",h"),
            ] {
                assert_eq!(chosen(&text, tag, end), chosen(&other, tag, end), "{text}");
            }
            assert_eq!(taken(&other), None, "{text}");
            changed += 1;
        }
        assert!(changed > 1_000, "{changed}");
    }

    #[test]
    fn a_function_comes_again_unless_one_fnda_follows_one_fn() {
        for (text, is_again) in [
            ("FN:1,f\nFN:1,g\nFNDA:1,f\nFNDA:1,g\n", false),
            ("FN:1,f\nFN:1,g\nFN:1,f\n", true),
            ("FNDA:1,f\nFN:1,f\n", true),
            ("FNDA:1,f\nFN:1,g\nFNDA:1,f\n", true),
            ("FNDA:1,f\n", false),
        ] {
            let mut order = Order::default();
            for line in lines(text.as_bytes()) {
                order.add(line.record.as_ref(), line.start, line.end);
            }
            assert_eq!(order.has_function_again(), is_again, "{text}");
        }
    }
}
