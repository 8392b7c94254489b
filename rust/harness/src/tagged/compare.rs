//! The comparison: what a call with a table hands back or leaves alone is held against what the call without one answers to the same question
//! in default tags, or against the refusal of the table.

use super::tables::{loaded, EQUAL_TAGS, MALFORMED_TAGS};
use super::translated::{Change, Inwards, Outwards};
use crate::compare::{shown, BYTES_PAST, MOST_WORDS};
use crate::differences::Difference;
use crate::expected::{printing, Answer};
use crate::guarded::{printed, Left, Lengths};
use crate::interface::{
    Filter, Lent, Quotas, Starts, Tagged, MARKS, MAX_ENTRIES, START, WORDS, WORDS_PER_ENTRY,
};
use crate::ranges::List;
use crate::reports;
use crate::tally::{row, rows, NAMES, NUMBERS};
use crate::with_scratch;
use lcov_sys::DEFAULT_TAGS;
use oracle::Mode;
use std::fmt;

/// Of how many questions one keeps its default tags under any table.
const AS_IT_IS_ONE_IN: usize = 8;

/// Of how many questions one is asked with scratch for few entries.
const FEW_ONE_IN: usize = 6;

#[derive(Clone, Copy)]
enum Asked<'a> {
    Read(&'a [u8]),
    Print(&'a [u8]),
    Report(reports::Asked<'a>),
}

const CALLS: usize = 11;
const CALL_NAMES: [&str; CALLS] = [
    "read",
    "print",
    "texts",
    "filters",
    "distinct",
    "checked",
    "lossy",
    "totals",
    "revisions",
    "windows",
    "quotas",
];

impl<'a> Asked<'a> {
    fn bytes(self) -> &'a [u8] {
        match self {
            Asked::Read(line) | Asked::Print(line) => line,
            Asked::Report(asked) => asked.bytes(),
        }
    }

    /// The same question about other bytes.
    fn of<'b>(self, bytes: &'b [u8]) -> Asked<'b>
    where
        'a: 'b,
    {
        match self {
            Asked::Read(_) => Asked::Read(bytes),
            Asked::Print(_) => Asked::Print(bytes),
            Asked::Report(asked) => Asked::Report(asked.of(bytes)),
        }
    }

    fn changed(self, change: &impl Change) -> Vec<u8> {
        match self {
            Asked::Read(line) | Asked::Print(line) => change.line(line),
            Asked::Report(
                reports::Asked::Bundle(_, bundle)
                | reports::Asked::Totals(bundle)
                | reports::Asked::Windows(_, bundle)
                | reports::Asked::Quotas(Quotas { bundle, .. }),
            ) => change.bundle(bundle),
            Asked::Report(reports::Asked::Revisions(bundle)) => change.revisions(bundle),
            Asked::Report(asked) => change.text(asked.bytes()),
        }
    }

    /// What is printed for it, with other tags; a page and the lines of windows have none.
    fn printed(self, bytes: &[u8], change: &impl Change) -> Vec<u8> {
        match self {
            Asked::Report(reports::Asked::Totals(_) | reports::Asked::Windows(..)) => {
                bytes.to_vec()
            }
            Asked::Report(_) => change.text(bytes),
            _ => change.line(bytes),
        }
    }

    fn call(self) -> usize {
        match self {
            Asked::Read(_) => 0,
            Asked::Print(_) => 1,
            Asked::Report(reports::Asked::Text(_)) => 2,
            Asked::Report(reports::Asked::Filter(filter)) => match filter.starts {
                Starts::All => 3,
                Starts::Distinct => 4,
            },
            Asked::Report(reports::Asked::Bundle(Mode::Checked, _)) => 5,
            Asked::Report(reports::Asked::Bundle(Mode::Lossy, _)) => 6,
            Asked::Report(reports::Asked::Totals(_)) => 7,
            Asked::Report(reports::Asked::Revisions(_)) => 8,
            Asked::Report(reports::Asked::Windows(..)) => 9,
            Asked::Report(reports::Asked::Quotas(_)) => 10,
        }
    }
}

/// How often each answer came.
#[derive(Default)]
pub struct Tally {
    asked: [[u64; CALLS]; NUMBERS],
    pub calls: u64,
}

impl Tally {
    pub fn asked(&self) -> u64 {
        self.asked.iter().flatten().sum()
    }
}

impl fmt::Display for Tally {
    fn fmt(&self, f: &mut fmt::Formatter) -> fmt::Result {
        row(f, "with a table of tags", &CALL_NAMES)?;
        for (number, counts) in self.asked.iter().enumerate() {
            let name = match number as u32 {
                MALFORMED_TAGS => "tags ill formed",
                EQUAL_TAGS => "equal tags",
                _ => NAMES[number],
            };
            if counts.iter().any(|&count| count > 0) {
                row(f, &format!("  {number:>2} {name}"), counts)?;
            }
        }
        rows(
            f,
            &[
                ("questions with a table", self.asked()),
                ("  calls", self.calls),
            ],
        )
    }
}

pub type Comparison<P> = with_scratch::Comparison<P, Tally>;

impl<P: Tagged> Comparison<P> {
    /// A line in default tags. It is asked, as all questions, in those of the table, or as it is.
    pub fn line(&mut self, table: &[u8], line: &[u8]) {
        self.ask(table, Asked::Read(line));
        self.ask(table, Asked::Print(line));
    }

    pub fn text(&mut self, table: &[u8], text: &[u8]) {
        self.ask(table, Asked::Report(reports::Asked::Text(text)));
    }

    pub fn filter(&mut self, table: &[u8], text: &[u8], list: &List) {
        for starts in Starts::BOTH {
            let filter = Filter { starts, text, list };
            self.ask(table, Asked::Report(reports::Asked::Filter(filter)));
        }
    }

    pub fn bundle(&mut self, table: &[u8], bundle: &[u8]) {
        for mode in [Mode::Checked, Mode::Lossy] {
            self.ask(table, Asked::Report(reports::Asked::Bundle(mode, bundle)));
        }
        self.ask(table, Asked::Report(reports::Asked::Totals(bundle)));
    }

    pub fn revisions(&mut self, table: &[u8], bundle: &[u8]) {
        self.ask(table, Asked::Report(reports::Asked::Revisions(bundle)));
    }

    pub fn windows(&mut self, table: &[u8], width: u32, bundle: &[u8]) {
        let windows = reports::Asked::Windows(width, bundle);
        self.ask(table, Asked::Report(windows));
    }

    pub fn quotas(&mut self, table: &[u8], asked: Quotas) {
        self.ask(table, Asked::Report(reports::Asked::Quotas(asked)));
    }

    fn ask(&mut self, table: &[u8], default: Asked) {
        let bytes = match loaded(table) {
            Ok(tags) if !self.rng.one_in(AS_IT_IS_ONE_IN) && table != DEFAULT_TAGS => {
                default.changed(&Outwards(tags))
            }
            _ => default.bytes().to_vec(),
        };
        match default.of(&bytes) {
            Asked::Read(line) => self.reading(table, line),
            asked => self.printing(table, asked),
        }
    }

    /// The question in default tags.
    fn in_default(&self, table: &[u8], asked: Asked) -> Result<Vec<u8>, Answer> {
        let refused = |number| Answer {
            number,
            words: [0; WORDS],
        };
        let tags = loaded(table).map_err(refused)?;
        Ok(match table == DEFAULT_TAGS {
            true => asked.bytes().to_vec(),
            false => asked.changed(&Inwards(tags)),
        })
    }

    // ---- lines that are read

    fn reading(&mut self, table: &[u8], line: &[u8]) {
        let asked = Asked::Read(line);
        let default = self.in_default(table, asked);
        let expected = default.map_or_else(|answer| answer, |default| self.read(line, &default));
        self.tally.asked[expected.number as usize][asked.call()] += 1;
        for words in [MOST_WORDS, self.rng.below(MOST_WORDS)] {
            let lengths = Lengths {
                scratch: 0,
                room: 0,
                marks: 0,
                words,
            };
            let left = self.call(Some(table), asked, lengths);
            if !left.answer.holds(left.number, &expected) {
                self.differ(table, asked, lengths, format!("{expected:?}"), &left);
            }
        }
    }

    /// What the line says in default tags, with its text at the place where this line has it.
    fn read(&self, line: &[u8], default: &[u8]) -> Answer {
        let mut words = [0; WORDS];
        let number = self.port.read_line(default, &mut words);
        if number == 0 && words[START] != 0 {
            words[START] = words[START] + line.len() as u64 - default.len() as u64;
        }
        Answer { number, words }
    }

    // ---- what is printed

    fn printing(&mut self, table: &[u8], asked: Asked) {
        let scratch = self.some_scratch(asked);
        let told = self.told(table, asked, scratch);
        let marks = self.marks(table, asked, scratch);
        let number = told.as_ref().map_or_else(|answer| answer.number, |_| 0);
        self.tally.asked[number as usize][asked.call()] += 1;
        let needed = told.as_ref().map_or(0, Vec::len);
        let short = self.rng.below(WORDS);
        for (room, marks_len, words) in [
            (needed + BYTES_PAST, MARKS + 1, MOST_WORDS),
            (needed, MARKS, WORDS),
            (needed.saturating_sub(1), MARKS, WORDS),
            (needed, MARKS - 1, short),
        ] {
            let lengths = Lengths {
                scratch,
                room,
                marks: marks_len,
                words,
            };
            self.held_against(table, asked, &told, &marks, lengths);
        }
    }

    /// Enough for all entries, or for few.
    fn some_scratch(&mut self, asked: Asked) -> usize {
        let entries = match self.rng.one_in(FEW_ONE_IN) {
            true => self.rng.below(8),
            false => asked.bytes().len().min(MAX_ENTRIES),
        };
        entries * WORDS_PER_ENTRY + self.rng.below(WORDS_PER_ENTRY)
    }

    /// What the call without a table prints in the tags of the table, or its refusal.
    fn told(&mut self, table: &[u8], asked: Asked, scratch: usize) -> Result<Vec<u8>, Answer> {
        let default = self.in_default(table, asked)?;
        let told = self.print(asked.of(&default), scratch)?;
        let tags = loaded(table).expect("the table of a question in its tags");
        Ok(asked.printed(&told, &Outwards(tags)))
    }

    /// The marks of the call without a table; none where the table is refused, or where that call writes none.
    fn marks(&mut self, table: &[u8], asked: Asked, scratch: usize) -> Vec<u64> {
        let has_marks = matches!(asked, Asked::Report(reports::Asked::Quotas(_)));
        let Some(default) = self.in_default(table, asked).ok().filter(|_| has_marks) else {
            return Vec::new();
        };
        let lengths = Lengths {
            scratch,
            room: 0,
            marks: MARKS,
            words: WORDS,
        };
        let left = self.call(None, asked.of(&default), lengths);
        left.marks.written().to_vec()
    }

    /// What the call without a table prints, into an output that is long enough.
    fn print(&mut self, asked: Asked, scratch: usize) -> Result<Vec<u8>, Answer> {
        printed(2 * asked.bytes().len() + BYTES_PAST, |room| {
            let lengths = Lengths {
                scratch,
                room,
                marks: 0,
                words: WORDS,
            };
            self.call(None, asked, lengths)
        })
    }

    fn held_against(
        &mut self,
        table: &[u8],
        asked: Asked,
        told: &Result<Vec<u8>, Answer>,
        marks: &[u64],
        lengths: Lengths,
    ) {
        let told = told.as_deref().map_err(|answer| *answer);
        let (answer, bytes) = printing(told, lengths.room);
        let left = self.call(Some(table), asked, lengths);
        let same = left.answer.holds(left.number, &answer) && left.out.holds(bytes);
        if !(same && left.marks.holds_words(marks) && left.scratch_kept) {
            let written = format!("{answer:?}, output {}", shown(bytes));
            let wanted = format!("{written}, marks {marks:?}, then untouched");
            self.differ(table, asked, lengths, wanted, &left);
        }
    }

    // ---- calls

    fn call(&mut self, table: Option<&[u8]>, asked: Asked, lengths: Lengths) -> Left {
        self.tally.calls += 1;
        let port = &self.port;
        self.scratch
            .call(lengths, &mut self.rng, |lent| match table {
                Some(table) => with_table(port, table, asked, lent),
                None => without_table(port, asked, lent),
            })
    }

    fn differ(
        &mut self,
        table: &[u8],
        asked: Asked,
        lengths: Lengths,
        wanted: String,
        left: &Left,
    ) {
        let Lengths {
            scratch,
            room,
            marks,
            words,
        } = lengths;
        let call = CALL_NAMES[asked.call()];
        let how = match asked {
            Asked::Report(reports::Asked::Filter(filter)) => format!(" by {:?}", filter.list),
            Asked::Report(reports::Asked::Windows(width, _)) => format!(" of {width}"),
            Asked::Report(reports::Asked::Quotas(Quotas { labs, quotas, .. })) => {
                format!(" {quotas:?} of labs {labs:?}")
            }
            _ => String::new(),
        };
        self.differences.add(asked.bytes().len(), || Difference {
            asked: format!(
                "{call}{how} {} with table {}, scratch of {scratch} words, output of {room} bytes, marks of {marks} words, answer of {words} words",
                shown(asked.bytes()),
                shown(table),
            ),
            rust: wanted,
            port: format!(
                "{}, output {}, marks {}, scratch behind the slice kept: {}",
                left.answer.shown(left.number),
                shown(left.out.all()),
                left.marks.shown_words(),
                left.scratch_kept
            ),
        });
    }
}

fn with_table(port: &impl Tagged, table: &[u8], asked: Asked, lent: Lent) -> u32 {
    match asked {
        Asked::Read(line) => port.read_line_tagged(table, line, lent.answer),
        Asked::Print(line) => port.print_line_tagged(table, line, lent.out, lent.answer),
        Asked::Report(asked) => asked.call_tagged(port, table, lent),
    }
}

fn without_table(port: &impl Tagged, asked: Asked, lent: Lent) -> u32 {
    match asked {
        Asked::Read(line) => port.read_line(line, lent.answer),
        Asked::Print(line) => port.print_line(line, lent.out, lent.answer),
        Asked::Report(asked) => asked.call(port, lent),
    }
}

#[cfg(test)]
mod tests {
    use super::*;
    use crate::expected::{refused, Expected};
    use crate::interface::{Gatherer, Port, LABS};
    use crate::reports::bundles::{self, Sent};
    use crate::reports::{quotas, revisions, windows};
    use crate::stand_in::Wrong;
    use crate::tagged::tables::{special, Tags};
    use lcov_sys::{DEFAULT_TAG_NAMES, KINDS, TAGS_LEN, TAG_SLOT};

    /// Answers as expected without a table; with one, save for what is wrong.
    struct StandIn(Wrong);

    fn told(asked: reports::Asked, scratch: usize) -> Result<Vec<u8>, Answer> {
        let expected = reports::expected::Expected::of(asked).expect("a question in UTF-8");
        expected
            .limited(asked, scratch / WORDS_PER_ENTRY)
            .map_err(refused)
    }

    fn print(
        wrong: Wrong,
        told: Result<Vec<u8>, Answer>,
        out: &mut [u8],
        words: &mut [u64],
    ) -> u32 {
        wrong.print(told.as_deref().map_err(|answer| *answer), out, words)
    }

    fn answer(asked: reports::Asked, lent: Lent) -> u32 {
        let told = told(asked, lent.scratch.len());
        print(Wrong::Nothing, told, lent.out, lent.answer)
    }

    impl Port for StandIn {
        fn read_line(&self, line: &[u8], answer: &mut [u64]) -> u32 {
            Wrong::Nothing.answer(Expected::of(line).read, answer)
        }

        fn print_line(&self, line: &[u8], out: &mut [u8], answer: &mut [u64]) -> u32 {
            Wrong::Nothing.print(Expected::of(line).told(), out, answer)
        }

        fn compare_paths(&self, _: &[u8], _: &[u8]) -> u32 {
            unreachable!("no paths are compared here")
        }
    }

    impl Gatherer for StandIn {
        fn read_text(&self, text: &[u8], lent: Lent) -> u32 {
            answer(reports::Asked::Text(text), lent)
        }

        fn gather(&self, _: &[u8], _: &mut [u8], _: &mut [u64]) -> u32 {
            unreachable!("all scratch is lent here")
        }

        fn gather_with(&self, bundle: &[u8], lent: Lent) -> u32 {
            answer(reports::Asked::Bundle(Mode::Checked, bundle), lent)
        }

        fn gather_lossy(&self, bundle: &[u8], lent: Lent) -> u32 {
            answer(reports::Asked::Bundle(Mode::Lossy, bundle), lent)
        }

        fn totals(&self, bundle: &[u8], lent: Lent) -> u32 {
            answer(reports::Asked::Totals(bundle), lent)
        }

        fn gather_revisions(&self, bundle: &[u8], lent: Lent) -> u32 {
            answer(reports::Asked::Revisions(bundle), lent)
        }

        fn windows(&self, bundle: &[u8], width: u32, lent: Lent) -> u32 {
            answer(reports::Asked::Windows(width, bundle), lent)
        }

        fn gather_quotas(&self, asked: Quotas, lent: Lent) -> u32 {
            let entries = lent.scratch.len() / WORDS_PER_ENTRY;
            quotas::stand_in::tell(Wrong::Nothing, asked, entries, lent)
        }

        fn filter_text(&self, asked: Filter, lent: Lent) -> u32 {
            answer(reports::Asked::Filter(asked), lent)
        }
    }

    fn up_to_zero(tag: &[u8]) -> &[u8] {
        tag.split(|&byte| byte == 0).next().unwrap_or(tag)
    }

    /// Whatever the lengths of the tags.
    fn has_equal_slots(table: &[u8]) -> bool {
        let slots = table.get(KINDS..TAGS_LEN).unwrap_or_default();
        let slots: Vec<&[u8]> = slots.chunks(TAG_SLOT).collect();
        (0..slots.len()).any(|kind| slots[..kind].contains(&slots[kind]))
    }

    /// As a wrong port would read it.
    struct WrongInwards<'a>(Wrong, Inwards<'a>);

    impl Change for WrongInwards<'_> {
        fn tag<'a>(&'a self, tag: &'a [u8]) -> &'a [u8] {
            let default = DEFAULT_TAG_NAMES.map(str::as_bytes);
            let of = |known: &&[u8]| match self.0 {
                Wrong::PrefixTaken => tag.starts_with(known),
                Wrong::TagEndsAtZero => up_to_zero(known) == up_to_zero(tag),
                _ => *known == tag,
            };
            match self.1 .0.iter().position(of) {
                Some(kind) => default[kind],
                None if self.0 == Wrong::DefaultStillRead => tag,
                None => self.1.tag(tag),
            }
        }
    }

    impl StandIn {
        fn loaded<'a>(&self, table: &'a [u8]) -> Result<Tags<'a>, u32> {
            let has_equal = has_equal_slots(table);
            match (self.0, loaded(table)) {
                (Wrong::SlotsCompared, Ok(_)) if has_equal => Err(EQUAL_TAGS),
                (Wrong::EqualFirst, Err(MALFORMED_TAGS)) if has_equal => Err(EQUAL_TAGS),
                (Wrong::TableNotTried, Err(_)) => Ok(DEFAULT_TAG_NAMES.map(str::as_bytes)),
                (_, tags) => tags,
            }
        }

        fn in_default(&self, table: &[u8], asked: Asked) -> Result<Vec<u8>, Answer> {
            let words = [0; WORDS];
            let tags = self
                .loaded(table)
                .map_err(|number| Answer { number, words });
            let is_malformed = match asked {
                Asked::Report(reports::Asked::Bundle(..) | reports::Asked::Totals(_)) => {
                    bundles::decoded(asked.bytes()).is_none()
                }
                Asked::Report(reports::Asked::Revisions(bundle)) => {
                    revisions::chosen(bundle).is_err()
                }
                Asked::Report(reports::Asked::Windows(width, bundle)) => {
                    windows::of(width, bundle).is_err()
                }
                Asked::Report(reports::Asked::Quotas(asked)) => quotas::labs(asked).is_err(),
                _ => false,
            };
            if self.0 == Wrong::BundleFirst && is_malformed {
                return Ok(asked.bytes().to_vec());
            }
            Ok(asked.changed(&WrongInwards(self.0, Inwards(tags?))))
        }

        fn told(&self, table: &[u8], asked: Asked, scratch: usize) -> Result<Vec<u8>, Answer> {
            let default = self.in_default(table, asked)?;
            let printed = match asked.of(&default) {
                Asked::Report(asked) => told(asked, scratch)?,
                asked => Expected::of(asked.bytes()).told()?.to_vec(),
            };
            Ok(match (self.0, loaded(table)) {
                (Wrong::DefaultPrinted, _) | (_, Err(_)) => printed,
                (_, Ok(tags)) => asked.printed(&printed, &Outwards(tags)),
            })
        }

        fn tell(&self, table: &[u8], asked: reports::Asked, lent: Lent) -> u32 {
            let told = self.told(table, Asked::Report(asked), lent.scratch.len());
            print(self.0, told, lent.out, lent.answer)
        }
    }

    impl Tagged for StandIn {
        fn read_line_tagged(&self, tags: &[u8], line: &[u8], answer: &mut [u64]) -> u32 {
            let default = self.in_default(tags, Asked::Read(line));
            let read = default.map(|default| {
                let mut read = Expected::of(&default).read;
                if read.number == 0 && read.words[START] != 0 && self.0 != Wrong::StartOfDefault {
                    read.words[START] =
                        read.words[START] + line.len() as u64 - default.len() as u64;
                }
                read
            });
            self.0
                .answer(read.unwrap_or_else(|refused| refused), answer)
        }

        fn print_line_tagged(
            &self,
            tags: &[u8],
            line: &[u8],
            out: &mut [u8],
            answer: &mut [u64],
        ) -> u32 {
            print(self.0, self.told(tags, Asked::Print(line), 0), out, answer)
        }

        fn read_text_tagged(&self, tags: &[u8], text: &[u8], lent: Lent) -> u32 {
            self.tell(tags, reports::Asked::Text(text), lent)
        }

        fn gather_tagged(&self, tags: &[u8], bundle: &[u8], lent: Lent) -> u32 {
            self.tell(tags, reports::Asked::Bundle(Mode::Checked, bundle), lent)
        }

        fn gather_lossy_tagged(&self, tags: &[u8], bundle: &[u8], lent: Lent) -> u32 {
            self.tell(tags, reports::Asked::Bundle(Mode::Lossy, bundle), lent)
        }

        fn totals_tagged(&self, tags: &[u8], bundle: &[u8], lent: Lent) -> u32 {
            match self.0 {
                Wrong::TableNotForPages => answer(reports::Asked::Totals(bundle), lent),
                _ => self.tell(tags, reports::Asked::Totals(bundle), lent),
            }
        }

        fn gather_revisions_tagged(&self, tags: &[u8], bundle: &[u8], lent: Lent) -> u32 {
            match self.0 {
                Wrong::TableNotForRevisions => answer(reports::Asked::Revisions(bundle), lent),
                _ => self.tell(tags, reports::Asked::Revisions(bundle), lent),
            }
        }

        fn gather_quotas_tagged(&self, tags: &[u8], asked: Quotas, lent: Lent) -> u32 {
            if self.0 == Wrong::TableNotForQuotas {
                return self.gather_quotas(asked, lent);
            }
            let report = Asked::Report(reports::Asked::Quotas(asked));
            let told = self.told(tags, report, lent.scratch.len());
            let number = print(self.0, told, lent.out, lent.answer);
            if let Ok(default) = self.in_default(tags, report) {
                let bundle = match self.0 {
                    Wrong::TableNotForMarks => asked.bundle,
                    _ => &default,
                };
                let (out, answer) = (&mut [][..], &mut [][..]);
                let unprinted = Lent {
                    out,
                    answer,
                    ..lent
                };
                self.gather_quotas(Quotas { bundle, ..asked }, unprinted);
            }
            number
        }

        fn windows_tagged(&self, tags: &[u8], bundle: &[u8], width: u32, lent: Lent) -> u32 {
            match self.0 {
                Wrong::TableNotForWindows => answer(reports::Asked::Windows(width, bundle), lent),
                _ => self.tell(tags, reports::Asked::Windows(width, bundle), lent),
            }
        }

        fn filter_text_tagged(&self, tags: &[u8], asked: Filter, lent: Lent) -> u32 {
            self.tell(tags, reports::Asked::Filter(self.0.filter(asked)), lent)
        }
    }

    fn compared(wrong: Wrong) -> Comparison<StandIn> {
        let texts = [
            "TN:t\nSF:a\nFN:1,f\nFNDA:1,f\nFNF:1\nFNH:1\nBRDA:1,0,0,-\nBRF:1\nBRH:0\nDA:1,1\nLF:1\nLH:1\nend_of_record\n",
            "SF:a\nDA:1,1\nend_of_record\n",
            "SF:a\n",
            "FNx:1\n",
            "SF:a\nFN:1,f\nFN:1,g\nend_of_record\n",
        ];
        let list = List {
            pairs: vec![[1, 1]],
            used: 1,
        };
        let sent = |revision, text| Sent {
            run: 1,
            revision,
            text,
        };
        let [replaced, repeated] = [[1, 2, 3], [1, 2, 2]].map(|[first, second, third]| {
            bundles::of_revisions(&[
                sent(first, texts[2]),
                sent(second, texts[3]),
                sent(third, texts[0]),
            ])
        });
        let mut comparison = Comparison::new(StandIn(wrong), 1);
        for table in special().iter().cycle().take(400) {
            for line in texts[0].lines() {
                comparison.line(table, line.as_bytes());
            }
            for text in texts {
                comparison.text(table, text.as_bytes());
            }
            for text in [texts[0], texts[4]] {
                comparison.filter(table, text.as_bytes(), &list);
            }
            comparison.bundle(table, &bundles::of(&texts[..2]));
            comparison.bundle(table, b"");
            for bundle in [&replaced, &repeated, &texts[0].as_bytes().to_vec()] {
                comparison.revisions(table, bundle);
            }
            for width in [1, 2, 17] {
                comparison.windows(table, width, &bundles::of(&texts[..2]));
            }
            comparison.windows(table, 1, b"");
            for (labs, bundle) in [
                (&[1, 2][..], &bundles::of(&texts[..2])[..]),
                (&[1, 2], &bundles::of(&[texts[0], texts[3]])),
                (&[1], &bundles::of(&texts[..2])),
                (&[], b""),
            ] {
                let quotas = &[9; LABS];
                comparison.quotas(
                    table,
                    Quotas {
                        bundle,
                        labs,
                        quotas,
                    },
                );
            }
        }
        comparison
    }

    #[test]
    fn a_port_that_answers_as_expected_has_no_differences() {
        let comparison = compared(Wrong::Nothing);
        let first = comparison.differences.shown().next();
        assert_eq!(comparison.differences.count, 0, "{}", first.unwrap());
        for number in [0, 1, 8, 10, 16, 20, 21, 22, 24, 29] {
            let asked: u64 = comparison.tally.asked[number].iter().sum();
            assert!(asked > 0, "{number}");
        }
    }

    #[test]
    fn whatever_a_port_does_wrong_is_seen() {
        let others = [
            Wrong::SlotsCompared,
            Wrong::EqualFirst,
            Wrong::TableNotTried,
            Wrong::BundleFirst,
            Wrong::PrefixTaken,
            Wrong::TagEndsAtZero,
            Wrong::DefaultStillRead,
            Wrong::DefaultPrinted,
            Wrong::StartOfDefault,
            Wrong::AlwaysAllStarts,
            Wrong::AlwaysDistinctStarts,
            Wrong::TableNotForPages,
            Wrong::TableNotForRevisions,
            Wrong::TableNotForWindows,
            Wrong::TableNotForQuotas,
            Wrong::TableNotForMarks,
        ];
        for wrong in Wrong::of_printing().chain(others) {
            assert!(
                compared(wrong).differences.count > 0,
                "{wrong:?} is not seen"
            );
        }
    }
}
