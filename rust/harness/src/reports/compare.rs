//! The comparison: each question is asked with several lengths of scratch, output and answer, and all that the port hands back or leaves
//! alone is held against what is expected.

use super::beside::{misfit, starts_differ};
use super::chosen::Chosen;
use super::expected::{in_words, may_refuse, Expected};
use super::recorded::{self, Sizes};
use super::tally::Tally;
use super::{bundles, page, quotas, revisions, windows, Asked};
use crate::compare::{shown, BYTES_PAST, MOST_WORDS, THOROUGH_AT_MOST};
use crate::differences::Difference;
use crate::expected::{printing, Answer};
use crate::guarded::{self, Left};
use crate::interface::{
    Filter, Gatherer, Quotas, Starts, FIELD, INNER_WORDS, LINE, MARKS, MAX_ENTRIES, TEXT, WORDS,
    WORDS_PER_ENTRY, WRITTEN,
};
use crate::ranges::List;
use crate::with_scratch;
use oracle::{Mode, Refusal};

/// Of how many questions one is asked with every length; a prime.
const THOROUGH_ONE_IN: u64 = 97;

/// Words past the marks that are lent as well.
const MARKS_PAST: usize = 2;

/// The lengths of what is lent for a call.
#[derive(Clone, Copy)]
pub(super) struct Lengths {
    pub(super) scratch: Scratch,
    pub(super) room: usize,
    pub(super) marks: usize,
    pub(super) words: usize,
}

impl Lengths {
    /// Enough for any answer.
    fn ample(asked: Asked) -> Self {
        Lengths {
            scratch: Scratch::Words(words_for(asked.bytes().len())),
            room: 2 * asked.bytes().len() * 64,
            marks: marks_of(asked),
            words: WORDS,
        }
    }

    fn shown(self) -> String {
        format!(
            "{}, output of {} bytes, marks of {} words, answer of {} words",
            self.scratch.shown(),
            self.room,
            self.marks,
            self.words
        )
    }
}

#[derive(Clone, Copy)]
pub(super) enum Scratch {
    Words(usize),
    /// The checked gather that has its own.
    Inside,
}

impl Scratch {
    fn words(self) -> usize {
        match self {
            Scratch::Words(words) => words,
            Scratch::Inside => INNER_WORDS,
        }
    }

    pub(super) fn entries(self) -> usize {
        (self.words() / WORDS_PER_ENTRY).min(MAX_ENTRIES)
    }

    fn shown(self) -> String {
        match self {
            Scratch::Words(words) => format!("scratch of {words} words"),
            Scratch::Inside => "scratch inside".to_owned(),
        }
    }
}

/// What the port's own gathers tell of a call: what it prints or its refusal, and its marks.
type Alone = (Result<Vec<u8>, Answer>, Vec<u64>);

pub type Comparison<P> = with_scratch::Comparison<P, Tally>;

impl<P: Gatherer> Comparison<P> {
    pub fn text(&mut self, text: &[u8]) {
        self.ask(Asked::Text(text));
    }

    /// A text with thousands of lines: with the usual lengths alone.
    pub fn long_text(&mut self, text: &[u8]) {
        let asked = Asked::Text(text);
        let expected = Expected::of(asked).expect("a text that the Rust reads");
        self.tally.count_expected(asked, &expected);
        self.usual_lengths(asked, &expected);
    }

    /// By all starts and by distinct ones, each for itself and both beside each other.
    pub fn filter(&mut self, text: &[u8], list: &List) {
        let filters = Starts::BOTH.map(|starts| Filter { starts, text, list });
        for filter in filters {
            self.ask(Asked::Filter(filter));
        }
        self.beside_each_other(text, filters);
    }

    /// Gathered in both modes, and its page of totals.
    pub fn bundle(&mut self, bundle: &[u8]) {
        self.ask(Asked::Bundle(Mode::Checked, bundle));
        self.ask(Asked::Bundle(Mode::Lossy, bundle));
        self.ask(Asked::Totals(bundle));
    }

    pub fn revisions(&mut self, bundle: &[u8]) {
        self.tally.revisions.count(bundle);
        self.ask(Asked::Revisions(bundle));
    }

    pub fn windows(&mut self, width: u32, bundle: &[u8]) {
        self.ask(Asked::Windows(width, bundle));
    }

    pub fn quotas(&mut self, asked: Quotas) {
        self.ask(Asked::Quotas(asked));
    }

    /// The recorded answer comes again, with the sizes of the program `gather`.
    pub fn recorded_revisions(&mut self, bundle: &[u8], recorded: &[u8]) {
        self.tally.revisions.recorded += 1;
        let asked = Asked::Revisions(bundle);
        self.recorded(asked, Sizes::OF_PROGRAM, recorded, refusal_printed);
    }

    /// So does that of windows, with the sizes that are recorded.
    pub fn recorded_windows(&mut self, asked: &windows::recorded::Question, recorded: &[u8]) {
        self.tally.windows.recorded += 1;
        let windows = Asked::Windows(asked.width, &asked.bundle);
        self.recorded(windows, asked.sizes, recorded, recorded::refused_in_full);
    }

    /// So do the marks and the answer of a gather with quotas.
    pub fn recorded_quotas(&mut self, asked: &quotas::recorded::Recorded, recorded: &[u8]) {
        self.tally.quotas.recorded += 1;
        let quotas = Asked::Quotas(asked.question.asked());
        self.recorded(quotas, asked.sizes, recorded, recorded::refused_in_full);
    }

    fn recorded(
        &mut self,
        asked: Asked,
        sizes: Sizes,
        recorded: &[u8],
        printed: fn(Answer) -> Vec<u8>,
    ) {
        let lengths = Lengths {
            scratch: Scratch::Words(sizes.words),
            room: sizes.room,
            marks: marks_of(asked),
            words: WORDS,
        };
        let left = self.asked_with(asked, lengths);
        let mut came = recorded::marks_printed(left.marks.written());
        came.extend(answered_by(&left).map_or_else(printed, <[u8]>::to_vec));
        if came != recorded {
            let wanted = format!("as recorded, {}", shown(recorded));
            self.differ(asked, lengths, wanted, &left);
        }
    }

    fn ask(&mut self, asked: Asked) {
        let Some(expected) = Expected::of(asked) else {
            self.tally.count_outside(asked);
            return self.without_the_rust(asked);
        };
        self.tally.count_expected(asked, &expected);
        self.usual_lengths(asked, &expected);
        if self.tally.asked().is_multiple_of(THOROUGH_ONE_IN) {
            self.every_length(asked, &expected);
        }
        let fits = expected.entries <= MAX_ENTRIES;
        if let (Ok(printed), true) = (&expected.told, fits) {
            self.reading_back(asked, printed, expected.entries);
        }
    }

    /// Scratch and output that just fit, then one entry and one byte less.
    fn usual_lengths(&mut self, asked: Asked, expected: &Expected) {
        let needed = expected.told.as_ref().map_or(0, Vec::len);
        let more = self.rng.below(WORDS_PER_ENTRY);
        let fits = words_for(expected.entries) + more;
        self.call(asked, expected, fits, needed + BYTES_PAST, MOST_WORDS);
        self.call(asked, expected, fits + words_for(3), needed, WORDS);
        if needed > 0 {
            self.call(asked, expected, fits, needed - 1, WORDS);
        }
        if expected.entries > 0 {
            let fewer = words_for(expected.entries) - 1;
            self.call(asked, expected, fewer, needed + BYTES_PAST, WORDS);
        }
        if let Asked::Bundle(Mode::Checked, _) = asked {
            let lengths = Lengths {
                scratch: Scratch::Inside,
                room: needed + BYTES_PAST,
                marks: 0,
                words: WORDS,
            };
            self.compare(asked, expected, lengths);
        }
    }

    fn every_length(&mut self, asked: Asked, expected: &Expected) {
        let needed = expected.told.as_ref().map_or(0, Vec::len);
        if needed > THOROUGH_AT_MOST || expected.entries > THOROUGH_AT_MOST {
            return;
        }
        self.tally.thorough += 1;
        let fits = words_for(expected.entries);
        for words in 0..MOST_WORDS {
            self.call(asked, expected, fits, needed, words);
        }
        for room in 0..=needed {
            self.call(asked, expected, fits, room, WORDS);
        }
        for entries in 0..expected.entries {
            self.call(asked, expected, words_for(entries), needed, WORDS);
        }
        for marks in 0..=marks_of(asked) {
            let lengths = Lengths {
                scratch: Scratch::Words(fits),
                room: needed,
                marks,
                words: WORDS,
            };
            self.compare(asked, expected, lengths);
        }
    }

    fn call(
        &mut self,
        asked: Asked,
        expected: &Expected,
        scratch: usize,
        room: usize,
        words: usize,
    ) {
        let scratch = Scratch::Words(scratch);
        let marks = self.some_marks(asked);
        let lengths = Lengths {
            scratch,
            room,
            marks,
            words,
        };
        self.compare(asked, expected, lengths);
    }

    /// Often more words than are written, or just as many, sometimes fewer.
    fn some_marks(&mut self, asked: Asked) -> usize {
        let most = marks_of(asked);
        match self.rng.below(4) {
            0 => self.rng.below(most + 1),
            1 => most,
            _ => most + MARKS_PAST,
        }
    }

    fn compare(&mut self, asked: Asked, expected: &Expected, lengths: Lengths) {
        let entries = lengths.scratch.entries();
        let told = expected.limited(asked, entries);
        let marks = expected.limited_marks(asked, entries);
        self.held_against(asked, in_words(&told), &marks, lengths);
    }

    fn held_against(
        &mut self,
        asked: Asked,
        told: Result<&[u8], Answer>,
        marks: &[u64],
        lengths: Lengths,
    ) {
        let (answer, bytes) = printing(told, lengths.room);
        self.tally.count_call(asked, answer.number);
        let left = self.asked_with(asked, lengths);
        let same = left.answer.holds(left.number, &answer) && left.out.holds(bytes);
        if !(same && left.marks.holds_words(marks) && left.scratch_kept) {
            let written = format!("{answer:?}, output {}", shown(bytes));
            let wanted = format!("{written}, marks {marks:?}, then untouched");
            self.differ(asked, lengths, wanted, &left);
        }
    }

    /// What a gather wrote, or a reading, is read as what it is. What a filter wrote may lose emptied sections, and a page or the lines of windows
    /// are no text.
    fn reading_back(&mut self, asked: Asked, printed: &[u8], entries: usize) {
        let is_read = match asked {
            Asked::Text(text) => text != printed,
            Asked::Bundle(..) | Asked::Revisions(_) | Asked::Quotas(_) => true,
            Asked::Filter(_) | Asked::Totals(_) | Asked::Windows(..) => false,
        };
        if !is_read {
            return;
        }
        self.tally.read_back += 1;
        self.exactly(Asked::Text(printed), printed, entries);
        if matches!(asked, Asked::Bundle(..)) {
            self.tally.pages_again += 1;
            let written = bundles::of(&[printed]);
            self.exactly(Asked::Totals(&written), &page::of(printed), entries);
        }
    }

    /// Scratch for so many entries, and output for just what is to be printed.
    fn exactly(&mut self, asked: Asked, printed: &[u8], entries: usize) {
        let lengths = Lengths {
            scratch: Scratch::Words(words_for(entries)),
            room: printed.len(),
            marks: 0,
            words: WORDS,
        };
        self.held_against(asked, Ok(printed), &[], lengths);
    }

    /// The Rust can't be asked: still no number comes that the call does not have, no refused call writes, what is written reads back as
    /// itself, a page is that of the gather, and of revisions, windows and labs the gather of the chosen texts alone tells.
    fn without_the_rust(&mut self, asked: Asked) {
        let lengths = Lengths::ample(asked);
        if let Some((told, marks)) = self.told_by_gather(asked) {
            let told = told.as_deref().map_err(|answer| *answer);
            return self.held_against(asked, told, &marks, lengths);
        }
        let left = self.asked_amply(asked);
        if left.number == 0 {
            let printed = printed(&left).to_vec();
            self.reading_back(asked, &printed, asked.bytes().len());
        } else if !may_refuse(asked, left.number) || !left.out.holds(&[]) {
            let wanted = "a refusal of the call, nothing written".to_owned();
            self.differ(asked, lengths, wanted, &left);
        }
    }

    /// What the port's own gather tells of another call; None of the others.
    fn told_by_gather(&mut self, asked: Asked) -> Option<Alone> {
        let told = match asked {
            Asked::Totals(bundle) => {
                let gathered = self.asked_amply(Asked::Bundle(Mode::Checked, bundle));
                answered_by(&gathered).map(page::of)
            }
            Asked::Revisions(bundle) => {
                let chosen = revisions::chosen(bundle);
                self.gathered_alone(&chosen.expect("texts that are not UTF-8 are chosen"))
            }
            Asked::Windows(width, bundle) => {
                let windows = windows::of(width, bundle);
                self.lines_by_gather(&windows.expect("windows that are not UTF-8"))
            }
            Asked::Quotas(quotas) => return Some(self.labs_by_gather(quotas)),
            _ => return None,
        };
        Some((told, Vec::new()))
    }

    /// What the port's gather of these texts tells, with places in the whole bundle.
    fn gathered_alone(&mut self, chosen: &Chosen) -> Result<Vec<u8>, Answer> {
        let alone = bundles::of(&chosen.texts);
        let gathered = self.asked_amply(Asked::Bundle(Mode::Checked, &alone));
        let in_whole = |mut answer: Answer| {
            answer.words[TEXT] = chosen.in_whole(answer.words[TEXT] as usize) as u64;
            answer
        };
        answered_by(&gathered).map(<[u8]>::to_vec).map_err(in_whole)
    }

    fn lines_by_gather(&mut self, windows: &[Chosen]) -> Result<Vec<u8>, Answer> {
        let mut lines = Vec::new();
        for window in windows {
            let gathered = self.gathered_alone(window)?;
            lines.extend(windows::line(page::hit_and_found(&gathered)));
        }
        Ok(lines)
    }

    fn labs_by_gather(&mut self, asked: Quotas) -> Alone {
        let labs = quotas::labs(asked).expect("labs with texts that are not UTF-8");
        let marks = labs.iter().zip(asked.quotas).map(|(lab, quota)| {
            let gathered = self.gathered_alone(lab);
            quotas::mark(*quota, gathered.map(|report| page::entries(&report)))
        });
        let marks: Vec<quotas::Mark> = marks.collect();
        let let_in = quotas::let_in(asked, &marks);
        (self.gathered_alone(&let_in), marks.concat())
    }

    /// The two filters have the same refusals, and what they print fits.
    fn beside_each_other(&mut self, text: &[u8], filters: [Filter; 2]) {
        let asked = filters.map(Asked::Filter);
        let [all, distinct] = asked.map(|asked| self.asked_amply(asked));
        let wrong = if all.number == 0 && distinct.number == 0 {
            self.misfit(text, &all, &distinct)
        } else {
            self.tally.beside.refused += 1;
            (!is_same_answer(&all, &distinct)).then_some("the same refusal")
        };
        if let Some(wrong) = wrong {
            let wanted = format!("{wrong}: {} {}", all.number, shown(printed(&all)));
            self.differ(asked[1], Lengths::ample(asked[1]), wanted, &distinct);
        }
    }

    fn misfit(&mut self, text: &[u8], all: &Left, distinct: &Left) -> Option<&'static str> {
        let read = self.asked_amply(Asked::Text(text));
        let counts = &mut self.tally.beside;
        *match starts_differ(printed(&read)) {
            true => &mut counts.same,
            false => &mut counts.equal_starts,
        } += 1;
        misfit(printed(&read), printed(all), printed(distinct))
    }

    fn asked_amply(&mut self, asked: Asked) -> Left {
        let left = self.asked_with(asked, Lengths::ample(asked));
        self.tally.count_number(asked, left.number);
        left
    }

    pub(super) fn asked_with(&mut self, asked: Asked, lengths: Lengths) -> Left {
        let slices = guarded::Lengths {
            scratch: lengths.scratch.words(),
            room: lengths.room,
            marks: lengths.marks,
            words: lengths.words,
        };
        let port = &self.port;
        self.scratch.call(slices, &mut self.rng, |lent| {
            match (asked, lengths.scratch) {
                (Asked::Bundle(Mode::Checked, bundle), Scratch::Inside) => {
                    port.gather(bundle, lent.out, lent.answer)
                }
                _ => asked.call(port, lent),
            }
        })
    }

    pub(super) fn differ(&mut self, asked: Asked, lengths: Lengths, wanted: String, left: &Left) {
        let call = match asked {
            Asked::Text(_) => "read text".to_owned(),
            Asked::Filter(Filter { starts, list, .. }) => {
                format!("filter by {list:?} and {starts:?} starts text")
            }
            Asked::Bundle(Mode::Checked, _) => "gather".to_owned(),
            Asked::Bundle(Mode::Lossy, _) => "gather lossy".to_owned(),
            Asked::Totals(_) => "totals".to_owned(),
            Asked::Revisions(_) => "gather revisions".to_owned(),
            Asked::Windows(width, _) => format!("windows of {width}"),
            Asked::Quotas(Quotas { labs, quotas, .. }) => {
                format!("gather quotas {quotas:?} of labs {labs:?}")
            }
        };
        self.differences.add(asked.bytes().len(), || Difference {
            asked: format!("{call} {}, {}", shown(asked.bytes()), lengths.shown()),
            rust: wanted,
            port: format!(
                "{}, output {}, marks {}, scratch behind the slice kept: {}",
                left.answer.shown(left.number),
                shown(left.out.all()),
                left.marks.shown_words(),
                left.scratch_kept
            ),
        });
    }
}

fn is_same_answer(a: &Left, b: &Left) -> bool {
    answer_of(a) == answer_of(b)
}

fn answer_of(left: &Left) -> Answer {
    Answer {
        number: left.number,
        words: std::array::from_fn(|place| left.answer.word(place)),
    }
}

/// What a call wrote, or its refusal.
pub(super) fn answered_by(left: &Left) -> Result<&[u8], Answer> {
    match left.number {
        0 => Ok(&left.out.all()[..left.answer.word(WRITTEN) as usize]),
        _ => Err(answer_of(left)),
    }
}

/// A refusal as a program prints it.
fn refusal_printed(answer: Answer) -> Vec<u8> {
    recorded::refused(Refusal {
        number: answer.number,
        text: answer.words[TEXT] as usize,
        line: answer.words[LINE] as usize,
        field: answer.words[FIELD] as u32,
    })
}

/// What a call wrote; nothing where it refused.
fn printed(left: &Left) -> &[u8] {
    answered_by(left).unwrap_or_default()
}

/// So many words the call writes to the marks.
fn marks_of(asked: Asked) -> usize {
    match asked {
        Asked::Quotas(_) => MARKS,
        _ => 0,
    }
}

/// The fewest words for so many entries.
pub(super) fn words_for(entries: usize) -> usize {
    entries * WORDS_PER_ENTRY
}

#[cfg(test)]
mod tests {
    use super::*;
    use crate::interface::{Lent, LABS};
    use crate::reports::stand_in::StandIn;
    use crate::stand_in::Wrong;

    /// The recorded bundles that take little time have fewer bytes.
    const SMALL: usize = 500;

    /// A list of line 2 that says that so many of its pairs count.
    fn line_two(used: usize) -> List {
        List {
            pairs: vec![[2, 2]],
            used,
        }
    }

    fn compared(wrong: Wrong) -> Comparison<StandIn> {
        let texts = [
            "SF:a//b\nFN:1,f\nDA:1,1,c\nend_of_record\n",
            "SF:a/b\nFN:2,f\nDA:2,1\nend_of_record\n",
            "DA:1,1\n",
            "SF:a\nBRDA:1,0,0,+1\nend_of_record\n",
            "SF:a\nFN:1,2,f\nend_of_record\n",
            "SF:a\nFN:2,1,f\nend_of_record\n",
            "SF:a\nFN:2,f\nFN:2,g\nend_of_record\n",
        ];
        let wide = crate::reports::systematic::ascending(256);
        let mut comparison = Comparison::new(StandIn(wrong), 1);
        comparison.bundle(&bundles::of(&[wide]));
        while comparison.tally.thorough == 0 {
            for text in texts {
                comparison.text(text.as_bytes());
            }
            comparison.filter(texts[0].as_bytes(), &line_two(1));
            comparison.filter(texts[0].as_bytes(), &line_two(2));
            comparison.filter(texts[6].as_bytes(), &line_two(1));
            comparison.bundle(&bundles::of(&texts[..2]));
            comparison.bundle(&bundles::of(&[texts[0], texts[0]]));
            comparison.bundle(b"");
            comparison.bundle(&bundles::of::<&str>(&[]));
            for recorded in revisions::recorded::all() {
                if recorded.bundle.len() < SMALL {
                    comparison.revisions(&recorded.bundle);
                }
            }
            for windows::recorded::Recorded { asked, .. } in windows::recorded::all() {
                if asked.bundle.len() < SMALL {
                    comparison.windows(asked.width, &asked.bundle);
                }
            }
            for (_, quotas::recorded::Recorded { question, .. }) in quotas::recorded::all() {
                if question.bundle.len() < SMALL {
                    comparison.quotas(question.asked());
                }
            }
        }
        comparison
    }

    #[test]
    fn a_port_that_answers_as_expected_has_no_differences() {
        let comparison = compared(Wrong::Nothing);
        assert_eq!(comparison.differences.count, 0);
        for number in [0, 8, 10, 11, 14, 16, 18, 19, 20, 23, 24, 29] {
            assert!(comparison.tally.calls_refused(number) > 0, "{number}");
        }
    }

    #[test]
    fn whatever_a_port_does_wrong_is_seen() {
        let others = [
            Wrong::OneEntryFewer,
            Wrong::OneEntryMore,
            Wrong::ScratchRead,
            Wrong::LossyIsChecked,
            Wrong::CheckedIsLossy,
            Wrong::InnerLimit,
            Wrong::FilterKeepsAll,
            Wrong::AlwaysAllStarts,
            Wrong::AlwaysDistinctStarts,
            Wrong::PlusTaken,
            Wrong::EndIsName,
            Wrong::ReportMeasured,
            Wrong::PageOfLossy,
            Wrong::NothingForNothing,
            Wrong::RepeatOfHighestAlone,
            Wrong::RepeatNamesEarlier,
            Wrong::RepeatFirst,
            Wrong::AllRunsCompared,
            Wrong::LowestChosen,
            Wrong::LaterChosen,
            Wrong::LastByteCompared,
            Wrong::OrderOfRuns,
            Wrong::PlaceAmongChosen,
            Wrong::RestRead,
            Wrong::RestCounted,
            Wrong::WindowOneWider,
            Wrong::WindowAhead,
            Wrong::PlaceInWindow,
            Wrong::LastWindowRefuses,
            Wrong::OneLimitForAll,
            Wrong::SeventeenTaken,
            Wrong::WidthFirst,
            Wrong::WidthOfTextsAlone,
            Wrong::WindowsLossy,
            Wrong::LinesJoinedAlone,
            Wrong::TextsSummed,
            Wrong::AllEntriesFound,
            Wrong::FoundFirst,
            Wrong::QuotaAsLimit,
            Wrong::EqualIsMore,
            Wrong::SectionsNotCounted,
            Wrong::EntriesSummed,
            Wrong::EntriesOfLast,
            Wrong::RefusedLabIsEmpty,
            Wrong::MarkPlaceInWhole,
            Wrong::AllLetIn,
            Wrong::JointInLabOrder,
            Wrong::PlaceAmongLetIn,
            Wrong::FirstTextLost,
            Wrong::NoMarksWhenTooShort,
            Wrong::NoMarksOnRefusal,
            Wrong::MarksWithoutLabs,
            Wrong::MarkWord(1),
            Wrong::MarkWord(MARKS - 1),
            Wrong::WordPastMarks,
            Wrong::ShortMarksBegun,
            Wrong::LabsFirst,
            Wrong::LabZeroTaken,
            Wrong::MoreLabsTaken,
            Wrong::MoreQuotasTaken,
        ];
        for wrong in Wrong::of_printing().chain(others) {
            assert!(
                compared(wrong).differences.count > 0,
                "{wrong:?} is not seen"
            );
        }
    }

    #[test]
    fn what_the_filters_answer_is_counted() {
        let comparison = compared(Wrong::Nothing);
        let counts = &comparison.tally.beside;
        assert!(counts.refused > 0 && counts.same > 0 && counts.equal_starts > 0);
        assert!(comparison
            .tally
            .to_string()
            .contains("distinct starts, 0 answered"));
    }

    /// Of a bundle that is not UTF-8 the gather of the same port tells.
    #[test]
    fn pages_windows_and_labs_are_compared_without_the_rust_too() {
        struct Bytes(&'static [u8]);

        impl Gatherer for Bytes {
            fn read_text(&self, _: &[u8], lent: Lent) -> u32 {
                Wrong::Nothing.print(Ok(REPORT), lent.out, lent.answer)
            }

            fn gather(&self, _: &[u8], _: &mut [u8], _: &mut [u64]) -> u32 {
                unreachable!("all scratch is lent here")
            }

            fn gather_with(&self, bundle: &[u8], lent: Lent) -> u32 {
                self.gather_lossy(bundle, lent)
            }

            fn gather_lossy(&self, _: &[u8], lent: Lent) -> u32 {
                Wrong::Nothing.print(Ok(REPORT), lent.out, lent.answer)
            }

            fn totals(&self, _: &[u8], lent: Lent) -> u32 {
                Wrong::Nothing.print(Ok(self.0), lent.out, lent.answer)
            }

            fn gather_revisions(&self, _: &[u8], _: Lent) -> u32 {
                unreachable!("no bundle has revisions here")
            }

            fn windows(&self, _: &[u8], _: u32, lent: Lent) -> u32 {
                Wrong::Nothing.print(Ok(self.0), lent.out, lent.answer)
            }

            fn gather_quotas(&self, _: Quotas, lent: Lent) -> u32 {
                for mark in lent.marks.chunks_mut(MARKS / LABS) {
                    mark.copy_from_slice(&[0, self.0.len() as u64, 0, 0, 0]);
                }
                Wrong::Nothing.print(Ok(REPORT), lent.out, lent.answer)
            }

            fn filter_text(&self, _: Filter, _: Lent) -> u32 {
                unreachable!("nothing is filtered here")
            }
        }

        const REPORT: &[u8] = b"TN:\xff\nSF:a\nDA:1,1\nLF:1\nLH:1\nend_of_record\n";
        const PAGE: &[u8] = b"0/0 0/0 1/1 1000 \xff a\n0/0 0/0 1/1 1000\n";
        for (page, differences) in [(PAGE, 0), (&PAGE[..PAGE.len() - 1], 3)] {
            let mut comparison = Comparison::new(Bytes(page), 1);
            comparison.bundle(&bundles::of(&[REPORT]));
            assert_eq!(comparison.differences.count, differences);
            assert_eq!(
                (comparison.tally.pages, comparison.tally.pages_again),
                (0, 2)
            );
        }
        for (lines, differences) in [(&b"1/1\n"[..], 0), (b"0/1\n", 1), (b"1/1", 1)] {
            let mut comparison = Comparison::new(Bytes(lines), 1);
            comparison.windows(1, &bundles::of(&[REPORT]));
            assert_eq!(comparison.differences.count, differences);
        }
        // every lab has two entries
        for (entries, differences) in [(&b"12"[..], 0), (b"1", 1)] {
            let mut comparison = Comparison::new(Bytes(entries), 1);
            comparison.quotas(Quotas {
                bundle: &bundles::of(&[REPORT]),
                labs: &[1],
                quotas: &[9; LABS],
            });
            assert_eq!(comparison.differences.count, differences);
        }
    }

    /// The starts agree, so that the end lines alone tell.
    #[test]
    fn end_lines_that_are_joined_wrongly_are_seen() {
        let text = |end: &str| format!("SF:a\nFN:1,{end}f\nend_of_record\n");
        for ends in [["9,", "5,"], ["9,", ""]] {
            let bundle = bundles::of(&ends.map(text));
            for (wrong, differences) in [
                (Wrong::Nothing, false),
                (Wrong::CheckedIsLossy, true),
                (Wrong::LossyIsChecked, true),
            ] {
                let mut comparison = Comparison::new(StandIn(wrong), 1);
                comparison.bundle(&bundle);
                assert_eq!(comparison.differences.count > 0, differences, "{wrong:?}");
            }
        }
    }

    #[test]
    fn the_smallest_difference_is_shown_first() {
        let comparison = compared(Wrong::Number);
        let first = comparison.differences.shown().next().unwrap().to_string();
        assert!(first.starts_with("gather b\"\" (hex )"), "{first}");
    }
}
