//! What the tests' stand-ins for a port share. A stand-in answers as expected, save for one thing that is wrong.

use crate::expected::{printing, refused, Answer};
use crate::interface::{Filter, Gatherer, Lent, Quotas, Starts, NEEDED, OUTPUT_TOO_SHORT, WORDS};
use oracle::Refusal;

/// What a port could do wrong.
#[derive(Debug, Clone, Copy, PartialEq)]
pub enum Wrong {
    Nothing,

    // with any answer
    Number,
    Word(usize),
    NinthWord,
    ShortAnswerBegun,

    // with any output
    LastByte,
    WrittenPastTheEnd,
    WrittenOnRefusal,
    NeededLength,
    ExactFitRefused,

    // with lines and paths
    EmptyTextElsewhere,
    NewlineMissing,
    PathOrder,

    // with lines and texts
    PlusTaken,
    EndIsName,

    // with lines
    EqualEndRefused,

    // with number fields
    PlusIsBadDigit,
    DigitsOfTheValue,
    DigitsOneShort,
    CommaEnds,
    MaxRefused,
    BadDigitFirst,
    RefusalHasAPlace,

    // with texts and bundles
    OneEntryFewer,
    OneEntryMore,
    ScratchRead,
    LossyIsChecked,
    CheckedIsLossy,
    InnerLimit,
    FilterKeepsAll,
    AlwaysAllStarts,
    AlwaysDistinctStarts,

    // with pages of totals
    ReportMeasured,
    PageOfLossy,
    NothingForNothing,

    // with revisions
    RepeatOfHighestAlone,
    RepeatNamesEarlier,
    RepeatFirst,
    AllRunsCompared,
    LowestChosen,
    LaterChosen,
    LastByteCompared,
    OrderOfRuns,
    PlaceAmongChosen,
    RestRead,
    RestCounted,

    // with windows
    WindowOneWider,
    WindowAhead,
    PlaceInWindow,
    LastWindowRefuses,
    OneLimitForAll,
    SeventeenTaken,
    WidthFirst,
    WidthOfTextsAlone,
    WindowsLossy,
    LinesJoinedAlone,
    TextsSummed,
    AllEntriesFound,
    FoundFirst,

    // with labs and quotas
    QuotaAsLimit,
    EqualIsMore,
    SectionsNotCounted,
    EntriesSummed,
    EntriesOfLast,
    RefusedLabIsEmpty,
    MarkPlaceInWhole,
    AllLetIn,
    JointInLabOrder,
    PlaceAmongLetIn,
    FirstTextLost,
    NoMarksWhenTooShort,
    NoMarksOnRefusal,
    MarksWithoutLabs,
    MarkWord(usize),
    WordPastMarks,
    ShortMarksBegun,
    LabsFirst,
    LabZeroTaken,
    MoreLabsTaken,
    MoreQuotasTaken,

    // with tables of tags
    SlotsCompared,
    EqualFirst,
    TableNotTried,
    BundleFirst,
    PrefixTaken,
    TagEndsAtZero,
    DefaultStillRead,
    DefaultPrinted,
    StartOfDefault,
    TableNotForPages,
    TableNotForRevisions,
    TableNotForWindows,
    TableNotForQuotas,
    TableNotForMarks,
}

impl Wrong {
    /// All that any call could do wrong.
    pub fn of_answers() -> impl Iterator<Item = Wrong> {
        let others = [Wrong::Number, Wrong::NinthWord, Wrong::ShortAnswerBegun];
        (0..WORDS).map(Wrong::Word).chain(others)
    }

    /// All that a call which prints could do wrong, whatever it prints.
    pub fn of_printing() -> impl Iterator<Item = Wrong> {
        Wrong::of_answers().chain([
            Wrong::LastByte,
            Wrong::WrittenPastTheEnd,
            Wrong::WrittenOnRefusal,
            Wrong::NeededLength,
            Wrong::ExactFitRefused,
        ])
    }

    /// The filter that is made where this one is asked for.
    pub fn filter(self, asked: Filter) -> Filter {
        let starts = match self {
            Wrong::AlwaysAllStarts => Starts::All,
            Wrong::AlwaysDistinctStarts => Starts::Distinct,
            _ => asked.starts,
        };
        Filter { starts, ..asked }
    }

    /// Prints what is told, and answers.
    pub fn print(self, told: Result<&[u8], Answer>, out: &mut [u8], words: &mut [u64]) -> u32 {
        let room = out.len() - usize::from(self == Wrong::ExactFitRefused && !out.is_empty());
        let (mut answer, bytes) = printing(told, room);
        out[..bytes.len()].copy_from_slice(bytes);
        match (self, answer.number) {
            (Wrong::LastByte, 0) if !bytes.is_empty() => out[bytes.len() - 1] ^= 1,
            (Wrong::WrittenPastTheEnd, 0) if bytes.len() < out.len() => out[bytes.len()] = 0,
            (Wrong::WrittenOnRefusal, 1..) if !out.is_empty() => out[0] = 0,
            (Wrong::NeededLength, OUTPUT_TOO_SHORT) => answer.words[NEEDED] += 1,
            _ => {}
        }
        self.answer(answer, words)
    }

    pub fn answer(self, mut answer: Answer, words: &mut [u64]) -> u32 {
        match self {
            Wrong::Number => answer.number += 1,
            Wrong::Word(place) => answer.words[place] ^= 1,
            Wrong::NinthWord if words.len() > WORDS => words[WORDS] = 0,
            _ => {}
        }
        let told = words.len().min(WORDS);
        if told == WORDS || self == Wrong::ShortAnswerBegun {
            words[..told].copy_from_slice(&answer.words[..told]);
        }
        answer.number
    }
}

/// A port that takes nothing. Its gather refuses the first text, and so do its gathers of revisions and labs and its windows, with this place.
pub struct Refuses(pub usize);

fn refuse(text: usize, lent: Lent) -> u32 {
    let refusal = Refusal {
        text,
        ..Refusal::numbered(1)
    };
    Wrong::Nothing.print(Err(refused(refusal)), lent.out, lent.answer)
}

impl Gatherer for Refuses {
    fn read_text(&self, _: &[u8], lent: Lent) -> u32 {
        refuse(0, lent)
    }

    fn gather(&self, _: &[u8], _: &mut [u8], _: &mut [u64]) -> u32 {
        unreachable!("all scratch is lent here")
    }

    fn gather_with(&self, _: &[u8], lent: Lent) -> u32 {
        refuse(0, lent)
    }

    fn gather_lossy(&self, _: &[u8], lent: Lent) -> u32 {
        refuse(0, lent)
    }

    fn totals(&self, _: &[u8], lent: Lent) -> u32 {
        refuse(0, lent)
    }

    fn gather_revisions(&self, _: &[u8], lent: Lent) -> u32 {
        refuse(self.0, lent)
    }

    fn windows(&self, _: &[u8], _: u32, lent: Lent) -> u32 {
        refuse(self.0, lent)
    }

    fn gather_quotas(&self, _: Quotas, lent: Lent) -> u32 {
        refuse(self.0, lent)
    }

    fn filter_text(&self, _: Filter, lent: Lent) -> u32 {
        refuse(0, lent)
    }
}
