//! What a user is told of a refusal beside its first line: what is wrong where, and what to do.
//!
//! The library's refusal has a number and a place. The rest is found here by looking at the files again.

use crate::advice;
use crate::entries::Entries;
use crate::excerpt::excerpt;
use crate::failure::Failure;
use crate::form::{excess_of, field_of, tag_of, Form};
use crate::forms;
use crate::gathering::{Mode, Reading};
use crate::items::{sections, Section, Taking};
use crate::joined::Joined;
use crate::meaning::Meaning;
use crate::open::OpenSection;
use crate::record::without_end;
use crate::shown::shown;
use crate::source::Sources;
use crate::tags::Tags;
use crate::words::{conflict_words, section_words};
use lcov_sys::{Refusal, MAX_ENTRIES};
use std::borrow::Cow;
use std::ops::Range;

/// How the files were gathered.
#[derive(Debug, Clone, Copy, PartialEq, Eq)]
pub struct Rules {
    pub mode: Mode,
    pub taking: Taking,
}

impl Rules {
    pub fn of(reading: Reading) -> Self {
        let taking = match reading.meaning {
            Meaning::Geninfo => Taking::AsGeninfo,
            Meaning::Guarded | Meaning::AsWritten => Taking::AsWritten,
        };
        Rules {
            mode: reading.mode,
            taking,
        }
    }

    /// The sections of a file. Lines of other producers are taken as the records that they are read as.
    pub fn sections(&self, text: &[u8]) -> Vec<Section> {
        match self.taking {
            Taking::AsWritten => sections(text, self.taking),
            Taking::AsGeninfo => sections(&forms::in_place(text), self.taking),
        }
    }

    pub fn joined(&self) -> Joined {
        Joined::new(self.mode == Mode::Lossy)
    }
}

/// A refusal with what is found out about it; every other failure as it is.
pub fn explained(failure: Failure, sources: Sources, reading: Reading) -> Failure {
    let Failure::Refused(_, refusal) = &failure else {
        return failure;
    };
    let lines = explain(refusal, sources, Rules::of(reading));
    Failure::Explained(Box::new(failure), lines)
}

/// Lines that follow the refusal's own, each with a byte 10 before it; `refusal.text` is the file's place among the sources. Empty where
/// a file can't be read again, or is no longer what it was.
pub fn explain(refusal: &Refusal, sources: Sources, rules: Rules) -> String {
    let Ok(own) = sources.own_text(refusal.text) else {
        return String::new();
    };
    let case = Case {
        refusal: *refusal,
        text: &sources.rewriting.rewrite(own.clone()),
        own: &own,
        sources,
        rules,
    };
    let explained = match refusal.number {
        1..=6 | 19 | 23 => case.of_line(),
        7 | 25 => case.of_unended(),
        8 => Some(case.of_end()),
        9 => case.of_calls(),
        10 => case.of_entries(),
        11..=13 => case.of_conflict(),
        _ => None,
    };
    explained.unwrap_or_default()
}

pub fn help(advice: &str) -> String {
    format!("\n  help: {advice}")
}

/// A refusal with the text of its file.
struct Case<'a> {
    refusal: Refusal,
    text: &'a [u8],
    /// The file as it is.
    own: &'a [u8],
    sources: Sources<'a>,
    rules: Rules,
}

impl Case<'_> {
    fn line(&self) -> Option<&[u8]> {
        let place = usize::try_from(self.refusal.line.checked_sub(1)?).ok()?;
        let line = self.own.split(|&byte| byte == b'\n').nth(place)?;
        Some(without_end(line))
    }

    fn of_line(&self) -> Option<String> {
        let line = self.line()?;
        Some(line_words(
            &self.refusal,
            line,
            self.rules.taking,
            self.sources.rewriting.tags(),
        ))
    }

    fn open(&self) -> OpenSection<'_> {
        OpenSection::at(self.text, self.refusal.line, self.rules.taking)
    }

    fn open_words(&self) -> String {
        open_words(&self.open(), self.sources)
    }

    fn of_unended(&self) -> Option<String> {
        let line = self.line()?;
        Some(unended_words(self.refusal.line, line, &self.open_words()))
    }

    fn of_end(&self) -> String {
        ended_words(&self.open_words())
    }

    fn of_calls(&self) -> Option<String> {
        let (number, line) = (self.refusal.line, self.line()?);
        let read = in_default_tags(line, self.sources.rewriting.tags());
        let name = read.splitn(2, |&byte| byte == b',').nth(1)?;
        let calls = self.open().calls_before(self.text, number, name);
        let (name, open) = (shown(name), self.open_words());
        let what = format!("\n  function {name} in {open} has {calls} calls before this line");
        Some(excerpt(number, line, field_of(line, 1)) + &what + &help(advice::DAMAGED))
    }

    fn of_entries(&self) -> Option<String> {
        let mut entries = Entries::default();
        for place in 0..self.sources.files.len() {
            entries.add(self.sections_of(place)?);
        }
        let ((test, path), need) = entries.largest()?;
        if need > MAX_ENTRIES {
            let section = section_words(test, path, self.sources);
            return Some(need_words(&section, need) + &help(advice::LARGE_SECTION));
        }
        let mut alone = Entries::default();
        alone.add(self.rules.sections(self.text));
        Some(need_words("the file", alone.total()) + &help(advice::LARGE_FILE))
    }

    /// The conflict that the library met: the first of the file with the refusal's number.
    fn of_conflict(&self) -> Option<String> {
        let mut joined = self.rules.joined();
        let refused = self.refusal.text;
        for place in 0..refused {
            // None is in conflict: otherwise that file would be the refused one.
            joined.take(place, &self.sections_of(place)?).ok()?;
        }
        let taken = joined.take(refused, &self.sections_of(refused)?);
        let conflicts = taken.err()?;
        let met = conflicts
            .iter()
            .find(|conflict| conflict.fault().number() == self.refusal.number)?;
        Some(conflict_words(met, self.sources) + &help(advice::for_conflict(met)))
    }

    fn sections_of(&self, place: usize) -> Option<Vec<Section>> {
        let text = self.sources.text(place).ok()?;
        Some(self.rules.sections(&text))
    }
}

/// Of a line that is refused by itself, as the file has it.
pub fn line_words(refusal: &Refusal, line: &[u8], taking: Taking, tags: Option<&Tags>) -> String {
    let read = in_default_tags(line, tags);
    let part = refused_part(refusal, &read, taking);
    let advice = advice::for_line(refusal, &read, &read[part.clone()], taking, tags);
    // What begins the line is its tag; all else stands as far from the line's end in both.
    let part = match part.start {
        0 => tag_of(line),
        start => start + line.len() - read.len()..part.end + line.len() - read.len(),
    };
    excerpt(refusal.line, line, part) + &help(&advice)
}

fn in_default_tags<'a>(line: &'a [u8], tags: Option<&Tags>) -> Cow<'a, [u8]> {
    tags.map_or(line.into(), |tags| tags.read(line).into())
}

fn refused_part(refusal: &Refusal, line: &[u8], taking: Taking) -> Range<usize> {
    let newer = Form::newer(line).filter(|_| taking == Taking::AsGeninfo);
    match refusal.number {
        1 => newer.map_or(tag_of(line), |form| form.fault_in(line).0),
        3 => excess_of(line),
        // FNL of lcov 2.3 has an index before the start line.
        23 if line.starts_with(b"FNL:") => field_of(line, 3),
        23 => field_of(line, 2),
        _ => field_of(line, refusal.field),
    }
}

pub fn open_words(open: &OpenSection, sources: Sources) -> String {
    let section = section_words(open.test, open.path, sources);
    format!("{section}, which began on line {},", open.start)
}

/// TN, or a second SF, inside a section.
pub fn unended_words(number: u64, line: &[u8], open: &str) -> String {
    let open = format!("\n  {open} is still open");
    excerpt(number, line, tag_of(line)) + &open + &help(advice::UNENDED)
}

/// A file that ends inside a section.
pub fn ended_words(open: &str) -> String {
    format!("\n  {open} is still open{}", help(advice::CUT))
}

fn need_words(what: &str, need: usize) -> String {
    // The library holds both until the later one ends.
    let more = match need > MAX_ENTRIES {
        true => "",
        false => ", and more while a section that comes again is read",
    };
    let kinds = "sections, functions, branches and lines";
    format!("\n  {what} needs {need} entries ({kinds}){more}; the limit is {MAX_ENTRIES}")
}
