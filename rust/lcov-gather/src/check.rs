//! All files looked at before they are gathered: which of them are refused, and why.
//!
//! A file is refused by itself, as the gather of it alone tells, or it is in conflict with those before it that are not refused. So each
//! file is looked at once, however many are refused.

use crate::advice;
use crate::audit::Sums;
use crate::explain::{explained, help, Rules};
use crate::failure::Failure;
use crate::faults::line_faults;
use crate::gathering::{gather, Reading};
use crate::joined::{Conflict, Joined};
use crate::meaning::Meaning;
use crate::reporter::Reporter;
use crate::scan::replacements;
use crate::source::Sources;
use crate::words::conflict_words;
use lcov_sys::Refusal;

/// How much is told of a file.
#[derive(Debug, Clone, Copy, PartialEq, Eq)]
pub enum Detail {
    /// The first places.
    Some,
    /// Every replacement and every conflict.
    All,
}

/// The files of a run, how they are read, and what is told of them.
#[derive(Clone, Copy)]
pub struct Check<'a> {
    pub sources: Sources<'a>,
    pub reading: Reading,
    pub detail: Detail,
}

impl<'a> Check<'a> {
    /// Whether and why each file is refused, in order.
    pub fn results(self) -> impl Iterator<Item = Result<(), Failure>> + 'a {
        let mut joined = self.rules().joined();
        (0..self.sources.files.len()).map(move |place| {
            self.take_alone(place)?;
            self.take_with(&mut joined, place)
        })
    }

    fn rules(&self) -> Rules {
        Rules::of(self.reading)
    }

    fn take_alone(&self, place: usize) -> Result<(), Failure> {
        let alone = Sources {
            files: &self.sources.files[place..=place],
            ..self.sources
        };
        let reading = Reading {
            threads: 1,
            ..self.reading
        };
        let gathered = gather(alone, reading, Sums::default(), &Reporter::new(true, 1));
        let replaced = match gathered {
            Ok(gathered) if gathered.replaced.is_empty() => return Ok(()),
            Ok(gathered) => gathered.replaced,
            Err(Failure::Replaced(replaced)) => replaced,
            Err(failure) => {
                let first = explained(failure, alone, self.reading);
                return Err(self.with_others(place, first)?);
            }
        };
        match self.detail {
            Detail::Some => Err(Failure::Replaced(replaced)),
            Detail::All => Err(self.replacements(place)?),
        }
    }

    /// A failure of a file, and the refusals and replacements that come after it.
    fn with_others(&self, place: usize, first: Failure) -> Result<Failure, Failure> {
        if self.detail != Detail::All {
            return Ok(first);
        }
        let own = self.sources.own_text(place)?;
        let text = self.sources.rewriting.rewrite(own.clone());
        let Some(line) = first.line() else {
            return Ok(self.own_conflicts(place, &text).unwrap_or(first));
        };
        let mut all = vec![first];
        let taking = self.rules().taking;
        let faults = line_faults(&text, &own, taking).into_iter();
        let later = faults.filter(|fault| fault.line > line);
        all.extend(later.map(|fault| fault.failure(self.sources, place, taking)));
        if self.reading.meaning == Meaning::Guarded {
            let name = self.sources.files[place].name();
            let replaced = replacements(&text, &name, self.sources.guard());
            all.extend((!replaced.is_empty()).then_some(Failure::Replaced(replaced)));
        }
        Ok(Failure::Several(all))
    }

    /// A file may be in conflict with itself where what comes again adds.
    fn own_conflicts(&self, place: usize, text: &[u8]) -> Option<Failure> {
        let own = self
            .rules()
            .joined()
            .take(place, &self.rules().sections(text));
        own.err().map(|conflicts| self.conflict(place, &conflicts))
    }

    fn replacements(&self, place: usize) -> Result<Failure, Failure> {
        let text = self.sources.text(place)?;
        let guard = self.sources.guard();
        let all = replacements(&text, &self.sources.files[place].name(), guard);
        Ok(Failure::Replaced(all))
    }

    fn take_with(&self, joined: &mut Joined, place: usize) -> Result<(), Failure> {
        let text = self.sources.text(place)?;
        let taken = joined.take(place, &self.rules().sections(&text));
        taken.map_err(|conflicts| self.conflict(place, &conflicts))
    }

    /// As the library would refuse the file, and then the conflicts.
    fn conflict(&self, place: usize, conflicts: &[Conflict]) -> Failure {
        let source = &self.sources.files[place];
        let first = &conflicts[0];
        let shown = match self.detail {
            Detail::Some => &conflicts[..1],
            Detail::All => conflicts,
        };
        let mut lines: String = shown
            .iter()
            .map(|conflict| conflict_words(conflict, self.sources))
            .collect();
        if shown.len() < conflicts.len() {
            lines += &format!("\n  and {} more", conflicts.len() - shown.len());
        }
        lines += &help(advice::for_conflict(first));
        let refusal = Refusal {
            number: first.fault().number(),
            text: place,
            line: 0,
            field: 0,
            needed: 0,
        };
        let refused = Failure::Refused(source.path().to_owned(), refusal);
        Failure::Explained(Box::new(refused), lines)
    }
}
