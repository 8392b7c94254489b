//! What a question is answered with where there is no value.

use crate::record::ParseRecordError;
use crate::report::MergeError;
use std::any::Any;
use std::fmt;
use std::num::IntErrorKind;
use std::panic::{self, AssertUnwindSafe};

/// SPEC 9.2's number, and the place where the fault was met: a text's index from 0, line and field from 1. What does not apply is 0.
#[derive(Debug, Clone, Copy, PartialEq, Eq)]
pub struct Refusal {
    pub number: u32,
    pub text: usize,
    pub line: usize,
    pub field: u32,
}

impl Refusal {
    /// With no place.
    pub fn numbered(number: u32) -> Self {
        Refusal {
            number,
            text: 0,
            line: 0,
            field: 0,
        }
    }
}

impl fmt::Display for Refusal {
    fn fmt(&self, f: &mut fmt::Formatter) -> fmt::Result {
        let Refusal {
            number,
            text,
            line,
            field,
        } = self;
        write!(f, "refused {number} {text} {line} {field}")
    }
}

#[derive(Debug, Clone, Copy, PartialEq, Eq)]
pub enum Fault {
    Refused(Refusal),
    /// The domain of comparison does not reach there.
    Outside,
}

impl Fault {
    pub(crate) fn numbered(number: u32) -> Self {
        Fault::Refused(Refusal::numbered(number))
    }

    pub(crate) fn in_text(self, text: usize) -> Self {
        self.placed(|refusal| refusal.text = text)
    }

    pub(crate) fn on_line(self, line: usize) -> Self {
        self.placed(|refusal| refusal.line = line)
    }

    fn in_field(self, field: u32) -> Self {
        self.placed(|refusal| refusal.field = field)
    }

    /// Only a refusal has a place.
    fn placed(mut self, place: impl FnOnce(&mut Refusal)) -> Self {
        if let Fault::Refused(refusal) = &mut self {
            place(refusal);
        }
        self
    }

    /// Numbers 1 to 6: why a line is no record.
    pub(crate) fn of_line(line: &str, error: &ParseRecordError) -> Self {
        match error {
            ParseRecordError::UnknownRecord => Fault::numbered(1),
            ParseRecordError::FieldNotFound(name) => {
                Fault::numbered(2).in_field(field_number(line, name))
            }
            ParseRecordError::TooManyFields => Fault::numbered(3),
            ParseRecordError::ParseIntError(name, error) => {
                Fault::numbered(number_fault(error.kind())).in_field(field_number(line, name))
            }
        }
    }

    /// Numbers 11 and 12: why two reports can't be joined.
    pub(crate) fn of_merge(error: MergeError) -> Self {
        match error {
            MergeError::UnmatchedFunctionLine => Fault::numbered(11),
            MergeError::UnmatchedChecksum => Fault::numbered(12),
        }
    }
}

fn number_fault(kind: &IntErrorKind) -> u32 {
    match kind {
        IntErrorKind::Empty => 4,
        IntErrorKind::InvalidDigit => 5,
        IntErrorKind::PosOverflow => 6,
        kind => unreachable!("no fault of an unsigned number: {kind:?}"),
    }
}

/// The Rust names a field; SPEC 2.4 counts it. Only `count` stands in two places: `FNDA:count,name` and `DA:line,count`.
fn field_number(line: &str, name: &str) -> u32 {
    match name {
        "start_line" | "line" | "found" | "hit" => 1,
        "count" if line.starts_with("DA") => 2,
        "count" => 1,
        "name" | "block" => 2,
        "branch" => 3,
        "taken" => 4,
        name => unreachable!("no field that can be refused: {name}"),
    }
}

pub(crate) fn utf8(bytes: &[u8]) -> Result<&str, Fault> {
    std::str::from_utf8(bytes).map_err(|_| Fault::Outside)
}

/// What the Rust answers, unless a sum of it passes its type. Any other panic is a defect and goes on.
pub(crate) fn unless_overflow<T>(ask: impl FnOnce() -> Result<T, Fault>) -> Result<T, Fault> {
    panic::catch_unwind(AssertUnwindSafe(ask)).unwrap_or_else(|payload| {
        if is_overflow(&*payload) {
            Err(Fault::Outside)
        } else {
            panic::resume_unwind(payload)
        }
    })
}

fn is_overflow(payload: &(dyn Any + Send)) -> bool {
    payload.downcast_ref::<&str>() == Some(&"attempt to add with overflow")
}

/// Keeps the sums that are answered by [`Fault::Outside`] from being told on standard error as well.
pub fn hush_overflow() {
    let tell = panic::take_hook();
    panic::set_hook(Box::new(move |info| {
        if !is_overflow(info.payload()) {
            tell(info)
        }
    }));
}
