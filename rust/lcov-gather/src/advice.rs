//! What a user can do about a refusal.

use crate::form::{is_digits, Field, Form, FORMS, NEWER_FORMS};
use crate::forms::{is_negative, EXCEPTION};
use crate::items::Taking;
use crate::joined::Conflict;
use crate::shown::shown;
use crate::tags::Tags;
use lcov_sys::{Fault, Refusal};

pub const CUT: &str = "the file is cut; get it again";

pub const UNENDED: &str = "an end_of_record is missing before this line";

const ENDS_BEFORE: &str =
    "a function ends on its start line or on a later one; capture the file again, or correct the line";

pub const DAMAGED: &str = "a count is damaged; leave the file out, as --keep-going does";

pub const LARGE_SECTION: &str = "capture that source file without branches, or in parts";

pub const LARGE_FILE: &str =
    "with --as-written the sections of a file in which one comes again share the limit, and with --as-geninfo each has its own";

/// For a line that is refused by itself, given with the default tags; `part` is what is refused of it.
pub fn for_line(
    refusal: &Refusal,
    line: &[u8],
    part: &[u8],
    taking: Taking,
    tags: Option<&Tags>,
) -> String {
    if refusal.number == 23 {
        return ENDS_BEFORE.to_owned();
    }
    let Some(form) = Form::of(line) else {
        return for_tag(line, refusal.line, taking, tags);
    };
    let words = || form_words(form, tags);
    let place = refusal.field.saturating_sub(1) as usize;
    let field = form.fields_of(line).nth(place);
    match (refusal.number, field) {
        (5, Some(Field::Count(_))) if is_negative(part) && taking == Taking::AsWritten => {
            "a count below 0 comes from threads that count at the same time; build the program with \
             -fprofile-update=atomic, or read the count as 0 by --as-geninfo"
                .to_owned()
        }
        (5, Some(Field::Small("BLOCK"))) if part.starts_with(b"e") => for_exception(taking),
        (6, Some(field)) => field.greatest_in_words().unwrap_or_else(words),
        (19, _) => format!("{}; a number has digits alone", words()),
        _ => words(),
    }
}

fn form_words(form: Form, tags: Option<&Tags>) -> String {
    format!("the line has the form {}", in_own_tags(&form.words(), tags))
}

/// A line, or a tag alone, as the user writes it.
fn in_own_tags(line: &str, tags: Option<&Tags>) -> String {
    tags.map_or(line.to_owned(), |tags| shown(&tags.write(line.as_bytes())))
}

fn for_exception(taking: Taking) -> String {
    match taking {
        Taking::AsWritten => {
            "lcov 2 marks the branches of exceptions by an e; --as-geninfo reads them".to_owned()
        }
        Taking::AsGeninfo => format!("the block of an exception is e0 to e{}", EXCEPTION - 1),
    }
}

fn for_tag(line: &[u8], number: u64, taking: Taking, own: Option<&Tags>) -> String {
    match (Form::newer(line), taking) {
        (Some(form), Taking::AsGeninfo) => for_newer(form, line),
        (Some(_), Taking::AsWritten) => {
            "lcov 2.3 writes FNL and FNA in place of FN and FNDA; --as-geninfo reads them"
                .to_owned()
        }
        _ if line.is_empty() => "an empty line is no record; remove it".to_owned(),
        _ => {
            let newer = match taking {
                Taking::AsWritten => &[][..],
                Taking::AsGeninfo => &NEWER_FORMS,
            };
            let forms = FORMS.iter().chain(newer);
            let tags: Vec<String> = forms.map(|form| in_own_tags(form.tag, own)).collect();
            let doubt = if number == 1 {
                "is it a tracefile? "
            } else {
                ""
            };
            format!("{doubt}the tags are {}", tags.join(", "))
        }
    }
}

/// A number that does not fit has digits alone.
fn for_newer(form: Form, line: &[u8]) -> String {
    let (part, field) = form.fault_in(line);
    let field = field.filter(|_| is_digits(&line[part]));
    field
        .and_then(Field::greatest_in_words)
        .unwrap_or_else(|| form_words(form, None))
}

pub fn for_conflict(conflict: &Conflict) -> &'static str {
    match conflict.fault() {
        Fault::UnmatchedFunctionLine => {
            "the files are of different sources or compilers; --lossy keeps the later start line"
        }
        Fault::UnmatchedChecksum => {
            "the files are of different sources; --lossy keeps the later checksum"
        }
        _ => DAMAGED,
    }
}
