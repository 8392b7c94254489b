//! Sound lines of every tag, and each of them with every part changed.

use super::values::{around_turns, sound, FAULTS, NUMBERS, TEXTS};
use super::{line_of, Form, Layout, Visit, LAYOUTS};

pub fn all(visit: Visit) {
    let numbers = around_turns();
    for layout in &LAYOUTS {
        fields_changed(layout, &numbers, visit);
        fields_missing(layout, visit);
        fields_added(layout, visit);
        ends(layout, visit);
        bytes_changed(&sound_line(layout), visit);
        faults_combined(layout, visit);
    }
    end_lines(&numbers, visit);
}

/// FN with each number, and each text, in the place of an end line, and with end lines around start lines that are near the ends of their
/// type.
fn end_lines(numbers: &[String], visit: Visit) {
    for end in values_of(Form::U32, numbers) {
        for name in ["f", "", "7,f"] {
            visit(&line_of("FN", &["3", end, name]));
        }
    }
    for start in [0, 1, 9, 10, 1 << 31, u32::MAX - 1, u32::MAX] {
        for end in start.saturating_sub(2)..=start.saturating_add(2) {
            let (start, end) = (start.to_string(), end.to_string());
            visit(&line_of("FN", &[&start, &end, "f"]));
            visit(&line_of("FN", &[&start, &format!("{:030}{end}", 0), "f"]));
        }
    }
    bytes_changed(b"FN:3,12,f", visit);
}

fn sound_fields(layout: &Layout) -> Vec<&'static str> {
    layout.fields.iter().map(|&form| sound(form)).collect()
}

fn sound_line(layout: &Layout) -> Vec<u8> {
    line_of(layout.tag, &sound_fields(layout))
}

fn fields_changed(layout: &Layout, numbers: &[String], visit: Visit) {
    for (place, &form) in layout.fields.iter().enumerate() {
        let mut with = |value: &str| {
            let mut fields = sound_fields(layout);
            fields[place] = value;
            visit(&line_of(layout.tag, &fields));
        };
        values_of(form, numbers).for_each(&mut with);
    }
}

/// A text can't be refused, so it takes any value; a number is tried with all of its own and with texts.
fn values_of(form: Form, numbers: &[String]) -> impl Iterator<Item = &str> {
    let turns = if form.is_text() { &[] } else { numbers };
    let written = NUMBERS.into_iter().chain(TEXTS);
    written.chain(turns.iter().map(String::as_str))
}

/// Lines that end after each field, with and without what parts it from the next.
fn fields_missing(layout: &Layout, visit: Visit) {
    let fields = sound_fields(layout);
    for kept in 0..=fields.len() {
        let line = line_of(layout.tag, &fields[..kept]);
        visit(&line);
        for part in [":", ",", "-", "+", ":,", ",,", " "] {
            visit(&[&line, part.as_bytes()].concat());
        }
    }
}

fn fields_added(layout: &Layout, visit: Visit) {
    for many in 1..=3 {
        for added in ["", "9", "-", "x", " ", "é"] {
            let mut fields = sound_fields(layout);
            fields.extend(std::iter::repeat_n(added, many));
            visit(&line_of(layout.tag, &fields));
        }
    }
}

/// Every end of up to four bytes 10 and 13, after the line, after its tag and before all.
fn ends(layout: &Layout, visit: Visit) {
    let line = sound_line(layout);
    let parted = format!("{}:", layout.tag);
    for len in 0..=4 {
        for bits in 0..1 << len {
            let end: Vec<u8> = (0..len)
                .map(|place| if bits >> place & 1 == 0 { b'\n' } else { b'\r' })
                .collect();
            visit(&[&line, &end[..]].concat());
            visit(&[layout.tag.as_bytes(), &end].concat());
            visit(&[parted.as_bytes(), &end].concat());
            visit(&[&end, &line[..]].concat());
        }
    }
}

/// Each byte left out, replaced by every ASCII byte, and every one put before it.
fn bytes_changed(line: &[u8], visit: Visit) {
    for place in 0..line.len() {
        let (before, from) = line.split_at(place);
        visit(&[before, &from[1..]].concat());
        for byte in 0..128 {
            visit(&[before, &[byte], &from[1..]].concat());
            visit(&[before, &[byte], from].concat());
        }
    }
}

/// Every combination of faults over the fields, and over one field more.
fn faults_combined(layout: &Layout, visit: Visit) {
    for many in 1..=layout.fields.len() + 1 {
        combine(layout.tag, many, &mut Vec::new(), visit);
    }
}

fn combine(tag: &str, left: usize, fields: &mut Vec<&'static str>, visit: Visit) {
    if left == 0 {
        return visit(&line_of(tag, fields));
    }
    for fault in FAULTS {
        fields.push(fault);
        combine(tag, left - 1, fields, visit);
        fields.pop();
    }
}

#[cfg(test)]
mod tests {
    use super::*;
    use crate::ends::{END_BEFORE_START, END_FIELD, NUMBER_TOO_LARGE};
    use crate::expected::Expected;
    use crate::interface::FIELD;
    use crate::plus::SIGNED_NUMBER;
    use std::collections::HashSet;

    #[test]
    fn sound_lines_are_read() {
        for layout in &LAYOUTS {
            assert_eq!(Expected::of(&sound_line(layout)).read.number, 0);
        }
    }

    /// Each number field refused for each of its faults, and each field after the first missed.
    #[test]
    fn every_field_is_refused_for_every_fault() {
        let mut wanted = HashSet::new();
        for layout in &LAYOUTS {
            for (field, &form) in (1..).zip(layout.fields) {
                let missing = (field > 1 && form != Form::Checksum).then_some(2);
                let number = (!form.is_text()).then_some([4, 5, 6, SIGNED_NUMBER]);
                for fault in missing.into_iter().chain(number.into_iter().flatten()) {
                    wanted.insert((layout.tag.as_bytes().to_vec(), fault, field));
                }
            }
        }
        wanted.insert((b"FN".to_vec(), NUMBER_TOO_LARGE, END_FIELD.into()));
        wanted.insert((b"FN".to_vec(), END_BEFORE_START, 0));
        all(&mut |line| {
            let read = Expected::of(line).read;
            let tag = line.split(|&byte| byte == b':').next().unwrap();
            wanted.remove(&(tag.to_vec(), read.number, read.words[FIELD]));
        });
        assert!(wanted.is_empty(), "{wanted:?}");
    }
}
