//! What `--windows` prints: for each tracefile the lines that are hit and found in its window, which is that tracefile and some before it
//! (SPEC 7.6).

use crate::chart;
use crate::counts::Count;
use crate::form::is_digits;
use crate::wrong::from_one_to;
use lcov_sys::{Fault, MAX_WIDTH};
use std::ops::Range;

const SVG: &str = "svg";
const FORMS: &str = "it is a width W, svg:W, or svg for the width 1";

#[derive(Debug, Clone, Copy, PartialEq, Eq)]
pub struct Windows {
    /// The most tracefiles of a window.
    pub width: usize,
    pub form: Form,
}

#[derive(Debug, Clone, Copy, PartialEq, Eq)]
pub enum Form {
    Lines,
    Svg,
}

/// A tracefile as it is named, and the lines of its window.
#[derive(Debug, Clone, Copy, PartialEq, Eq)]
pub struct Build<'a> {
    pub name: &'a [u8],
    pub lines: Count,
}

impl Windows {
    /// A drawing without a width has each build by itself: no two of them can be in conflict.
    pub fn parse(value: &str) -> Result<Self, String> {
        let (form, width) = match value.split_once(':') {
            None if value == SVG => (Form::Svg, "1"),
            Some((SVG, width)) => (Form::Svg, width),
            _ => (Form::Lines, value),
        };
        if !is_digits(width.as_bytes()) {
            return Err(FORMS.to_owned());
        }
        let width = from_one_to(MAX_WIDTH as usize, width.as_bytes(), Fault::WidthOutside)?;
        Ok(Windows { width, form })
    }

    /// Which of so many tracefiles are in the window of each.
    pub fn of(self, files: usize) -> impl Iterator<Item = Range<usize>> {
        (1..=files).map(move |end| end.saturating_sub(self.width)..end)
    }

    pub fn printed(self, builds: &[Build]) -> Vec<u8> {
        match self.form {
            Form::Lines => lines(builds),
            Form::Svg => chart::draw(builds, self.width).into_bytes(),
        }
    }
}

/// A name may have any byte, so it stands last.
fn lines(builds: &[Build]) -> Vec<u8> {
    let mut text = Vec::new();
    for build in builds {
        text.extend(format!("{} ", build.lines).into_bytes());
        text.extend(build.name);
        text.push(b'\n');
    }
    text
}

#[cfg(test)]
mod tests {
    use super::*;

    #[test]
    fn a_width_with_or_without_a_drawing() {
        let windows = |width, form| Ok(Windows { width, form });
        assert_eq!(Windows::parse("1"), windows(1, Form::Lines));
        assert_eq!(Windows::parse("016"), windows(16, Form::Lines));
        assert_eq!(Windows::parse("svg"), windows(1, Form::Svg));
        assert_eq!(Windows::parse("svg:16"), windows(16, Form::Svg));
        for outside in ["0", "17", "svg:0", "svg:17", "4294967297"] {
            let told = "the window width is 0 or above 16 (refusal 24)";
            assert_eq!(Windows::parse(outside).unwrap_err(), told, "{outside}");
        }
        for wrong in [
            "", "x", "-1", "+1", "1.5", "svg:", "svg:x", "svg:+1", "svg3", "png:3", "3:svg",
        ] {
            assert_eq!(Windows::parse(wrong).unwrap_err(), FORMS, "{wrong}");
        }
    }

    #[test]
    fn the_first_windows_have_fewer_files() {
        let of = |width, files| {
            let form = Form::Lines;
            Windows { width, form }.of(files).collect::<Vec<_>>()
        };
        assert_eq!(of(1, 3), [0..1, 1..2, 2..3]);
        assert_eq!(of(2, 4), [0..1, 0..2, 1..3, 2..4]);
        assert_eq!(of(16, 2), [0..1, 0..2]);
        assert_eq!(of(5, 0), []);
    }
}
