//! Lines that other producers write, read as records that the library knows (`--as-geninfo` alone).
//!
//! A count below 0 is read as 0, and in BRDA as `-`: so lcov reads them. A block `e5` in BRDA, which lcov 2.x writes of a branch that an exception takes, is read
//! as block 5 + 2^31. FNL and FNA of lcov 2.3 are read as FN, with the end line if FNL gives one, and FNDA. All other lines stay as they are, for the library to take or refuse.

use crate::form::is_digits;
use crate::record::{self, begins_with_end, without_end, Record};
use crate::shown::shown;
use std::borrow::Cow;
use std::collections::HashMap;
use std::ops::AddAssign;

/// The blocks of exceptions begin here.
pub const EXCEPTION: u32 = 1 << 31;

/// How many lines of a file have each form.
#[derive(Debug, Clone, Copy, Default, PartialEq, Eq)]
pub struct Forms {
    pub negative: u64,
    pub exceptions: u64,
    pub functions: u64,
}

impl AddAssign for Forms {
    fn add_assign(&mut self, other: Forms) {
        self.negative += other.negative;
        self.exceptions += other.exceptions;
        self.functions += other.functions;
    }
}

impl Forms {
    /// What is told of a file, form by form.
    pub fn notes(&self) -> Vec<String> {
        let told = [
            (
                self.negative,
                "with a count below 0, read as 0, or in BRDA as '-'".to_owned(),
            ),
            (
                self.exceptions,
                format!("with a block e0, e1, .., read as block {EXCEPTION} and so on"),
            ),
            (self.functions, "FNL or FNA, read as FN and FNDA".to_owned()),
        ];
        let met = told.into_iter().filter(|(lines, _)| *lines > 0);
        met.map(|(lines, what)| format!("lines {what}: {lines}"))
            .collect()
    }
}

/// A line in the library's words.
#[derive(Debug, Default, PartialEq, Eq)]
pub struct Words<'a> {
    /// No line, one or two.
    pub text: Cow<'a, [u8]>,
    pub forms: Forms,
    /// Why this command refuses it.
    pub fault: Option<String>,
}

/// A line with a count below 0 or the block of an exception. What else is wrong in it, the library refuses. FNL and FNA are for [`Reader`].
pub fn translate(line: &[u8]) -> Option<Words<'static>> {
    let colon = memchr::memchr(b':', line)?;
    let (tag, body) = (&line[..colon], without_end(&line[colon + 1..]));
    // How many fields there are where the last is a text, which may have commas, and which one counts.
    let (fields, count) = match tag {
        b"DA" => (3, 1),
        b"FNDA" => (2, 0),
        b"BRDA" => (usize::MAX, 3),
        _ => return None,
    };
    let mut fields: Vec<Vec<u8>> = body
        .splitn(fields, |&byte| byte == b',')
        .map(<[u8]>::to_vec)
        .collect();
    let is_branch = tag == b"BRDA";
    let mut forms = Forms::default();
    if let Some(field) = fields.get_mut(count).filter(|field| is_negative(field)) {
        *field = if is_branch { b"-" } else { b"0" }.to_vec();
        forms.negative = 1;
    }
    let block = fields.get(1).and_then(|field| exception(field));
    if let Some(block) = block.filter(|_| is_branch) {
        fields[1] = block.to_string().into_bytes();
        forms.exceptions = 1;
    }
    let line = [tag, b":", &fields.join(&b','), b"\n"].concat();
    (forms != Forms::default()).then_some(Words {
        text: line.into(),
        forms,
        fault: None,
    })
}

/// '-' and one or more digits.
pub fn is_negative(field: &[u8]) -> bool {
    matches!(field, [b'-', digits @ ..] if is_digits(digits))
}

/// `e` and a block that has room above it.
fn exception(field: &[u8]) -> Option<u32> {
    let block: u32 = number(field.strip_prefix(b"e")?)?;
    block.checked_add(EXCEPTION).filter(|_| block < EXCEPTION)
}

/// Where a function starts and, where FNL says so, ends.
#[derive(Debug, Clone, Copy, PartialEq, Eq)]
struct Extent {
    start: u32,
    end: Option<u32>,
}

impl Extent {
    fn is_backwards(&self) -> bool {
        self.end.is_some_and(|end| end < self.start)
    }

    /// What FN has before the name.
    fn numbers(&self) -> String {
        match self.end {
            Some(end) => format!("FN:{},{end},", self.start),
            None => format!("FN:{},", self.start),
        }
    }
}

/// Reads those lines of a section that are no records as they stand.
#[derive(Default)]
pub struct Reader {
    /// The lines of functions by the indices of FNL, which several names may share; none where the FNL is refused.
    extents: HashMap<u32, Option<Extent>>,
}

impl Reader {
    /// A line that has none of the forms stays, for the library to refuse.
    pub fn read<'a>(&mut self, line: &'a [u8]) -> Words<'a> {
        let words = translate(line).or_else(|| self.read_function(without_end(line)));
        words.unwrap_or_else(|| Words {
            text: line.into(),
            ..Words::default()
        })
    }

    /// None for a line that is neither FNL nor FNA, or not well formed.
    fn read_function(&mut self, line: &[u8]) -> Option<Words<'static>> {
        match line.strip_prefix(b"FNL:") {
            Some(body) => self.read_lines(body),
            None => self.read_name(line.strip_prefix(b"FNA:")?),
        }
    }

    /// The body of FNL: index, start line and perhaps end line. Where that is below the start line, the library is to refuse it in FN.
    fn read_lines(&mut self, body: &[u8]) -> Option<Words<'static>> {
        let mut fields = body.split(|&byte| byte == b',').map(number);
        let index: u32 = fields.next()??;
        let lines: Option<Vec<u32>> = fields.collect();
        let extent = lines.and_then(|lines| match lines[..] {
            [start] => Some(Extent { start, end: None }),
            [start, end] => Some(Extent {
                start,
                end: Some(end),
            }),
            _ => None,
        });
        let taken = extent.filter(|extent| !extent.is_backwards());
        self.extents.insert(index, taken);
        let text = match taken {
            Some(_) => Vec::new(),
            None => (extent?.numbers() + "\n").into_bytes(),
        };
        Some(function(text, false))
    }

    /// The body of FNA: index, count and name. Nothing is read of one whose FNL is refused.
    fn read_name(&self, body: &[u8]) -> Option<Words<'static>> {
        let mut fields = body.splitn(3, |&byte| byte == b',');
        let index: u32 = number(fields.next()?)?;
        let (count, name) = (fields.next()?, fields.next()?);
        let is_negative = is_negative(count);
        let count: u64 = if is_negative { 0 } else { number(count)? };
        let Some(&extent) = self.extents.get(&index) else {
            let what = format!("FNA names index {index}, which no FNL before it in its section gives; capture the file again");
            return Some(refused(what));
        };
        let Some(extent) = extent else {
            return Some(Words::default());
        };
        if extent.end.is_none() && begins_with_end(name) {
            let what = format!("FNA names function {}, whose digits FN would take for an end line; give FNL its end line", shown(name));
            return Some(refused(what));
        }
        let start = extent.numbers();
        let calls = format!("FNDA:{count},");
        let lines = [start.as_bytes(), name, b"\n", calls.as_bytes(), name, b"\n"];
        Some(function(lines.concat(), is_negative))
    }
}

/// What FNL or FNA is read as.
fn function(text: Vec<u8>, is_negative: bool) -> Words<'static> {
    Words {
        text: text.into(),
        forms: Forms {
            functions: 1,
            negative: is_negative.into(),
            exceptions: 0,
        },
        fault: None,
    }
}

fn refused(what: String) -> Words<'static> {
    Words {
        fault: Some(what),
        ..Words::default()
    }
}

/// A text with a line in the library's words for each line of another producer, so that line numbers stay. Of FNA, which is read as two records,
/// it has the FN.
pub fn in_place(text: &[u8]) -> Vec<u8> {
    let mut reader = Reader::default();
    let mut words = Vec::with_capacity(text.len());
    for line in record::lines(text) {
        let bytes = &text[line.start..line.end];
        match line.record {
            Some(Record::End) => reader = Reader::default(),
            Some(_) => {}
            None => {
                let read = reader.read(bytes).text;
                let first = read.split_inclusive(|&byte| byte == b'\n').next();
                words.extend_from_slice(first.unwrap_or(b"FNF:0\n"));
                continue;
            }
        }
        words.extend_from_slice(bytes);
    }
    words
}

/// What an FNA line counts, whatever its index.
pub fn calls_of(line: &[u8]) -> Option<u64> {
    let fields = without_end(line).strip_prefix(b"FNA:")?;
    let count = fields.split(|&byte| byte == b',').nth(1)?;
    number(count)
}

/// Digits alone: `parse` takes a plus sign too.
fn number<N: std::str::FromStr>(field: &[u8]) -> Option<N> {
    let digits = std::str::from_utf8(field).ok()?;
    digits.parse().ok().filter(|_| !digits.starts_with('+'))
}

/// Whether the line is a branch whose block an exception's might be.
pub fn is_large_block(record: &Record) -> bool {
    matches!(record, Record::Branch { key, .. } if key[1] >= EXCEPTION)
}

#[cfg(test)]
mod tests {
    use super::*;

    fn translated(line: &str) -> Option<(String, [u64; 2])> {
        let Words { text, forms, .. } = translate(line.as_bytes())?;
        let text = String::from_utf8(text.into_owned()).unwrap();
        Some((text, [forms.negative, forms.exceptions]))
    }

    #[test]
    fn counts_below_0_and_blocks_of_exceptions() {
        for (line, expected, forms) in [
            ("DA:7,-1071\n", "DA:7,0\n", [1, 0]),
            ("DA:7,-1,a,b\r\n", "DA:7,0,a,b\n", [1, 0]),
            ("FNDA:-2,f(int, int)", "FNDA:0,f(int, int)\n", [1, 0]),
            ("BRDA:1,2,3,-4\n", "BRDA:1,2,3,-\n", [1, 0]),
            ("BRDA:1,e0,3,4\n", "BRDA:1,2147483648,3,4\n", [0, 1]),
            ("BRDA:1,e5,3,-\n", "BRDA:1,2147483653,3,-\n", [0, 1]),
            ("BRDA:1,e5,3,-9\n", "BRDA:1,2147483653,3,-\n", [1, 1]),
            (
                "BRDA:1,e2147483647,3,1\n",
                "BRDA:1,4294967295,3,1\n",
                [0, 1],
            ),
        ] {
            assert_eq!(translated(line), Some((expected.into(), forms)), "{line}");
        }
    }

    #[test]
    fn what_else_is_wrong_stays() {
        for (line, expected) in [
            ("DA:x,-1", "DA:x,0\n"),
            ("FNDA:-1", "FNDA:0\n"),
            ("BRDA:1,e5,3,x", "BRDA:1,2147483653,3,x\n"),
            ("BRDA:1,e5,3", "BRDA:1,2147483653,3\n"),
            ("BRDA:1,2,3,-4,5", "BRDA:1,2,3,-,5\n"),
        ] {
            let words = translated(line).map(|(text, _)| text);
            assert_eq!(words.as_deref(), Some(expected), "{line}");
        }
    }

    #[test]
    fn other_lines_stay() {
        for line in [
            "DA:7,1",
            "DA:-7,1",
            "DA:7,-",
            "DA:7,--1",
            "DA:7,-x",
            "FN:-3,f",
            "FNDA:1,-5",
            "BRDA:1,e,3,1",
            "BRDA:1,ex,3,1",
            "BRDA:1,e1x,3,1",
            "BRDA:1,e+1,3,1",
            "BRDA:1,e2147483648,3,1",
            "BRDA:1,0,e3,1",
            "LF:-1",
            "",
        ] {
            assert_eq!(translated(line), None, "{line}");
        }
    }

    /// What each line is read as, or what is refused of it; a negative count is marked.
    fn read(lines: &[&str]) -> Vec<String> {
        let mut reader = Reader::default();
        let read = lines.iter().map(|line| {
            let Words { text, forms, fault } = reader.read(line.as_bytes());
            let text = String::from_utf8(text.into_owned()).unwrap();
            let mark = ["", "below 0: "][forms.negative as usize];
            mark.to_owned() + &fault.unwrap_or(text)
        });
        read.collect()
    }

    #[test]
    fn functions_by_index() {
        let lines = [
            "FNL:0,10,20\n",
            "FNL:1,30",
            "FNA:0,7,f<a,b>\r\n",
            "FNA:0,7,2,g\n",
            "FNA:1,-3,h",
            "FNL:1,31\n",
            "FNA:1,3,h\n",
        ];
        let words = [
            "",
            "",
            "FN:10,20,f<a,b>\nFNDA:7,f<a,b>\n",
            "FN:10,20,2,g\nFNDA:7,2,g\n",
            "below 0: FN:30,h\nFNDA:0,h\n",
            "",
            "FN:31,h\nFNDA:3,h\n",
        ];
        assert_eq!(read(&lines), words);
    }

    #[test]
    fn functions_whose_lines_are_not_known() {
        let [unknown] = &read(&["FNA:0,1,f"])[..] else {
            panic!();
        };
        assert!(unknown.starts_with("FNA names index 0, "), "{unknown}");
        let [_, ambiguous] = &read(&["FNL:3,30\n", "FNA:3,3,2,h"])[..] else {
            panic!();
        };
        let what = "FNA names function 2,h, whose digits";
        assert!(ambiguous.starts_with(what), "{ambiguous}");
    }

    #[test]
    fn of_a_wrong_fnl_no_function_is_read() {
        let lines = [
            "FNL:2,9,8\n",
            "FNA:2,1,f\n",
            "FNL:2,x\n",
            "FNA:2,1,f\n",
            "FNL:2,9,9\n",
            "FNA:2,1,f\n",
        ];
        let words = ["FN:9,8,\n", "", "FNL:2,x\n", "", "", "FN:9,9,f\nFNDA:1,f\n"];
        assert_eq!(read(&lines), words);
    }

    #[test]
    fn what_is_neither_fnl_nor_fna_stays() {
        let wrong = [
            "FNL:1",
            "FNL:1,2,3,4",
            "FNL:1,x",
            "FNL:1,+2",
            "FNA:1,+2,f",
            "FNA:1,2",
            "FNA:1,x,f",
            "FNX:1,2,f",
            "FNL",
        ];
        assert_eq!(read(&wrong), wrong);
    }
}
