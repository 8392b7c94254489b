//! The lines of a tracefile, as far as the guard and the audit need them.
//!
//! This reader is written by hand and does not call the library: the audit checks the library's answer, so it must not depend on how the
//! library reads. A test compares the two on many lines. It may take a line that the library refuses, since then there is no answer to
//! check, but it takes every line that the library takes.

use crate::forms::EXCEPTION;

#[derive(Debug, Clone, Copy, PartialEq, Eq)]
pub enum Record<'a> {
    TestName(&'a [u8]),
    SourceFile(&'a [u8]),
    Function {
        start: u32,
        end: Option<u32>,
        name: &'a [u8],
    },
    Calls {
        count: u64,
        name: &'a [u8],
    },
    /// The key is line, block and branch.
    Branch {
        key: [u32; 3],
        taken: Option<u64>,
    },
    Line {
        line: u32,
        count: u64,
        checksum: Option<&'a [u8]>,
    },
    /// FNF, FNH, BRF, BRH, LF and LH.
    Found,
    End,
}

impl Record<'_> {
    /// Whether it puts something into a section: a section without such a record is dropped.
    pub fn is_item(&self) -> bool {
        use Record::*;
        matches!(
            self,
            Function { .. } | Calls { .. } | Branch { .. } | Line { .. }
        )
    }
}

/// A line of a text: where it is, and the record that it is, if it is one.
#[derive(Debug, Clone, Copy, PartialEq, Eq)]
pub struct Line<'a> {
    /// From 1.
    pub number: u32,
    /// Where it begins, and where the next one does.
    pub start: usize,
    pub end: usize,
    pub record: Option<Record<'a>>,
}

/// The lines of a text: it is cut at each byte 10, and an empty last piece is no line.
pub struct Lines<'a> {
    text: &'a [u8],
    at: usize,
    number: u32,
}

pub fn lines(text: &[u8]) -> Lines<'_> {
    Lines {
        text,
        at: 0,
        number: 0,
    }
}

impl<'a> Lines<'a> {
    #[inline(always)]
    fn step(&mut self, record: Option<Record<'a>>, len: usize) -> Option<Line<'a>> {
        let start = self.at;
        self.at += len;
        self.number += 1;
        Some(Line {
            number: self.number,
            start,
            end: self.at,
            record,
        })
    }
}

impl<'a> Iterator for Lines<'a> {
    type Item = Line<'a>;

    /// Each kind of line has its own `return`, so that a record is made in registers.
    #[inline(always)]
    fn next(&mut self) -> Option<Line<'a>> {
        let rest = &self.text[self.at..];
        if rest.is_empty() {
            return None;
        }
        if let Some((line, count, len)) = plain_line(rest) {
            let checksum = None;
            let record = Record::Line {
                line,
                count,
                checksum,
            };
            return self.step(Some(record), len);
        }
        if let Some((key, taken, len)) = plain_branch(rest) {
            return self.step(Some(Record::Branch { key, taken }), len);
        }
        let len = memchr::memchr(b'\n', rest).map_or(rest.len(), |end| end + 1);
        self.step(parse(&rest[..len]), len)
    }
}

/// Lines of one kind that follow each other, as tools write them: by ascending keys, so that none comes twice.
#[derive(Debug, Clone, Copy, PartialEq, Eq)]
pub struct ItemRun<'a, K> {
    /// The lines, and where the first begins.
    pub bytes: &'a [u8],
    pub start: usize,
    /// The number of the first line, and how many there are.
    pub number: u32,
    pub count: u32,
    pub first: K,
    pub last: K,
    /// What they count.
    pub sum: u128,
}

impl<K> ItemRun<'_, K> {
    pub fn end(&self) -> usize {
        self.start + self.bytes.len()
    }
}

impl<'a> Lines<'a> {
    /// The DA lines that come next, if the next line is one.
    pub fn line_run(&mut self) -> Option<ItemRun<'a, u32>> {
        self.run(plain_line)
    }

    /// The BRDA lines that come next, if the next line is one and its block is none that exceptions might have.
    pub fn branch_run(&mut self) -> Option<ItemRun<'a, [u32; 3]>> {
        self.run(|text| {
            let (key, taken, len) = plain_branch(text)?;
            (key[1] < EXCEPTION).then_some((key, taken.unwrap_or(0), len))
        })
    }

    /// `read` is called at one place, so that it becomes part of the loop.
    #[inline(always)]
    fn run<K: Ord + Copy>(
        &mut self,
        read: impl Fn(&[u8]) -> Option<(K, u64, usize)>,
    ) -> Option<ItemRun<'a, K>> {
        let (start, number) = (self.at, self.number + 1);
        let (mut keys, mut end, mut sum, mut count) = (None, start, 0, 0);
        while let Some((key, value, len)) = read(&self.text[end..]) {
            keys = match keys {
                Some((_, last)) if key <= last => break,
                Some((first, _)) => Some((first, key)),
                None => Some((key, key)),
            };
            sum += u128::from(value);
            end += len;
            count += 1;
        }
        let (first, last) = keys?;
        self.at = end;
        self.number += count;
        Some(ItemRun {
            bytes: &self.text[start..end],
            start,
            number,
            count,
            first,
            last,
            sum,
        })
    }
}

/// The records of a text with their line numbers, up to the first line that is none.
pub fn records(text: &[u8]) -> impl Iterator<Item = (u32, Record<'_>)> {
    lines(text).map_while(|line| Some((line.number, line.record?)))
}

/// The first line of a text and its length with byte 10, if it is a DA line as tools write it: most lines are. Every such line is one to
/// `parse` too.
#[inline(always)]
fn plain_line(text: &[u8]) -> Option<(u32, u64, usize)> {
    let [b'D', b'A', b':', ..] = text else {
        return None;
    };
    let (line, at) = digits(text, 3, b',')?;
    let (count, at) = digits(text, at, b'\n')?;
    Some((u32::try_from(line).ok()?, count, at))
}

/// The same of a BRDA line.
#[inline(always)]
fn plain_branch(text: &[u8]) -> Option<([u32; 3], Option<u64>, usize)> {
    let [b'B', b'R', b'D', b'A', b':', ..] = text else {
        return None;
    };
    let (line, at) = digits(text, 5, b',')?;
    let (block, at) = digits(text, at, b',')?;
    let (branch, at) = digits(text, at, b',')?;
    let number = |value| u32::try_from(value).ok();
    let key = [number(line)?, number(block)?, number(branch)?];
    if let [b'-', b'\n', ..] = text[at..] {
        return Some((key, None, at + 2));
    }
    let (taken, at) = digits(text, at, b'\n')?;
    Some((key, Some(taken), at))
}

/// One to 19 digits, whose value fits 64 bits, and the byte after them; where that byte ends.
#[inline(always)]
fn digits(text: &[u8], start: usize, after: u8) -> Option<(u64, usize)> {
    if let Some(&eight) = text[start..].first_chunk::<8>() {
        let (value, len) = leading_digits(eight);
        if len < 8 {
            let is_number = len > 0 && eight[len] == after;
            return is_number.then_some((value, start + len + 1));
        }
    }
    long_digits(text, start, after)
}

/// The value and the number of the digits that come first. Eight bytes are read as one word, since a loop over them ends at a place that the
/// processor can't foretell.
#[inline(always)]
fn leading_digits(bytes: [u8; 8]) -> (u64, usize) {
    const EACH: u64 = 0x0101_0101_0101_0101;
    let word = u64::from_le_bytes(bytes) ^ (EACH * 0x30);
    // The highest bit of a byte is set from the first byte on that is no digit.
    let others = (word.wrapping_add(EACH * 0x76) | word) & (EACH * 0x80);
    let len = others.trailing_zeros() as usize / 8;
    if len == 0 {
        return (0, 0);
    }
    // Zeros come before the digits; then neighbours are joined to numbers of two, four and eight digits.
    let ones = word << (64 - 8 * len);
    let twos = ones.wrapping_mul(1 + (10 << 8)) >> 8 & 0x00ff_00ff_00ff_00ff;
    let fours = twos.wrapping_mul(1 + (100 << 16)) >> 16 & 0x0000_ffff_0000_ffff;
    let value = fours.wrapping_mul(1 + (10_000 << 32)) >> 32;
    (value, len)
}

#[cold]
fn long_digits(text: &[u8], start: usize, after: u8) -> Option<(u64, usize)> {
    let mut value = 0_u64;
    let mut at = start;
    loop {
        let byte = *text.get(at)?;
        let digit = byte.wrapping_sub(b'0');
        if digit > 9 {
            let is_number = byte == after && at > start && at - start < 20;
            return is_number.then_some((value, at + 1));
        }
        value = value.wrapping_mul(10).wrapping_add(u64::from(digit));
        at += 1;
    }
}

pub fn parse(line: &[u8]) -> Option<Record<'_>> {
    let line = without_end(line);
    // The tags are tried in the order of how often they come.
    if let Some(body) = line.strip_prefix(b"DA:") {
        return line_data(body);
    }
    if let Some(body) = line.strip_prefix(b"BRDA:") {
        return branch_data(body);
    }
    let colon = line.iter().position(|&byte| byte == b':');
    let tag = &line[..colon.unwrap_or(line.len())];
    let body = colon.map_or(&[][..], |colon| &line[colon + 1..]);
    match tag {
        b"TN" => Some(Record::TestName(body)),
        b"SF" => Some(Record::SourceFile(body)),
        b"FN" => function(body),
        b"FNDA" => calls(body),
        b"FNF" | b"FNH" | b"BRF" | b"BRH" | b"LF" | b"LH" => Some(Record::Found),
        b"end_of_record" => Some(Record::End),
        _ => None,
    }
}

/// Bytes 10 and 13 are dropped from the end of a line.
pub fn without_end(mut line: &[u8]) -> &[u8] {
    while let [rest @ .., b'\n' | b'\r'] = line {
        line = rest;
    }
    line
}

fn function(body: &[u8]) -> Option<Record<'_>> {
    let (start, rest) = key_number(body)?;
    let (end, name) = match begins_with_end(rest) {
        true => key_number(rest).map(|(end, name)| (Some(end), name))?,
        false => (None, rest),
    };
    Some(Record::Function { start, end, name })
}

/// Whether what follows the first comma of FN begins with an end line: digits alone, one or more, and a comma. Otherwise it is a name.
pub fn begins_with_end(rest: &[u8]) -> bool {
    let digits = rest.iter().take_while(|byte| byte.is_ascii_digit()).count();
    digits > 0 && rest.get(digits) == Some(&b',')
}

fn calls(body: &[u8]) -> Option<Record<'_>> {
    let (count, name) = number(body)?;
    let name = name.strip_prefix(b",")?;
    Some(Record::Calls { count, name })
}

fn line_data(body: &[u8]) -> Option<Record<'_>> {
    let (line, rest) = key_number(body)?;
    let (count, rest) = number(rest)?;
    let checksum = match rest {
        [] | [b',', b'-'] => None,
        [b',', checksum @ ..] => Some(checksum),
        _ => return None,
    };
    Some(Record::Line {
        line,
        count,
        checksum,
    })
}

fn branch_data(body: &[u8]) -> Option<Record<'_>> {
    let (line, rest) = key_number(body)?;
    let (block, rest) = key_number(rest)?;
    let (branch, rest) = key_number(rest)?;
    let (taken, rest) = match rest {
        [b'-', rest @ ..] => (None, rest),
        _ => number(rest).map(|(taken, rest)| (Some(taken), rest))?,
    };
    let key = [line, block, branch];
    rest.is_empty().then_some(Record::Branch { key, taken })
}

/// A number of 32 bits and the comma after it; what follows.
fn key_number(body: &[u8]) -> Option<(u32, &[u8])> {
    let (value, rest) = number(body)?;
    Some((u32::try_from(value).ok()?, rest.strip_prefix(b",")?))
}

/// One or more digits; what follows.
fn number(body: &[u8]) -> Option<(u64, &[u8])> {
    let mut value = 0_u64;
    let mut rest = body;
    while let [digit @ b'0'..=b'9', later @ ..] = rest {
        value = value
            .checked_mul(10)?
            .checked_add(u64::from(digit - b'0'))?;
        rest = later;
    }
    (rest.len() < body.len()).then_some((value, rest))
}

#[cfg(test)]
mod tests {
    use super::*;

    #[test]
    fn leading_digits_are_those_before_the_first_other_byte() {
        for digits in 0..=8 {
            for other in [b',', b'\n', b'/', b':', b'-', 0, 0x7f, 0x80, 0xb0, 0xff] {
                let mut bytes = [other; 8];
                bytes[..digits].copy_from_slice(&b"90817263"[..digits]);
                let value = std::str::from_utf8(&bytes[..digits]).unwrap();
                let expected = (value.parse().unwrap_or(0), digits);
                assert_eq!(leading_digits(bytes), expected, "{bytes:?}");
            }
        }
    }

    /// The lines of a text, and of its runs each line by itself.
    fn in_runs(text: &[u8]) -> (Vec<Line<'_>>, usize) {
        let (mut all, mut runs) = (Vec::new(), 0);
        let mut rest = lines(text);
        loop {
            let (start, number, bytes, count, sum) = if let Some(run) = rest.line_run() {
                (run.start, run.number, run.bytes, run.count, run.sum)
            } else if let Some(run) = rest.branch_run() {
                (run.start, run.number, run.bytes, run.count, run.sum)
            } else if let Some(line) = rest.next() {
                all.push(line);
                continue;
            } else {
                return (all, runs);
            };
            runs += usize::from(count > 1);
            let own = lines(bytes).map(|line| Line {
                number: line.number + number - 1,
                start: line.start + start,
                end: line.end + start,
                ..line
            });
            let own: Vec<Line> = own.collect();
            assert_eq!(own.len(), count as usize);
            assert_eq!(own.iter().map(counted).sum::<u128>(), sum);
            assert!(own.windows(2).all(|pair| key(&pair[0]) < key(&pair[1])));
            all.extend(own);
        }
    }

    fn counted(line: &Line) -> u128 {
        match line.record {
            Some(Record::Line { count, .. }) => count.into(),
            Some(Record::Branch { taken, .. }) => taken.unwrap_or(0).into(),
            _ => panic!("{line:?}"),
        }
    }

    /// Whether it is a branch, and its numbers.
    fn key(line: &Line) -> (bool, [u32; 3]) {
        match line.record {
            Some(Record::Line { line, .. }) => (false, [line, 0, 0]),
            Some(Record::Branch { key, .. }) => (true, key),
            _ => panic!("{line:?}"),
        }
    }

    const ALL: [&str; 15] = [
        "DA:1,2",
        "DA:2,18446744073709551615",
        "DA:3,1,x",
        "DA:4,9\r",
        "DA:5,1",
        "DA:6,1",
        "BRDA:1,0,0,-",
        "BRDA:1,0,1,7",
        "BRDA:2,0,0,18446744073709551615",
        "BRDA:2,2147483648,0,1",
        "BRDA:3,0,0,1",
        "LF:1",
        "end_of_record",
        "",
        "DA:x",
    ];

    #[test]
    fn runs_have_the_lines_of_the_text() {
        let mut random = 0x9e37_79b9_u64;
        let mut runs = 0;
        for _ in 0..20_000 {
            let mut below = |bound: usize| {
                random ^= random << 13;
                random ^= random >> 7;
                random ^= random << 17;
                (random >> 11) as usize % bound
            };
            let mut next = 0;
            let text: Vec<&str> = (0..below(12))
                .map(|_| {
                    // Mostly the next one, so that keys ascend.
                    next = if below(4) > 0 {
                        (next + 1) % ALL.len()
                    } else {
                        below(ALL.len())
                    };
                    ALL[next]
                })
                .collect();
            let text = text.join("\n") + ["", "\n"][below(2)];
            let (found, longer) = in_runs(text.as_bytes());
            assert_eq!(found, lines(text.as_bytes()).collect::<Vec<_>>(), "{text}");
            runs += longer;
        }
        assert!(runs > 5_000, "{runs}");
        let large = b"BRDA:2,2147483648,0,1\n";
        assert_eq!(lines(large).branch_run(), None);
    }

    #[test]
    fn end_lines_of_functions() {
        let read = |line: &str| match parse(line.as_bytes()) {
            Some(Record::Function { start, end, name }) => {
                Some((start, end, String::from_utf8(name.to_vec()).unwrap()))
            }
            _ => None,
        };
        for (line, end, name) in [
            ("FN:1,2,f", Some(2), "f"),
            ("FN:1,2,\r\n", Some(2), ""),
            ("FN:1,2,3,f", Some(2), "3,f"),
            ("FN:1,000000000000000000000000000002,f", Some(2), "f"),
            ("FN:1,4294967295,f", Some(u32::MAX), "f"),
            ("FN:1,2", None, "2"),
            ("FN:1,,x", None, ",x"),
            ("FN:1,+2,f", None, "+2,f"),
            ("FN:1, 2,f", None, " 2,f"),
            ("FN:1,2x,f", None, "2x,f"),
            (
                "FN:1,99999999999999999999999x,f",
                None,
                "99999999999999999999999x,f",
            ),
            ("FN:1,", None, ""),
        ] {
            assert_eq!(read(line), Some((1, end, name.to_owned())), "{line}");
        }
        for line in [
            "FN:1,4294967296,f",
            "FN:x,2,f",
            "FN:1,99999999999999999999999,f",
        ] {
            assert_eq!(read(line), None, "{line}");
        }
    }

    #[test]
    fn plain_lines_are_what_parse_makes_of_them() {
        let numbers = [
            "0",
            "7",
            "42",
            "0012",
            "1234567",
            "12345678",
            "4294967295",
            "4294967296",
            "9999999999999999999",
            "18446744073709551615",
            "18446744073709551616",
            "",
            "+1",
            "1x",
        ];
        for a in numbers {
            for b in numbers {
                for line in [
                    format!("DA:{a},{b}"),
                    format!("BRDA:{a},0,{a},{b}"),
                    format!("BRDA:1,{b},2,-"),
                ] {
                    for end in ["\n", "\nDA:12345678,12345678\n", "", "\r\n"] {
                        let text = format!("{line}{end}");
                        let first = lines(text.as_bytes()).next().unwrap();
                        assert_eq!(first.record, parse(line.as_bytes()), "{text}");
                        assert_eq!(first.end, text.find('\n').map_or(text.len(), |end| end + 1));
                    }
                }
            }
        }
    }
}
