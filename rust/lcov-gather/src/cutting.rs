//! Cutting and grouping: files are cut into pieces, and the pieces of all files are put together by test name and path.
//!
//! The library gathers the pieces of each group, so that each record that counts has to be in exactly one piece, and no key twice in a
//! piece. Nothing here is proved.

use crate::forms::{self, Reader};
use crate::key::compare_keys;
use crate::meaning::Meaning;
use crate::order::{ordered, Order};
use crate::piece::{range_of, Body, Fault, Group, Piece, Pieces, Text};
use crate::record::{lines, ItemRun, Line, Record};
use crate::sections::{body_of, key_of, printed_sections};
use std::cmp::Ordering;
use std::collections::hash_map::{Entry, HashMap};
use std::ops::Range;

/// The section that is open.
#[derive(Default)]
struct Section {
    start: usize,
    /// The number of its first line.
    first: u32,
    path: Range<usize>,
    /// The line of the last SF.
    path_line: u32,
    entries: usize,
    last_line: Option<u32>,
    last_branch: Option<[u32; 3]>,
    /// A key may come twice, or a line has another producer's form.
    is_mixed: bool,
}

/// Takes the lines of a file in order.
pub struct Cutter<'t> {
    text: &'t [u8],
    meaning: Meaning,
    /// All sections have the empty test name.
    has_one_name: bool,
    test: Range<usize>,
    section: Option<Section>,
    order: Order<'t>,
    done: Pieces,
}

impl<'t> Cutter<'t> {
    pub fn new(text: &'t [u8], meaning: Meaning, has_one_name: bool) -> Self {
        Cutter {
            text,
            meaning,
            has_one_name,
            test: 0..0,
            section: None,
            order: Order::default(),
            done: Pieces::default(),
        }
    }

    #[inline]
    pub fn take(&mut self, line: &Line<'t>) {
        // The record is looked at where it is: a copy of all of it would take longer than what is done with it.
        let record = line.record.as_ref();
        if let (true, Some(Record::TestName(name))) = (self.section.is_none(), record) {
            if !self.has_one_name {
                self.test = range_of(name, self.text);
            }
            return;
        }
        self.order.add(record, line.start, line.end);
        let text = self.text;
        let section = self.open(line.start, line.number);
        section.entries += usize::from(record.is_some_and(Record::is_item));
        match record {
            Some(Record::Line { line, .. }) => {
                section.is_mixed |= section.last_line >= Some(*line);
                section.last_line = Some(*line);
            }
            Some(Record::Branch { key, .. }) => {
                section.is_mixed |= section.last_branch.as_ref() >= Some(key);
                section.last_branch = Some(*key);
            }
            Some(Record::SourceFile(path)) => {
                section.path = range_of(path, text);
                section.path_line = line.number;
            }
            Some(Record::End) => return self.end(line.end),
            None => section.is_mixed = true,
            _ => {}
        }
        if self.meaning == Meaning::Geninfo && record.is_some_and(forms::is_large_block) {
            self.done.large_block.get_or_insert(line.number);
        }
    }

    /// Takes DA lines at once.
    pub fn take_lines(&mut self, run: &ItemRun<u32>) {
        self.order.add_lines(run.start, run.end());
        self.take_run(run, |section| &mut section.last_line);
    }

    /// Takes BRDA lines at once.
    pub fn take_branches(&mut self, run: &ItemRun<[u32; 3]>) {
        self.order.add_branches(run.start, run.end());
        self.take_run(run, |section| &mut section.last_branch);
    }

    /// `last` is where a section has the last key of the kind.
    #[inline]
    fn take_run<K: Ord + Copy>(
        &mut self,
        run: &ItemRun<K>,
        last: impl Fn(&mut Section) -> &mut Option<K>,
    ) {
        let section = self.open(run.start, run.number);
        section.entries += run.count as usize;
        let before = last(section).replace(run.last);
        section.is_mixed |= before >= Some(run.first);
    }

    /// The open section, which may begin here.
    #[inline]
    fn open(&mut self, start: usize, number: u32) -> &mut Section {
        self.section.get_or_insert_with(|| Section {
            start,
            first: number,
            path_line: number,
            ..Section::default()
        })
    }

    fn end(&mut self, end: usize) {
        let Some(section) = self.section.take() else {
            return;
        };
        let adds = self.meaning == Meaning::Geninfo;
        let is_mixed = adds && (section.is_mixed || self.order.has_function_again());
        let runs = self.order.take();
        if is_mixed {
            return self.split(&section, end);
        }
        self.done.pieces.push(Piece {
            test: Some(self.test.clone()),
            path: section.path,
            entries: section.entries + 1,
            body: Body::Lines(section.start..end, section.first),
            runs,
        });
        if !adds {
            self.test = 0..0;
        }
    }

    /// Pieces of a section in which a key may come twice. Lines of other producers are in the library's words.
    fn split(&mut self, section: &Section, end: usize) {
        let text = &self.text[section.start..end];
        let mut split = Split::new(&self.text[section.path.clone()], section.path_line);
        let mut reader = Reader::default();
        let mut after = section.first;
        for line in lines(text) {
            let number = section.first + line.number - 1;
            after = number + 1;
            let bytes = &text[line.start..line.end];
            if line.record.is_some() {
                split.take(bytes, line.record, number);
                continue;
            }
            let words = reader.read(bytes);
            self.done.forms += words.forms;
            if let Some(what) = words.fault {
                let line = number;
                self.done.fault.get_or_insert(Fault { line, what });
            }
            for line in lines(&words.text) {
                split.take(&words.text[line.start..line.end], line.record, number);
            }
        }
        for mut made in split.texts {
            made.lines.push(after);
            self.done.pieces.push(Piece {
                test: Some(self.test.clone()),
                path: section.path.clone(),
                entries: made.entries,
                body: Body::Made(made.bytes, made.lines),
                runs: Vec::new(),
            });
        }
    }

    /// A section that has no end is a piece too, which the library refuses.
    pub fn finish(mut self) -> Pieces {
        self.end(self.text.len());
        self.done
    }
}

/// The key of a DA or BRDA line in its section.
#[derive(PartialEq, Eq, Hash)]
enum Key {
    Line(u32),
    Branch([u32; 3]),
}

/// The texts in which the next FN and the next FNDA of a function are.
#[derive(Default)]
struct NextFunction {
    start: usize,
    calls: usize,
}

/// The lines of a piece, the line of the file for each, and the piece's entries.
#[derive(Clone)]
struct MadeText {
    bytes: Vec<u8>,
    lines: Vec<u32>,
    entries: usize,
}

/// A section by occurrences: the k-th record of a key is in the k-th text, so that no key comes twice in one.
struct Split {
    /// Each text begins with the path.
    head: MadeText,
    texts: Vec<MadeText>,
    has_path: bool,
    /// The text in which the next line of a key is.
    next: HashMap<Key, usize>,
    functions: HashMap<Vec<u8>, NextFunction>,
}

impl Split {
    fn new(path: &[u8], path_line: u32) -> Self {
        let head = MadeText {
            bytes: [b"SF:", path, b"\n"].concat(),
            lines: vec![path_line],
            entries: 1,
        };
        Split {
            texts: vec![head.clone()],
            head,
            has_path: false,
            next: HashMap::new(),
            functions: HashMap::new(),
        }
    }

    fn take(&mut self, bytes: &[u8], record: Option<Record>, number: u32) {
        let place = match record {
            Some(Record::SourceFile(_)) if !self.has_path => {
                self.has_path = true;
                return;
            }
            Some(Record::End) => {
                let texts = 0..self.texts.len();
                return texts.for_each(|place| self.put(place, b"end_of_record\n", number));
            }
            Some(Record::Line { line, .. }) => self.place(Key::Line(line)),
            Some(Record::Branch { key, .. }) => self.place(Key::Branch(key)),
            Some(Record::Calls { name, .. }) => next_from(0, &mut self.function(name).calls),
            Some(Record::Function { name, .. }) => {
                // FN sets the count of its function to 0 (SPEC 3.2), so that it must be in no text in which the function has come.
                let function = self.function(name);
                next_from(function.calls, &mut function.start)
            }
            // Totals act on nothing. The library refuses a second path, TN in a section, and a line that is no record.
            Some(Record::SourceFile(_) | Record::TestName(_) | Record::Found) | None => 0,
        };
        self.put(place, bytes, number);
        let is_item = record.is_some_and(|record| record.is_item());
        self.texts[place].entries += usize::from(is_item);
    }

    fn place(&mut self, key: Key) -> usize {
        next_from(0, self.next.entry(key).or_insert(0))
    }

    fn function(&mut self, name: &[u8]) -> &mut NextFunction {
        self.functions.entry(name.to_vec()).or_default()
    }

    fn put(&mut self, place: usize, bytes: &[u8], number: u32) {
        if self.texts.len() <= place {
            self.texts.resize(place + 1, self.head.clone());
        }
        let text = &mut self.texts[place];
        text.bytes.extend_from_slice(bytes);
        if !bytes.ends_with(b"\n") {
            text.bytes.push(b'\n');
        }
        text.lines.push(number);
    }
}

/// The next place, or `least` if that is later. The one after it is then the next.
fn next_from(least: usize, next: &mut usize) -> usize {
    let place = least.max(*next);
    *next = place + 1;
    place
}

/// The sections of a text that the library wrote, which has each once. Their lines are no lines of a file.
pub fn cut_printed(text: &[u8]) -> Vec<Piece> {
    let pieces = printed_sections(text).map(|section| {
        let (test, path) = key_of(section);
        let body = body_of(section);
        let bytes = range_of(body, text);
        Piece {
            test: Some(range_of(test, text)),
            path: range_of(path, text),
            entries: memchr::memchr_iter(b'\n', body).count(),
            runs: ordered(body, bytes.start),
            body: Body::Lines(bytes, 0),
        }
    });
    pieces.collect()
}

/// Texts by test name and path, in the order of these keys. Keys are hashed by their bytes first; the library then finds which paths are
/// one.
pub fn group<'a>(texts: impl Iterator<Item = Text<'a>>) -> Vec<Group<'a>> {
    let mut places: HashMap<(Option<&[u8]>, &[u8]), usize> = HashMap::new();
    let mut groups: Vec<Group> = Vec::new();
    for text in texts {
        match places.entry((text.test, text.path)) {
            Entry::Occupied(place) => groups[*place.get()].texts.push(text),
            Entry::Vacant(place) => {
                place.insert(groups.len());
                groups.push(Group { texts: vec![text] });
            }
        }
    }
    groups.sort_by(|a, b| compare_keys(a.key(), b.key()));
    groups.dedup_by(|later, earlier| {
        let is_one = compare_keys(later.key(), earlier.key()) == Ordering::Equal;
        if is_one {
            earlier.texts.append(&mut later.texts);
        }
        is_one
    });
    // Once, since a path may have many spellings; texts that are in order are left as they are.
    for group in &mut groups {
        group.texts.sort_by_key(|text| text.origin);
    }
    groups
}

#[cfg(test)]
mod tests {
    use super::*;
    use crate::piece::Origin;

    fn cut(text: &str, meaning: Meaning) -> Pieces {
        let mut cutter = Cutter::new(text.as_bytes(), meaning, false);
        lines(text.as_bytes()).for_each(|line| cutter.take(&line));
        cutter.finish()
    }

    fn cut_in_runs(text: &str, meaning: Meaning) -> Pieces {
        let mut cutter = Cutter::new(text.as_bytes(), meaning, false);
        let mut rest = lines(text.as_bytes());
        loop {
            if let Some(run) = rest.line_run() {
                cutter.take_lines(&run);
            } else if let Some(run) = rest.branch_run() {
                cutter.take_branches(&run);
            } else if let Some(line) = rest.next() {
                cutter.take(&line);
            } else {
                return cutter.finish();
            }
        }
    }

    /// Each piece as the library reads it.
    fn written(text: &str, cut: &Pieces) -> Vec<String> {
        let pieces = cut.pieces.iter().map(|piece| {
            let mut bytes = Vec::new();
            let origin = Origin::Piece { file: 0, piece: 0 };
            piece.text(text.as_bytes(), origin).write(&mut bytes);
            String::from_utf8(bytes).unwrap()
        });
        pieces.collect()
    }

    fn pieces(text: &str, meaning: Meaning) -> Vec<String> {
        written(text, &cut(text, meaning))
    }

    /// The records of each piece of a section that has these, parted by blanks.
    fn split(records: &str) -> Vec<String> {
        let text = format!("SF:x\n{}\nend_of_record\n", records.replace(' ', "\n"));
        let pieces = pieces(&text, Meaning::Geninfo).into_iter().map(|piece| {
            let body = piece.strip_prefix("TN:\nSF:x\n").unwrap();
            let records = body.strip_suffix("\nend_of_record\n").unwrap();
            records.replace('\n', " ")
        });
        pieces.collect()
    }

    const TWO: &str = "TN:s\nTN:t\r\nSF:x\nDA:1,1\nDA:1,2\nend_of_record\nLF:0\nend_of_record";

    #[test]
    fn sections_with_their_test_names() {
        let first = "TN:t\nSF:x\nDA:1,1\nDA:1,2\nend_of_record\n";
        let second = "TN:\nLF:0\nend_of_record\n";
        assert_eq!(pieces(TWO, Meaning::Guarded), [first, second]);
        let added = [
            "TN:t\nSF:x\nDA:1,1\nend_of_record\n",
            "TN:t\nSF:x\nDA:1,2\nend_of_record\n",
            "TN:t\nLF:0\nend_of_record\n",
        ];
        assert_eq!(pieces(TWO, Meaning::Geninfo), added);
        assert_eq!(pieces(TWO, Meaning::AsWritten), [first, second]);
        assert_eq!(pieces("TN:t\n", Meaning::Guarded), Vec::<String>::new());
    }

    #[test]
    fn one_name_for_all_sections() {
        let mut cutter = Cutter::new(TWO.as_bytes(), Meaning::Guarded, true);
        lines(TWO.as_bytes()).for_each(|line| cutter.take(&line));
        let first = "TN:\nSF:x\nDA:1,1\nDA:1,2\nend_of_record\n";
        let second = "TN:\nLF:0\nend_of_record\n";
        assert_eq!(written(TWO, &cutter.finish()), [first, second]);
    }

    #[test]
    fn a_line_of_a_piece_is_a_line_of_its_file() {
        let lines_of = |text, meaning, piece: usize| {
            let cut = cut(text, meaning);
            [2, 3, 4, 5].map(|line| cut.pieces[piece].line_in_file(line))
        };
        assert_eq!(lines_of(TWO, Meaning::Guarded, 0), [3, 4, 5, 6]);
        assert_eq!(lines_of(TWO, Meaning::Guarded, 1), [7, 8, 9, 10]);
        assert_eq!(lines_of(TWO, Meaning::Geninfo, 0), [3, 4, 6, 7]);
        assert_eq!(lines_of(TWO, Meaning::Geninfo, 1), [3, 5, 6, 7]);
        let function = "SF:x\nFNL:0,1\nFNA:0,1,f\nend_of_record\n";
        assert_eq!(lines_of(function, Meaning::Geninfo, 0), [1, 3, 3, 4]);
        let whole = Piece::whole(TWO.as_bytes(), 4);
        assert_eq!([2, 3].map(|line| whole.line_in_file(line)), [2, 3]);
    }

    #[test]
    fn the_library_refuses_what_is_left_in_the_first_piece() {
        for odd in ["SF:y", "TN:u", "DA:x", ""] {
            let text = format!("SF:x\nDA:1,1\nDA:1,2\n{odd}\nend_of_record\n");
            let pieces = pieces(&text, Meaning::Geninfo);
            let path = if odd == "SF:y" { "y" } else { "x" };
            let first = format!("TN:\nSF:{path}\nDA:1,1\n{odd}\nend_of_record\n");
            let second = format!("TN:\nSF:{path}\nDA:1,2\nend_of_record\n");
            assert_eq!(pieces, [first, second]);
        }
    }

    #[test]
    fn a_section_without_an_end() {
        let text = "SF:x\nDA:1,1\nDA:1,2";
        let whole = "TN:\nSF:x\nDA:1,1\nDA:1,2\n";
        assert_eq!(pieces(text, Meaning::Guarded), [whole]);
        let both = ["TN:\nSF:x\nDA:1,1\n", "TN:\nSF:x\nDA:1,2\n"];
        assert_eq!(pieces(text, Meaning::Geninfo), both);
        let cut = cut(text, Meaning::Geninfo);
        let lines = [2, 3, 4, 5].map(|line| cut.pieces[1].line_in_file(line));
        assert_eq!(lines, [1, 3, 4, 4]);
    }

    #[test]
    fn what_comes_again_is_in_the_next_piece() {
        assert_eq!(split("DA:1,1 DA:2,1 LF:2"), ["DA:1,1 DA:2,1 LF:2"]);
        let lines = ["DA:2,1 DA:1,5 LF:2", "DA:2,3", "DA:2,4"];
        assert_eq!(split("DA:2,1 DA:1,5 DA:2,3 DA:2,4 LF:2"), lines);
        let branches = ["BRDA:1,0,0,- BRDA:1,0,1,2", "BRDA:1,0,0,3"];
        assert_eq!(split("BRDA:1,0,0,- BRDA:1,0,0,3 BRDA:1,0,1,2"), branches);
        assert_eq!(split("FNDA:1,f FNDA:2,f"), ["FNDA:1,f", "FNDA:2,f"]);
    }

    /// FN sets its function's count to 0.
    #[test]
    fn no_fn_follows_its_function() {
        assert_eq!(split("FN:1,f FNDA:1,f"), ["FN:1,f FNDA:1,f"]);
        assert_eq!(split("FN:1,f FN:1,f"), ["FN:1,f", "FN:1,f"]);
        assert_eq!(split("FNDA:1,f FN:1,f"), ["FNDA:1,f", "FN:1,f"]);
        let again = ["FN:1,f FNDA:1,f FN:9,g", "FN:1,f FNDA:2,f"];
        assert_eq!(split("FN:1,f FNDA:1,f FN:1,f FNDA:2,f FN:9,g"), again);
    }

    #[test]
    fn lines_of_other_producers_are_in_the_words_of_the_library() {
        let text =
            "SF:x\nFNL:0,1,2\nFNA:0,-5,f\nFNA:0,6,g\nDA:1,-1\nBRDA:1,e0,0,1\nend_of_record\n";
        let cut = cut(text, Meaning::Geninfo);
        let words = "TN:\nSF:x\nFN:1,2,f\nFNDA:0,f\nFN:1,2,g\nFNDA:6,g\nDA:1,0\nBRDA:1,2147483648,0,1\nend_of_record\n";
        assert_eq!(written(text, &cut), [words]);
        let forms = (
            cut.forms.functions,
            cut.forms.negative,
            cut.forms.exceptions,
        );
        assert_eq!(forms, (3, 2, 1));
        let guarded = [format!("TN:\n{text}")];
        assert_eq!(pieces(text, Meaning::Guarded), guarded);
    }

    #[test]
    fn an_index_holds_up_to_the_end_of_its_section() {
        let text = "FNL:0,1\nend_of_record\nLF:0\nFNA:0,1,f\nFNA:0,1,g\nend_of_record\n";
        let fault = cut(text, Meaning::Geninfo).fault.unwrap();
        assert_eq!(fault.line, 4, "{}", fault.what);
    }

    struct Random(u64);

    impl Random {
        fn below(&mut self, bound: usize) -> usize {
            self.0 ^= self.0 << 13;
            self.0 ^= self.0 >> 7;
            self.0 ^= self.0 << 17;
            (self.0 >> 11) as usize % bound
        }

        fn line(&mut self) -> String {
            let [key, count, kind] = [3, 4, 9].map(|bound| self.below(bound));
            match kind {
                0..=2 => format!("DA:{key},{count}\n"),
                3 | 4 => format!("BRDA:{key},0,0,{count}\n"),
                5 => format!("FN:{key},f{key}\n"),
                6 => format!("FNDA:{count},f{key}\n"),
                7 => "LF:1\n".to_owned(),
                _ => format!("BRDA:1,2147483648,{key},{count}\n"),
            }
        }

        fn text(&mut self) -> String {
            let sections = (0..self.below(4)).map(|_| {
                let name = ["", "TN:s\n", "TN:t\n"][self.below(3)];
                let path = ["", "SF:x\n", "SF:y\n"][self.below(3)];
                let lines: String = (0..self.below(7)).map(|_| self.line()).collect();
                format!("{name}{path}{lines}end_of_record\n")
            });
            sections.collect()
        }
    }

    /// Test name, path and line of each record that counts. The path comes first in a section.
    fn items(text: &str, keeps_name: bool) -> Vec<(String, String, String)> {
        let (mut name, mut path, mut all) = ("", "", Vec::new());
        for line in text.lines() {
            if let Some(test) = line.strip_prefix("TN:") {
                name = test;
            } else if let Some(source) = line.strip_prefix("SF:") {
                path = source;
            } else if line == "end_of_record" {
                name = if keeps_name { name } else { "" };
                path = "";
            } else if line != "LF:1" {
                all.push((name.to_owned(), path.to_owned(), line.to_owned()));
            }
        }
        all.sort();
        all
    }

    /// Whether a record of a piece would replace or add to another.
    fn comes_again(piece: &str) -> bool {
        let mut met: Vec<Record> = Vec::new();
        let again = |a: &Record, b: &Record| match (a, b) {
            (Record::Line { line: a, .. }, Record::Line { line: b, .. }) => a == b,
            (Record::Branch { key: a, .. }, Record::Branch { key: b, .. }) => a == b,
            (Record::Function { name: a, .. }, Record::Function { name: b, .. }) => a == b,
            (Record::Calls { name: a, .. }, Record::Function { name: b, .. }) => a == b,
            (Record::Calls { name: a, .. }, Record::Calls { name: b, .. }) => a == b,
            _ => false,
        };
        lines(piece.as_bytes()).any(|line| {
            let record = line.record.unwrap();
            let is_again = met.iter().any(|earlier| again(earlier, &record));
            met.push(record);
            is_again
        })
    }

    #[test]
    fn each_record_is_in_one_piece_and_no_key_is_twice_in_one() {
        let mut random = Random(0x2545_f491_4f6c_dd1d);
        let mut split = 0;
        for _ in 0..5_000 {
            let text = random.text();
            for meaning in [Meaning::Guarded, Meaning::Geninfo, Meaning::AsWritten] {
                let adds = meaning == Meaning::Geninfo;
                let cut = cut(&text, meaning);
                let written = written(&text, &cut);
                assert_eq!(
                    items(&written.concat(), false),
                    items(&text, adds),
                    "{text}"
                );
                assert!(
                    !adds || !written.iter().any(|piece| comes_again(piece)),
                    "{text}"
                );
                let read = |piece: &String| 1 + items(piece, false).len();
                let entries = cut.pieces.iter().map(|piece| piece.entries);
                assert!(entries.eq(written.iter().map(read)), "{text}");
                split += usize::from(written.len() > text.matches("end").count());
            }
        }
        assert!(split > 1_000, "{split}");
    }

    #[test]
    fn runs_give_the_pieces_of_lines() {
        let mut random = Random(0x9e37_79b9);
        for _ in 0..5_000 {
            let text = random.text();
            for meaning in [Meaning::Guarded, Meaning::Geninfo, Meaning::AsWritten] {
                let (by_line, in_runs) = (cut(&text, meaning), cut_in_runs(&text, meaning));
                assert_eq!(by_line.pieces, in_runs.pieces, "{text}");
                assert_eq!(by_line.large_block, in_runs.large_block, "{text}");
            }
        }
    }

    #[test]
    fn pieces_of_a_printed_text_are_its_sections() {
        let text =
            "TN:\nSF:x\nDA:1,1\nend_of_record\nTN:t\nSF:y\nFN:1,g\nFN:2,f\nDA:1,1\nend_of_record\n";
        let pieces = cut_printed(text.as_bytes());
        let ordered = "SF:y\nFN:2,f\nFN:1,g\nDA:1,1\nend_of_record\n";
        let runs = pieces[1].runs.iter().map(|run| &text[run.range()]);
        assert_eq!(runs.collect::<String>(), ordered);
        let entries: Vec<usize> = pieces.iter().map(|piece| piece.entries).collect();
        assert_eq!(entries, [3, 5]);
        let pieces = Pieces {
            pieces,
            ..Pieces::default()
        };
        let sections: Vec<&str> = text.split_inclusive("end_of_record\n").collect();
        assert_eq!(written(text, &pieces), sections);
    }

    /// The files whose texts are in each group, given the test name and path of each file.
    fn grouped(keys: &[(&str, &str)]) -> Vec<Vec<usize>> {
        let texts = keys.iter().enumerate().map(|(file, (test, path))| Text {
            origin: Origin::Piece { file, piece: 0 },
            test: Some(test.as_bytes()),
            path: path.as_bytes(),
            body: b"",
            runs: (b"", &[]),
            entries: 1,
        });
        let groups = group(texts);
        let files = groups.iter().map(|group| {
            assert_eq!(group.entries(), group.texts.len());
            let files = group.texts.iter().map(|text| match text.origin {
                Origin::Joined => usize::MAX,
                Origin::Piece { file, .. } => file,
            });
            files.collect()
        });
        files.collect()
    }

    #[test]
    fn groups_are_in_key_order_and_have_their_texts_in_order() {
        let keys = [
            ("t", "a-b"),
            ("", "z"),
            ("t", "a//b"),
            ("t", "a/b"),
            ("t", "a-b"),
            ("t", "a//b"),
        ];
        assert_eq!(grouped(&keys), [vec![1], vec![2, 3, 5], vec![0, 4]]);
    }

    #[test]
    fn the_spellings_of_a_path_are_one_group_for_each_test_name() {
        let spellings = ["a/./b", "./a/b", "a/b/", "a/../b", "a//b", "a/b", "a/b/."];
        let keys = ["u", "t"].map(|test| spellings.map(|path| (test, path)));
        let [u, t] = [0, 7].map(|first| {
            [vec![1], vec![3], vec![0, 2, 4, 5, 6]]
                .map(|files| files.iter().map(|file| first + file).collect::<Vec<_>>())
        });
        assert_eq!(grouped(&keys.concat()), [t, u].concat());
    }
}
