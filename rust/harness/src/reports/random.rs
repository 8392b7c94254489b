//! Random texts and bundles, from few names, so that keys meet.

use super::bundles;
use crate::ranges::{self, List};
use crate::Rng;

const TESTS: [&str; 6] = ["", "a", "ab", "b", "é", "a,b"];

/// Some are the same path spelled otherwise, and some only look so.
#[rustfmt::skip]
const PATHS: [&str; 14] = [
    "a/b", "a//b", "a/./b", "a/b/", "a", "a/", "./a", "a-b", "/a", "//a/.", "", "..", ".", "名/x",
];
const NAMES: [&str; 8] = ["f", "g", "fg", "f,1", "", "-", "né", "G"];
const LINES: [&str; 8] = ["1", "2", "3", "0", "007", "10", "4294967295", "20"];
const COUNTS: [&str; 6] = ["0", "1", "2", "7", "0012", "99"];
const LARGE: [&str; 5] = [
    "18446744073709551615",
    "18446744073709551614",
    "9223372036854775808",
    "9223372036854775807",
    "1",
];
/// Few, so that many functions share one; the ends of what a start may be among them.
const CROWDED: [usize; 7] = [3, 7, 0, 4, u32::MAX as usize, 1, u32::MAX as usize - 1];
/// What stands between FN's first two commas and is no end line.
const NO_ENDS: [&str; 6] = ["", "+2", " 2", "2x", "4294967296x", "-"];
const CHECKSUMS: [&str; 4] = ["c1", "c2", "", "-"];
const OTHER_TAGS: [&str; 6] = ["FNF", "FNH", "BRF", "BRH", "LF", "LH"];

/// Of how many texts one gets a plus sign: it then leaves the comparison with the Rust.
const SIGN_ONE_IN: usize = 40;

/// Of how many questions one has end lines, which the Rust does not know.
const ENDS_ONE_IN: usize = 8;

/// How texts of one question are made: what is rare in all is common in some.
#[derive(Clone, Copy)]
pub struct Habit {
    /// Counts near 2^64.
    large: bool,
    /// Start lines and checksums of a key mostly agree.
    agreeing: bool,
    /// No section has a second SF, no end line is refused, and what mostly agrees always does.
    sound: bool,
    /// Many FN have an end line.
    ends: bool,
    /// Most items are functions, and many start on one line.
    crowded: bool,
    /// Lines and branches have any number, so that there are many of them.
    spread: bool,
    sections: usize,
    items: usize,
    /// How many of the test names, paths and function names are used: the fewer, the more keys meet.
    tests: usize,
    paths: usize,
    names: usize,
}

impl Habit {
    pub fn random(rng: &mut Rng) -> Self {
        let spread = rng.one_in(6);
        Habit {
            large: rng.one_in(4),
            agreeing: !rng.one_in(3),
            sound: false,
            ends: rng.one_in(ENDS_ONE_IN),
            crowded: false,
            spread,
            sections: 1 + rng.below(3),
            items: if spread { 24 } else { 10 },
            tests: 1 + rng.below(TESTS.len()),
            paths: 1 + rng.below(PATHS.len()),
            names: 1 + rng.below(NAMES.len()),
        }
    }

    /// For a gather that is accepted: of keys that several texts have.
    fn meeting(rng: &mut Rng) -> Self {
        Habit {
            large: rng.one_in(12),
            agreeing: true,
            sound: true,
            ends: rng.one_in(2),
            sections: 2 + rng.below(3),
            items: 6 + rng.below(16),
            tests: 1 + rng.below(2),
            paths: 2 + rng.below(6),
            ..Habit::random(rng)
        }
    }

    /// For a filter: of functions that start on one line.
    pub fn crowded(rng: &mut Rng) -> Self {
        Habit {
            ends: rng.one_in(3),
            crowded: true,
            spread: true,
            items: 6 + rng.below(24),
            ..Habit::random(rng)
        }
    }

    /// Whether something comes that a gather may refuse.
    fn is_unsound(self, rng: &mut Rng) -> bool {
        !self.sound && rng.one_in(40)
    }
}

// ---- texts

pub fn text(rng: &mut Rng, habit: Habit) -> Vec<u8> {
    let many = rng.below(habit.sections + 1);
    let mut lines = sections(rng, habit, many);
    if rng.one_in(6) {
        test_names(rng, habit, &mut lines);
    }
    if rng.one_in(6) {
        damage(rng, &mut lines);
    }
    if rng.one_in(SIGN_ONE_IN) {
        put_sign(rng, &mut lines);
    }
    let mut text = joined(rng, &lines);
    if rng.one_in(24) {
        change_a_byte(rng, &mut text);
    }
    text
}

fn sections(rng: &mut Rng, habit: Habit, many: usize) -> Vec<String> {
    let mut lines = Vec::new();
    for _ in 0..many {
        section(rng, habit, &mut lines);
    }
    lines
}

fn section(rng: &mut Rng, habit: Habit, lines: &mut Vec<String>) {
    if !rng.one_in(5) {
        test_names(rng, habit, lines);
    }
    let items = if rng.one_in(8) {
        0
    } else {
        rng.below(habit.items)
    };
    if !rng.one_in(6) {
        lines.push(source_file(rng, habit));
    }
    for _ in 0..items {
        lines.push(item(rng, habit));
    }
    if habit.is_unsound(rng) {
        lines.push(source_file(rng, habit));
    }
    lines.push("end_of_record".to_owned());
}

fn test_names(rng: &mut Rng, habit: Habit, lines: &mut Vec<String>) {
    for _ in 0..1 + rng.below(6) / 5 {
        lines.push(format!("TN:{}", few(rng, &TESTS[..habit.tests])));
    }
}

fn source_file(rng: &mut Rng, habit: Habit) -> String {
    format!("SF:{}", few(rng, &PATHS[..habit.paths]))
}

/// The first ones come more often than the others.
fn few<T: Copy>(rng: &mut Rng, among: &[T]) -> T {
    let past = 1 + rng.below(among.len());
    among[rng.below(past)]
}

fn item(rng: &mut Rng, habit: Habit) -> String {
    if habit.crowded && rng.one_in(2) {
        return function(rng, habit);
    }
    match rng.below(12) {
        0..3 => function(rng, habit),
        3..5 => calls(rng, habit),
        5..7 => branch(rng, habit),
        7..11 => line(rng, habit),
        _ => format!("{}:{}", rng.pick(&OTHER_TAGS), rng.below(9)),
    }
}

fn name(rng: &mut Rng, habit: Habit) -> String {
    if habit.spread {
        format!("{}{}", rng.pick(&NAMES), rng.below(20))
    } else {
        few(rng, &NAMES[..habit.names]).to_owned()
    }
}

fn function(rng: &mut Rng, habit: Habit) -> String {
    let name = name(rng, habit);
    // of few starts, so that some are those of other names
    let start = if habit.crowded {
        few(rng, &CROWDED)
    } else if habit.agreeing && !habit.is_unsound(rng) {
        name.len() % 3
    } else {
        rng.below(3)
    };
    let end = match rng.below(12) {
        0..7 if habit.ends => end_line(rng, habit, start),
        7 => format!("{},", rng.pick(&NO_ENDS)),
        _ => String::new(),
    };
    format!("FN:{start},{end}{name}")
}

/// With the comma behind it. Most are few, so that those of two texts are equal, larger or smaller.
fn end_line(rng: &mut Rng, habit: Habit, start: usize) -> String {
    let end = match rng.below(40) {
        0 if !habit.sound => (start.saturating_sub(1)).to_string(),
        1 if !habit.sound => "4294967296".to_owned(),
        2 => "4294967295".to_owned(),
        3 => format!("{:030}{}", 0, start + 1),
        // the name begins as an end line does
        4 => format!("{},{start}", start + 3),
        _ => (start + rng.below(4)).min(u32::MAX as usize).to_string(),
    };
    format!("{end},")
}

fn calls(rng: &mut Rng, habit: Habit) -> String {
    let count = count(rng, habit);
    // a name that begins as an end line does, as some FN have it
    let begun = match habit.ends && rng.one_in(8) {
        true => format!("{},", rng.below(3)),
        false => String::new(),
    };
    format!("FNDA:{count},{begun}{}", name(rng, habit))
}

fn branch(rng: &mut Rng, habit: Habit) -> String {
    let place = line_number(rng, habit);
    let (block, branch) = (rng.below(2), rng.below(3));
    let taken = if rng.one_in(3) {
        "-"
    } else {
        count(rng, habit)
    };
    format!("BRDA:{place},{block},{branch},{taken}")
}

fn line(rng: &mut Rng, habit: Habit) -> String {
    let place = line_number(rng, habit);
    let count = count(rng, habit);
    let checksum = match rng.below(5) {
        0..3 => return format!("DA:{place},{count}"),
        _ if habit.agreeing && !habit.is_unsound(rng) => CHECKSUMS[place.len() % 3],
        _ => rng.pick(&CHECKSUMS),
    };
    format!("DA:{place},{count},{checksum}")
}

fn line_number(rng: &mut Rng, habit: Habit) -> String {
    if habit.spread {
        rng.below(60).to_string()
    } else {
        few(rng, &LINES).to_owned()
    }
}

fn count(rng: &mut Rng, habit: Habit) -> &'static str {
    if habit.large && rng.one_in(3) {
        few(rng, &LARGE)
    } else {
        rng.pick(&COUNTS)
    }
}

fn joined(rng: &mut Rng, lines: &[String]) -> Vec<u8> {
    let end = if rng.one_in(10) { "\r\n" } else { "\n" };
    let mut text = Vec::new();
    for line in lines {
        text.extend_from_slice(line.as_bytes());
        text.extend_from_slice(end.as_bytes());
    }
    if rng.one_in(8) {
        text.pop();
    }
    text
}

// ---- damage

fn damage(rng: &mut Rng, lines: &mut Vec<String>) {
    if lines.is_empty() {
        return;
    }
    let place = rng.below(lines.len());
    let other = rng.below(lines.len());
    match rng.below(8) {
        0 => drop(lines.remove(place)),
        1 => lines.insert(other, lines[place].clone()),
        2 => lines.swap(place, other),
        3 => lines.truncate(place),
        _ => damage_line(rng, &mut lines[place]),
    }
}

fn damage_line(rng: &mut Rng, line: &mut String) {
    let comma = line.rfind(',');
    match (rng.below(5), comma) {
        (0, Some(comma)) => line.truncate(comma),
        (1, Some(comma)) => line.truncate(comma + 1),
        (2, _) => line.push_str(rng.pick(&[",", ",1", "x", " ", ":"])),
        (3, _) => {
            let colon = line.find(':').map_or(0, |colon| colon + 1);
            line.insert_str(colon, rng.pick(&[",", "x", "-", "+", "4294967296"]));
        }
        _ => line.push_str("99999999999999999999"),
    }
}

/// A plus sign before a field: most are numbers, some are texts.
fn put_sign(rng: &mut Rng, lines: &mut [String]) {
    if lines.is_empty() {
        return;
    }
    let line = rng.below(lines.len());
    let fields: Vec<usize> = lines[line]
        .match_indices([':', ','])
        .map(|(place, _)| place + 1)
        .collect();
    if !fields.is_empty() {
        lines[line].insert(rng.pick(&fields), '+');
    }
}

/// Few of them are then not UTF-8: the Rust can't be asked about those.
fn change_a_byte(rng: &mut Rng, text: &mut [u8]) {
    if text.is_empty() {
        return;
    }
    let place = rng.below(text.len());
    text[place] = if rng.one_in(6) {
        rng.byte()
    } else {
        rng.pick(b":,-+019 \n\rTNSFDABRHx")
    };
}

// ---- lines to be kept

/// A few ranges; now and then the list is not well formed.
pub fn lines_kept(rng: &mut Rng) -> List {
    let mut list = ranges::random::empty_list(rng);
    for _ in 0..rng.below(4) {
        let (start, end) = ranges::random::range(rng);
        put(&mut list, start, end);
    }
    if rng.one_in(12) {
        ranges::random::damage(rng, &mut list);
    }
    list
}

/// For a text with many equal starts: a line or two beside one of these, or any ranges.
pub fn lines_at_starts(rng: &mut Rng) -> List {
    if rng.one_in(3) {
        return lines_kept(rng);
    }
    let mut list = List::of_room(2);
    for _ in 0..1 + rng.below(2) {
        let start = few(rng, &CROWDED) + rng.below(3);
        let start = start.saturating_sub(1).min(u32::MAX as usize) as u32;
        put(&mut list, start, start.saturating_add(rng.below(2) as u32));
    }
    list
}

/// Inserts a range, unless the list is full.
fn put(list: &mut List, start: u32, end: u32) {
    let (answer, pairs) = ranges::expected::insert(list, start, end);
    if answer.number == 0 {
        *list = List {
            pairs,
            used: answer.words[0] as usize,
        };
    }
}

// ---- bundles

/// Texts of which some come twice.
pub fn texts(rng: &mut Rng) -> Vec<Vec<u8>> {
    let habit = Habit::random(rng);
    let mut texts: Vec<Vec<u8>> = Vec::new();
    for _ in 0..rng.below(6) {
        let text = if !texts.is_empty() && rng.one_in(4) {
            texts[rng.below(texts.len())].clone()
        } else {
            text(rng, habit)
        };
        texts.push(text);
    }
    texts
}

pub fn bundle(rng: &mut Rng) -> Vec<u8> {
    match rng.below(40) {
        0..24 => bundles::of(&texts(rng)),
        24..32 => overlapping(rng),
        32..39 => with_damaged_head(rng),
        _ => many(rng),
    }
}

/// A bundle of texts that are not damaged and have the same few keys.
pub fn meeting(rng: &mut Rng) -> Vec<u8> {
    let many = 1 + rng.below(4);
    bundles::of(&meeting_texts(rng, many))
}

pub fn meeting_texts(rng: &mut Rng, many: usize) -> Vec<Vec<u8>> {
    let habit = Habit::meeting(rng);
    let text = |_| {
        let lines = sections(rng, habit, habit.sections);
        joined(rng, &lines)
    };
    (0..many).map(text).collect()
}

/// A bundle of three texts in each order of them.
pub fn in_all_orders(rng: &mut Rng) -> Vec<Vec<u8>> {
    const ORDERS: [[usize; 3]; 6] = [
        [0, 1, 2],
        [0, 2, 1],
        [1, 0, 2],
        [1, 2, 0],
        [2, 0, 1],
        [2, 1, 0],
    ];
    let habit = Habit::random(rng);
    let texts = [(); 3].map(|()| text(rng, habit));
    ORDERS
        .iter()
        .map(|order| bundles::of(&order.map(|place| &texts[place])))
        .collect()
}

fn overlapping(rng: &mut Rng) -> Vec<u8> {
    let bytes = texts(rng).concat();
    parts_of(rng, &bytes, 4)
}

/// Up to so many texts that begin and end at lines of one stretch of bytes, or anywhere in it.
pub fn parts_of(rng: &mut Rng, bytes: &[u8], most: usize) -> Vec<u8> {
    let places = places_to_cut(bytes);
    let named: Vec<(usize, usize)> = (0..rng.below(most + 1))
        .map(|_| {
            let (a, b) = if rng.one_in(20) {
                (rng.below(bytes.len() + 1), rng.below(bytes.len() + 1))
            } else {
                (rng.pick(&places), rng.pick(&places))
            };
            (a.min(b), a.abs_diff(b))
        })
        .collect();
    bundles::encoded(bytes, &named)
}

/// Both ends, and where sections end.
fn places_to_cut(bytes: &[u8]) -> Vec<usize> {
    const END: &[u8] = b"end_of_record\n";
    let mut places = vec![0, bytes.len()];
    places.extend((END.len()..bytes.len()).filter(|&place| bytes[..place].ends_with(END)));
    places
}

fn with_damaged_head(rng: &mut Rng) -> Vec<u8> {
    let texts = texts(rng);
    let mut bundle = bundles::of(&texts);
    match rng.below(6) {
        0 => bundle.truncate(rng.below(bundle.len())),
        1 => bundle.push(rng.byte() & 0x7f),
        2 => bundle.insert(0, 0),
        3 => bundle.clear(),
        _ => {
            let place = rng.below(bundles::head_len(texts.len()));
            bundle[place] = match rng.below(3) {
                0 => bundle[place].wrapping_add(1),
                1 => bundle[place].wrapping_sub(1),
                _ => rng.byte(),
            };
        }
    }
    bundle
}

/// As many texts as a bundle may name, one fewer or one more, most of them the same few.
fn many(rng: &mut Rng) -> Vec<u8> {
    let bytes = texts(rng).concat();
    let places = places_to_cut(&bytes);
    let texts = bundles::MAX_TEXTS - 1 + rng.below(3);
    let named: Vec<(usize, usize)> = (0..texts)
        .map(|_| {
            let start = rng.pick(&places);
            (start, bytes.len() - start)
        })
        .collect();
    bundles::encoded(&bytes, &named)
}

#[cfg(test)]
mod tests {
    use super::*;
    use crate::ends::{taken_out, END_BEFORE_START};
    use crate::expected::Basis;
    use crate::interface::{Filter, Starts};
    use crate::plus::SIGNED_NUMBER;
    use crate::reports::expected::{Expected, NOT_WELL_FORMED, RANGES_NOT_WELL_FORMED};
    use crate::reports::reference::{self, EndOf, Entries, SECOND_PATH};
    use crate::reports::Asked;
    use oracle::Mode;
    use std::collections::HashSet;

    /// The numbers that are answered to many questions, made from a seed.
    fn numbers(ask: impl Fn(&mut Rng) -> Option<Expected>) -> HashSet<u32> {
        oracle::hush_overflow();
        let mut rng = Rng::new(5);
        (0..20_000)
            .filter_map(|_| ask(&mut rng))
            .map(|expected| expected.told.map_or_else(|refusal| refusal.number, |_| 0))
            .collect()
    }

    #[test]
    fn texts_meet_every_refusal_of_a_reading() {
        let met = numbers(|rng| {
            let habit = Habit::random(rng);
            Expected::of(Asked::Text(&text(rng, habit)))
        });
        let others = [SIGNED_NUMBER, END_BEFORE_START, SECOND_PATH];
        assert_eq!(met, HashSet::from_iter((0..=9).chain(others)));
    }

    #[test]
    fn few_texts_leave_the_comparison() {
        oracle::hush_overflow();
        let mut rng = Rng::new(5);
        let mut counts = [0; 2];
        for _ in 0..10_000 {
            let habit = Habit::random(&mut rng);
            let text = text(&mut rng, habit);
            match Expected::of(Asked::Text(&text)).map(|expected| expected.basis) {
                Some(Basis::Refusal) => counts[0] += 1,
                Some(Basis::Ends) => counts[1] += 1,
                Some(Basis::Rust | Basis::Starts | Basis::Page | Basis::Windows) | None => {}
            }
        }
        for apart in counts {
            assert!((200..1_000).contains(&apart), "{counts:?}");
        }
    }

    fn filter<'a>(starts: Starts, text: &'a [u8], list: &'a List) -> Asked<'a> {
        Asked::Filter(Filter { starts, text, list })
    }

    #[test]
    fn filters_meet_every_refusal_of_a_filter() {
        let others = [
            RANGES_NOT_WELL_FORMED,
            SIGNED_NUMBER,
            END_BEFORE_START,
            SECOND_PATH,
        ];
        for habit in [Habit::random, Habit::crowded] {
            let met = numbers(|rng| {
                let habit = habit(rng);
                let text = text(rng, habit);
                Expected::of(filter(Starts::Distinct, &text, &lines_kept(rng)))
            });
            assert_eq!(met, HashSet::from_iter((0..=9).chain(others)));
        }
    }

    #[test]
    fn bundles_meet_every_refusal_of_a_gather() {
        let met = numbers(|rng| Expected::of(Asked::Bundle(Mode::Checked, &bundle(rng))));
        let others = [
            NOT_WELL_FORMED,
            SIGNED_NUMBER,
            END_BEFORE_START,
            SECOND_PATH,
        ];
        let others = (11..=13).chain(others);
        assert_eq!(met, HashSet::from_iter((0..=9).chain(others)));
    }

    #[test]
    fn end_lines_meet_every_answer() {
        let ends = |expected: Expected| (expected.basis == Basis::Ends).then_some(expected);
        let of_texts = numbers(|rng| {
            let habit = Habit::random(rng);
            Expected::of(Asked::Text(&text(rng, habit))).and_then(ends)
        });
        let wanted = HashSet::from([0, 6, 7, 8, 9, END_BEFORE_START]);
        assert!(of_texts.is_superset(&wanted), "{of_texts:?}");
        for (mode, conflicts) in [(Mode::Checked, 11..14), (Mode::Lossy, 13..14)] {
            let of_bundles =
                numbers(|rng| Expected::of(Asked::Bundle(mode, &bundle(rng))).and_then(ends));
            let wanted = HashSet::from_iter(conflicts.chain([0, 6, 9, END_BEFORE_START]));
            assert!(of_bundles.is_superset(&wanted), "{of_bundles:?}");
        }
    }

    /// A function stays, or goes, that would not if its end were reckoned.
    #[test]
    fn end_lines_decide_about_filters() {
        oracle::hush_overflow();
        let mut rng = Rng::new(5);
        let mut counts = [0; 2];
        for _ in 0..20_000 {
            let habit = Habit::random(&mut rng);
            let (text, list) = (text(&mut rng, habit), lines_kept(&mut rng));
            let asked = filter(Starts::All, &text, &list);
            let told = Expected::of(asked).map(|expected| expected.told);
            let pairs = list.held().map(ranges::expected::told);
            if let (Some(Ok(own)), Some(pairs)) = (told, pairs) {
                let reckoned = oracle::filter(&taken_out(&text), &pairs).unwrap();
                counts[0] += usize::from(functions(&own) > functions(&reckoned));
                counts[1] += usize::from(functions(&own) < functions(&reckoned));
            }
        }
        assert!(counts.iter().all(|&count| count > 20), "{counts:?}");
    }

    /// The end at the next greater start itself, and that of a filter which looks no further than the next function but one.
    const WRONG_ENDS: [EndOf; 2] = [
        |start, behind| {
            let next = behind.iter().find(|&&next| next > start);
            next.copied().unwrap_or(u32::MAX)
        },
        |start, behind| {
            let next = behind.iter().take(2).find(|&&next| next > start);
            next.map_or(u32::MAX, |next| next - 1)
        },
    ];

    /// Other functions stay by another rule: that of all starts, or a wrong one.
    #[test]
    fn rules_differ_on_crowded_texts() {
        let mut rng = Rng::new(5);
        let [all, distinct] = Starts::BOTH.map(reference::end_by);
        let rules = [&[distinct, all], &WRONG_ENDS[..]].concat();
        let mut counts = [0; 4];
        for _ in 0..10_000 {
            let habit = Habit::crowded(&mut rng);
            let (text, list) = (text(&mut rng, habit), lines_at_starts(&mut rng));
            if std::str::from_utf8(&text).is_err() {
                continue;
            }
            let read = reference::read(&text, &mut Entries::limited(usize::MAX));
            if let (Ok(sections), Some(pairs)) = (read, list.held()) {
                let kept = |end_of: &EndOf| {
                    let mut sections = sections.clone();
                    reference::filter(&mut sections, pairs, *end_of);
                    reference::printed(sections)
                };
                let kept: Vec<Vec<u8>> = rules.iter().map(kept).collect();
                for (count, other) in counts.iter_mut().zip(&kept) {
                    *count += usize::from(*other != kept[0]);
                }
            }
        }
        assert_eq!(counts[0], 0);
        assert!(counts[1..].iter().all(|&count| count > 200), "{counts:?}");
    }

    fn functions(printed: &[u8]) -> usize {
        printed
            .split(|&byte| byte == b'\n')
            .filter(|line| line.starts_with(b"FN:"))
            .count()
    }
}
