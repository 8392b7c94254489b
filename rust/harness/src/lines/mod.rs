//! Questions about lines: systematic ones, which every run asks, and random ones.

pub mod exhaustive;
pub mod mutated;
pub mod random;
pub mod values;

/// What a field holds.
#[derive(Debug, Clone, Copy, PartialEq, Eq)]
pub enum Form {
    /// To the end of the line, commas included.
    Text,
    U32,
    U64,
    /// A u64, or "-" for none.
    Taken,
    /// A text that may be absent, or "-" for none.
    Checksum,
}

impl Form {
    pub fn is_text(self) -> bool {
        matches!(self, Form::Text | Form::Checksum)
    }
}

#[derive(Clone, Copy)]
pub struct Layout {
    pub tag: &'static str,
    pub fields: &'static [Form],
}

/// SPEC 2.4's table of fields, in the order of `RecordKind`.
pub const LAYOUTS: [Layout; 13] = {
    use Form::{Checksum, Taken, Text, U32, U64};
    [
        layout("TN", &[Text]),
        layout("SF", &[Text]),
        layout("FN", &[U32, Text]),
        layout("FNDA", &[U64, Text]),
        layout("FNF", &[U32]),
        layout("FNH", &[U32]),
        layout("BRDA", &[U32, U32, U32, Taken]),
        layout("BRF", &[U32]),
        layout("BRH", &[U32]),
        layout("DA", &[U32, U64, Checksum]),
        layout("LF", &[U32]),
        layout("LH", &[U32]),
        layout("end_of_record", &[]),
    ]
};

const fn layout(tag: &'static str, fields: &'static [Form]) -> Layout {
    Layout { tag, fields }
}

/// Where lines go to.
pub type Visit<'a> = &'a mut dyn FnMut(&[u8]);

/// The tag, ':' and the fields with commas between them; without fields the tag alone.
pub fn line_of<F: AsRef<[u8]>>(tag: &str, fields: &[F]) -> Vec<u8> {
    let mut line = tag.as_bytes().to_vec();
    for (place, field) in fields.iter().enumerate() {
        line.push(if place == 0 { b':' } else { b',' });
        line.extend_from_slice(field.as_ref());
    }
    line
}

/// The line without the bytes 10 and 13 at its end.
pub fn trimmed(line: &[u8]) -> &[u8] {
    let is_end = |byte: &&u8| matches!(byte, b'\n' | b'\r');
    &line[..line.len() - line.iter().rev().take_while(is_end).count()]
}

/// The lines that every run asks.
pub fn systematic(visit: Visit) {
    exhaustive::all(visit);
    mutated::all(visit);
}

#[cfg(test)]
mod tests {
    use super::*;
    use crate::ends::{END_BEFORE_START, NUMBER_TOO_LARGE};
    use crate::expected::Expected;
    use crate::tally::Tally;
    use crate::Rng;

    pub fn tallied(ask: impl FnOnce(Visit)) -> Tally {
        let mut tally = Tally::default();
        ask(&mut |line| tally.count_line(&Expected::of(line)));
        tally
    }

    /// Every kind of answer inside the domain comes, and often.
    fn assert_all_answers(tally: &Tally, at_least: u64) {
        let with_end = [0, NUMBER_TOO_LARGE, END_BEFORE_START];
        let counts = tally
            .read
            .iter()
            .chain(&tally.refused)
            .chain([&tally.apart])
            .chain(with_end.map(|number| &tally.with_end[number as usize]));
        assert!(counts.min().unwrap() >= &at_least, "{tally}");
    }

    #[test]
    fn the_layouts_are_in_the_order_of_the_kinds() {
        for (place, layout) in LAYOUTS.iter().enumerate() {
            let fields: Vec<&str> = layout.fields.iter().map(|_| "1").collect();
            let kind = oracle::read_line(&line_of(layout.tag, &fields))
                .unwrap()
                .kind();
            assert_eq!(kind as usize, place);
            assert_eq!(kind.as_str(), layout.tag);
        }
    }

    #[test]
    fn systematic_lines_get_every_answer() {
        let exhaustive = tallied(exhaustive::all);
        assert_all_answers(&exhaustive, 250);
        assert_eq!(exhaustive.outside, [0, 0]);
        assert_all_answers(&tallied(mutated::all), 50);
    }

    #[test]
    fn random_lines_get_every_answer() {
        let mut rng = Rng::new(1);
        let tally = tallied(|visit| {
            for _ in 0..100_000 {
                visit(&random::line(&mut rng));
            }
        });
        assert_all_answers(&tally, 200);
        assert!(tally.outside.iter().all(|&count| count > 200), "{tally}");
    }

    #[test]
    fn a_seed_gives_the_same_lines() {
        let lines = |seed| {
            let mut rng = Rng::new(seed);
            (0..100).map(|_| random::line(&mut rng)).collect::<Vec<_>>()
        };
        assert_eq!(lines(3), lines(3));
        assert_ne!(lines(3), lines(4));
    }
}
