//! The comparison: a bundle that the checked gather accepts is cut before adding and after it. Both ways must be accepted, with one length of
//! scratch in all calls and outputs that are long enough, and keep the same lines and branches.

use super::kept::{functions, is_same, sections};
use super::recorded::Recorded;
use super::tally::Tally;
use super::{Calls, Printed, Question};
use crate::compare::{shown, BYTES_PAST};
use crate::differences::Difference;
use crate::guarded::{self, Lengths};
use crate::interface::{Starts, MAX_ENTRIES, WORDS, WORDS_PER_ENTRY};
use crate::ranges::List;
use crate::reports::{bundles, reference, Asked};
use crate::tagged::tables::loaded;
use crate::tagged::translated::{Change, Inwards, Outwards};
use crate::with_scratch;
use oracle::Mode;

/// What all calls of a question share.
#[derive(Clone, Copy)]
struct Shared<'a> {
    table: Option<&'a [u8]>,
    /// Words of scratch, and so one limit of entries.
    scratch: usize,
}

impl Shared<'_> {
    /// What was printed, in default tags.
    fn in_default(self, printed: &[u8]) -> Vec<u8> {
        match self.table.map(loaded) {
            Some(tags) => Inwards(tags.expect("a table that loads")).text(printed),
            None => printed.to_vec(),
        }
    }
}

pub type Comparison<P> = with_scratch::Comparison<P, Tally>;

impl<P: Calls> Comparison<P> {
    /// A bundle in default tags; it is asked in those of the table, where there is one.
    pub fn bundle(&mut self, table: Option<&[u8]>, bundle: &[u8], list: &List) {
        let bundle = match table.map(loaded) {
            Some(tags) => Outwards(tags.expect("a table that loads")).bundle(bundle),
            None => bundle.to_vec(),
        };
        let Some(fewest) = self.fewest_entries(table, &bundle) else {
            self.tally.refused += 1;
            return;
        };
        self.tally.accepted += 1;
        self.tally.with_table += u64::from(table.is_some());
        let scratch = self.some_scratch(fewest);
        for starts in Starts::BOTH {
            let question = Question {
                bundle: &bundle,
                list,
                starts,
            };
            self.both_ways(question, Shared { table, scratch });
        }
    }

    /// The bytes of both ways came when they were recorded, by either filter, since the starts of each section differ.
    pub fn recorded(&mut self, recorded: &Recorded) {
        let (bundle, list) = (recorded.bundle(), recorded.list());
        self.bundle(None, &bundle, &list);
        let shared = Shared {
            table: None,
            scratch: ample_entries(&bundle) * WORDS_PER_ENTRY,
        };
        for starts in Starts::BOTH {
            let question = Question {
                bundle: &bundle,
                list: &list,
                starts,
            };
            let cut_first = question.cut_first(|asked| self.print(asked, shared));
            self.as_recorded(question, shared, &recorded.cut_first, cut_first);
            let add_first = question.add_first(|asked| self.print(asked, shared));
            self.as_recorded(question, shared, &recorded.add_first, add_first);
        }
    }

    fn as_recorded(&mut self, question: Question, shared: Shared, wanted: &[u8], came: Printed) {
        self.tally.recorded += 1;
        if came.as_deref() != Ok(wanted) {
            let wanted = format!("as recorded, {}", shown(wanted));
            self.differ(question, shared, wanted, shown_way(&came));
        }
    }

    // ---- entries

    /// The fewest with which the bundle is accepted; None where it is refused with any number of them.
    fn fewest_entries(&mut self, table: Option<&[u8]>, bundle: &[u8]) -> Option<usize> {
        let mut accepts = |entries: usize| {
            let scratch = entries * WORDS_PER_ENTRY;
            let asked = Asked::Bundle(Mode::Checked, bundle);
            self.print(asked, Shared { table, scratch }).is_ok()
        };
        let (mut least, mut most) = (0, ample_entries(bundle));
        if !accepts(most) {
            return None;
        }
        while least < most {
            let middle = (least + most) / 2;
            match accepts(middle) {
                true => most = middle,
                false => least = middle + 1,
            }
        }
        Some(most)
    }

    /// Often no more than the gather needs: a section that was emptied is an entry while it is read.
    fn some_scratch(&mut self, fewest: usize) -> usize {
        let entries = match self.rng.below(3) {
            0 => fewest + self.rng.below(20),
            _ => fewest,
        };
        self.tally.at_the_limit += u64::from(entries == fewest);
        entries * WORDS_PER_ENTRY + self.rng.below(WORDS_PER_ENTRY)
    }

    // ---- both ways

    fn both_ways(&mut self, question: Question, shared: Shared) {
        let cut_first = question.cut_first(|asked| self.print(asked, shared));
        let mut emptied = 0;
        let add_first = question.add_first(|asked| {
            let printed = self.print(asked, shared);
            if let (Asked::Text(cut), Ok(read)) = (asked, &printed) {
                let [before, after] = [cut, read].map(|text| many_sections(text, shared));
                emptied = before.saturating_sub(after);
            }
            printed
        });
        let ways = &mut self.tally.ways[question.starts as usize];
        ways.emptied += emptied;
        let same = match (&cut_first, &add_first) {
            (Ok(cut_first), Ok(add_first)) => self.is_same_kept(
                question.starts,
                &shared.in_default(cut_first),
                &shared.in_default(add_first),
            ),
            _ => {
                ways.refused += 1;
                false
            }
        };
        if !same {
            let wanted = format!("as added, then cut: {}", shown_way(&add_first));
            let came = format!("cut, then added: {}", shown_way(&cut_first));
            self.differ(question, shared, wanted, came);
        }
    }

    fn is_same_kept(&mut self, starts: Starts, cut_first: &[u8], add_first: &[u8]) -> bool {
        let (cut, added) = (sections(cut_first), sections(add_first));
        let is_spelled_same = is_same(&cut, &added, |a, b| a == b);
        let ways = &mut self.tally.ways[starts as usize];
        ways.compared += 1;
        ways.same_bytes += u64::from(cut_first == add_first);
        ways.functions += u64::from(functions(cut_first) != functions(add_first));
        for section in &added {
            ways.sections += 1;
            ways.lines += section.lines.len() as u64;
            ways.branches += section.branches.len() as u64;
        }
        let is_same = is_same(&cut, &added, |a, b| self.port.is_same_path(a, b));
        ways.spelled += u64::from(is_same && !is_spelled_same);
        is_same
    }

    // ---- calls

    /// What a call prints into an output that is long enough.
    fn print(&mut self, asked: Asked, shared: Shared) -> Printed {
        let port = &self.port;
        let printed = guarded::printed(2 * asked.bytes().len() + BYTES_PAST, |room| {
            self.tally.calls += 1;
            let lengths = Lengths {
                scratch: shared.scratch,
                room,
                marks: 0,
                words: WORDS,
            };
            self.scratch.call(lengths, &mut self.rng, |lent| {
                port.call(shared.table, asked, lent)
            })
        });
        printed.map_err(|answer| answer.number)
    }

    fn differ(&mut self, question: Question, shared: Shared, wanted: String, came: String) {
        let Question {
            bundle,
            list,
            starts,
        } = question;
        let Shared { table, scratch } = shared;
        let table = table.map_or_else(String::new, |table| format!(", table {}", shown(table)));
        self.differences.add(bundle.len(), || Difference {
            asked: format!(
                "bundle {}, cut by {list:?} and {starts:?} starts, scratch of {scratch} words{table}",
                shown(bundle),
            ),
            rust: wanted,
            port: came,
        });
    }
}

/// Enough for any reading: a line makes an entry at most, and opens a section.
fn ample_entries(bundle: &[u8]) -> usize {
    let texts = bundles::decoded(bundle).unwrap_or_default();
    let lines = texts.into_iter().map(|text| reference::lines(text).count());
    (2 * lines.sum::<usize>()).min(MAX_ENTRIES)
}

fn many_sections(printed: &[u8], shared: Shared) -> u64 {
    let printed = shared.in_default(printed);
    let lines = printed.split(|&byte| byte == b'\n');
    lines.filter(|line| *line == b"end_of_record").count() as u64
}

fn shown_way(way: &Printed) -> String {
    match way {
        Ok(printed) => shown(printed),
        Err(number) => format!("refused {number}"),
    }
}

#[cfg(test)]
mod tests {
    use super::*;
    use crate::cutting::{random, recorded};
    use crate::expected::{path_order, refused, Answer};
    use crate::interface::{Filter, HalfOpen, Lent, Ranges, EQUAL};
    use crate::ranges::expected;
    use crate::reports::expected::Expected;
    use crate::stand_in;
    use crate::Rng;
    use oracle::Refusal;

    /// What a port could do wrong.
    #[derive(Debug, Clone, Copy, PartialEq)]
    enum Wrong {
        Nothing,
        FilterDropsLine,
        DistinctDropsLine,
        TaggedDropsLine,
        FilterKeepsBranch,
        FilterOneEntryFewer,
        GatherSpellsOtherwise,
        PathsByBytes,
        InsertLosesLast,
        QueryMissesLast,
        HalfOpenAtZero,
    }

    /// Answers as expected, save for what is wrong.
    struct StandIn(Wrong);

    impl StandIn {
        fn told(&self, with_table: bool, asked: Asked, entries: usize) -> Result<Vec<u8>, Answer> {
            // one that is not UTF-8 is not asked: it is refused as if a tag were unknown
            let unknown = refused(Refusal::numbered(1));
            let fewer = match (self.0, asked) {
                (Wrong::FilterOneEntryFewer, Asked::Filter(_)) => 1,
                _ => 0,
            };
            let printed = Expected::of(asked)
                .ok_or(unknown)?
                .limited(asked, entries.saturating_sub(fewer))
                .map_err(refused)?;
            Ok(match (self.0, asked) {
                (Wrong::FilterDropsLine, Asked::Filter(_)) => without_first_line(&printed),
                (Wrong::DistinctDropsLine, Asked::Filter(filter))
                    if filter.starts == Starts::Distinct =>
                {
                    without_first_line(&printed)
                }
                (Wrong::TaggedDropsLine, Asked::Filter(_)) if with_table => {
                    without_first_line(&printed)
                }
                (Wrong::FilterKeepsBranch, Asked::Filter(filter)) => {
                    with_branches(filter, &printed)
                }
                (Wrong::GatherSpellsOtherwise, Asked::Bundle(..)) => replaced(&printed, "//", "/"),
                _ => printed,
            })
        }
    }

    fn lines(printed: &[u8]) -> impl Iterator<Item = &[u8]> {
        printed.split_inclusive(|&byte| byte == b'\n')
    }

    fn without_first_line(printed: &[u8]) -> Vec<u8> {
        let first = lines(printed).position(|line| line.starts_with(b"DA:"));
        let others = lines(printed)
            .enumerate()
            .filter(|&(place, _)| Some(place) != first);
        others.flat_map(|(_, line)| line.to_vec()).collect()
    }

    /// With all branches of the text that have no taken count, held or not.
    fn with_branches(filter: Filter, printed: &[u8]) -> Vec<u8> {
        let report = Expected::of(Asked::Text(filter.text)).expect("UTF-8").told;
        let kept: Vec<&[u8]> = lines(printed).collect();
        let stays = |line: &&[u8]| {
            let is_item = ["FN", "BRDA:", "DA:"]
                .iter()
                .any(|tag| line.starts_with(tag.as_bytes()));
            let is_untaken = line.starts_with(b"BRDA:") && line.ends_with(b",-\n");
            !is_item || is_untaken || kept.contains(line)
        };
        let report = report.expect("a text that was filtered");
        lines(&report).filter(stays).flatten().copied().collect()
    }

    fn replaced(printed: &[u8], was: &str, is: &str) -> Vec<u8> {
        let printed = std::str::from_utf8(printed).expect("UTF-8");
        printed.replace(was, is).into_bytes()
    }

    impl Calls for StandIn {
        fn call(&self, table: Option<&[u8]>, asked: Asked, lent: Lent) -> u32 {
            let entries = lent.scratch.len() / WORDS_PER_ENTRY;
            let told = match table.map(|table| loaded(table).unwrap()) {
                None => self.told(false, asked, entries),
                Some(tags) => {
                    let default = match asked {
                        Asked::Bundle(_, bundle) => Inwards(tags).bundle(bundle),
                        _ => Inwards(tags).text(asked.bytes()),
                    };
                    let told = self.told(true, asked.of(&default), entries);
                    told.map(|printed| Outwards(tags).text(&printed))
                }
            };
            let told = told.as_deref().map_err(|answer| *answer);
            stand_in::Wrong::Nothing.print(told, lent.out, lent.answer)
        }

        fn is_same_path(&self, a: &[u8], b: &[u8]) -> bool {
            match self.0 {
                Wrong::PathsByBytes => a == b,
                _ => path_order(a, b) == EQUAL,
            }
        }
    }

    impl Ranges for StandIn {
        fn insert_range(&self, list: &mut List, start: u32, end: u32, words: &mut [u64]) -> u32 {
            let end = match self.0 {
                Wrong::InsertLosesLast if start < end => end - 1,
                _ => end,
            };
            let (answer, pairs) = expected::insert(list, start, end);
            list.pairs = pairs;
            stand_in::Wrong::Nothing.answer(answer, words)
        }

        fn query_range(&self, list: &List, start: u32, end: u32, words: &mut [u64]) -> u32 {
            let mut answer = expected::query(list, start, end);
            let at_the_end = |held: &[[u32; 2]]| held.iter().any(|&[_, last]| last == start);
            if self.0 == Wrong::QueryMissesLast && list.held().is_some_and(at_the_end) {
                answer.words[0] = 0;
            }
            stand_in::Wrong::Nothing.answer(answer, words)
        }
    }

    impl HalfOpen for StandIn {
        fn half_open(&self, a: u32, b: u32, words: &mut [u64]) {
            let past = match self.0 {
                Wrong::HalfOpenAtZero => b,
                _ => b.max(1),
            };
            words[..2].copy_from_slice(&[a.into(), past.wrapping_sub(1).into()]);
        }
    }

    /// So many that each wrong port is seen.
    const QUESTIONS: usize = 600;

    fn compared(wrong: Wrong) -> Comparison<StandIn> {
        oracle::hush_overflow();
        let mut comparison = Comparison::new(StandIn(wrong), 1);
        let mut rng = Rng::new(1);
        for _ in 0..QUESTIONS {
            random::ask(&mut comparison, &mut rng);
        }
        comparison
    }

    #[test]
    fn a_port_that_answers_as_expected_has_no_differences() {
        let comparison = compared(Wrong::Nothing);
        assert_eq!(comparison.differences.count, 0);
        let tally = comparison.tally;
        assert_eq!(tally.accepted + tally.refused, QUESTIONS as u64);
        assert!(tally.accepted > 2 * tally.refused && tally.refused > 0);
        assert!(tally.at_the_limit > 100 && tally.with_table > 20);
        for ways in tally.ways {
            assert_eq!((ways.compared, ways.refused), (tally.accepted, 0));
            assert!(ways.same_bytes > 100 && ways.spelled > 3 && ways.functions > 20);
            assert!(ways.emptied > 100 && ways.lines > 400 && ways.branches > 300);
        }
        let lists = tally.lists;
        assert!(lists.dropped > 50 && lists.inserted > 3 * lists.dropped && lists.refused > 20);
        assert!(lists.held > 400 && lists.not_held > 400);
    }

    #[test]
    fn whatever_a_port_does_wrong_is_seen() {
        for wrong in [
            Wrong::FilterDropsLine,
            Wrong::DistinctDropsLine,
            Wrong::TaggedDropsLine,
            Wrong::FilterKeepsBranch,
            Wrong::FilterOneEntryFewer,
            Wrong::PathsByBytes,
            Wrong::InsertLosesLast,
            Wrong::QueryMissesLast,
            Wrong::HalfOpenAtZero,
        ] {
            let seen = compared(wrong).differences.count;
            assert!(seen > 0, "{wrong:?} is not seen");
        }
    }

    fn differences_of_recorded(wrong: Wrong) -> u64 {
        let mut comparison = Comparison::new(StandIn(wrong), 1);
        for recorded in recorded::read(&recorded::files()).expect("all cases") {
            comparison.recorded(&recorded);
        }
        assert_eq!(comparison.tally.recorded, 12);
        comparison.differences.count
    }

    /// The bytes are compared: the lines and branches are the same in any spelling.
    #[test]
    fn other_bytes_than_the_recorded_ones_are_seen() {
        assert_eq!(differences_of_recorded(Wrong::Nothing), 0);
        assert_eq!(differences_of_recorded(Wrong::GatherSpellsOtherwise), 2);
        assert_eq!(compared(Wrong::GatherSpellsOtherwise).differences.count, 0);
    }
}
