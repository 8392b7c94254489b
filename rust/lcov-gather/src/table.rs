//! The totals as a table for people: a row for each section, the lowest share of lines last, and the sums.

use crate::counts::Counts;
use crate::sections::key_of;
use crate::shown::shown;

/// Numbers stand at the right of their column, names at the left.
const NUMBERS: usize = 4;
const COLUMNS: usize = NUMBERS + 2;

const HEADER: [&str; COLUMNS] = ["share", "lines", "functions", "branches", "test", "file"];
const TOTAL: &str = "total";

type Row = [String; COLUMNS];

/// The table of sections, each with its line of the page in the same order, and the sums of all. Rows of one share are in that order. What
/// has no lines comes first: a reader looks at the end, for what is to be tested better.
pub fn of<'a>(sections: impl Iterator<Item = (&'a [u8], &'a [u8])>, sums: Counts) -> Vec<u8> {
    let mut counted: Vec<(Counts, &[u8])> = sections
        .map(|(section, line)| (Counts::of(line).expect("a line of a page"), section))
        .collect();
    counted.sort_by(|(a, _), (b, _)| b.compare_shares(a));
    let mut rows = vec![HEADER.map(str::to_owned)];
    rows.extend(counted.iter().map(|(counts, section)| {
        let (test, path) = key_of(section);
        row(counts, shown(test), shown(path))
    }));
    rows.push(row(&sums, String::new(), TOTAL.to_owned()));
    aligned(&rows, NUMBERS).into_bytes()
}

fn row(counts: &Counts, test: String, file: String) -> Row {
    [
        percent(counts.lines.share()),
        counts.lines.to_string(),
        counts.functions.to_string(),
        counts.branches.to_string(),
        test,
        file,
    ]
}

pub fn percent(share: Option<u64>) -> String {
    match share {
        Some(share) => format!("{}.{}%", share / 10, share % 10),
        None => "-".to_owned(),
    }
}

/// Rows with a byte 10 after each: the first columns have numbers, the others names.
pub fn aligned<const COLUMNS: usize>(rows: &[[String; COLUMNS]], numbers: usize) -> String {
    let width = |column: usize| rows.iter().map(|row| row[column].chars().count()).max();
    let widths: [usize; COLUMNS] = std::array::from_fn(|column| width(column).unwrap_or(0));
    let mut text = String::new();
    for row in rows {
        let cells = row.iter().zip(widths).enumerate();
        let cells = cells.map(|(column, (cell, width))| match column < numbers {
            true => format!("{cell:>width$}"),
            false => format!("{cell:<width$}"),
        });
        let line: Vec<String> = cells.collect();
        text += line.join("  ").trim_end();
        text.push('\n');
    }
    text
}

#[cfg(test)]
mod tests {
    use super::*;

    fn section(test: &str, path: &str) -> Vec<u8> {
        format!("TN:{test}\nSF:{path}\nDA:1,1\nend_of_record\n").into_bytes()
    }

    fn table(sections: &[(&str, &str, &str)], sums: &str) -> String {
        let texts: Vec<Vec<u8>> = sections.iter().map(|(_, t, p)| section(t, p)).collect();
        let lines = sections.iter().map(|(counts, ..)| counts.as_bytes());
        let sections = texts.iter().map(Vec::as_slice).zip(lines);
        let sums = Counts::of(sums.as_bytes()).unwrap();
        String::from_utf8(of(sections, sums)).unwrap()
    }

    #[test]
    fn the_lowest_share_is_last_and_no_lines_are_first() {
        let printed = table(
            &[
                ("0/0 0/0 1/2 500", "", "half"),
                ("1/10 0/0 0/3 0", "t", "none"),
                ("0/0 0/0 0/0 -", "", "no lines"),
                ("0/0 0/0 2/2 1000", "long name", "all"),
                ("0/0 0/0 5/10 500", "u", "half again"),
            ],
            "1/10 0/0 8/17 470",
        );
        let expected = "
 share  lines  functions  branches  test       file
     -    0/0        0/0       0/0             no lines
100.0%    2/2        0/0       0/0  long name  all
 50.0%    1/2        0/0       0/0             half
 50.0%   5/10        0/0       0/0  u          half again
  0.0%    0/3       1/10       0/0  t          none
 47.0%   8/17       1/10       0/0             total
";
        assert_eq!(printed, expected[1..]);
    }

    #[test]
    fn names_are_escaped_and_a_table_may_have_no_sections() {
        let printed = table(&[("0/0 0/0 1/1 1000", "\x1b", "a\tb ")], "0/0 0/0 1/1 1000");
        let row = "100.0%    1/1        0/0       0/0  \\x1b  a\\x09b\n";
        assert!(printed.contains(row), "{printed}");
        let empty = "share  lines  functions  branches  test  file\n    -    0/0        0/0       0/0        total\n";
        assert_eq!(table(&[], "0/0 0/0 0/0 -"), empty);
    }
}
