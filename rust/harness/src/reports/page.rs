//! The page of totals of a report, counted from its entries. A printed report has an FNDA for each function, a BRDA for each branch and a DA for
//! each line, so these are counted, and FNF, FNH, BRF, BRH, LF and LH are not looked at.

use std::io::Write;
use std::ops::AddAssign;

#[derive(Clone, Copy, Default)]
struct Count {
    hit: u64,
    found: u64,
}

impl Count {
    /// One more is found, and hit where its printed count is none of these.
    fn add(&mut self, count: &[u8]) {
        self.found += 1;
        self.hit += u64::from(!matches!(count, b"0" | b"-"));
    }
}

#[derive(Clone, Copy, Default)]
struct Totals {
    functions: Count,
    branches: Count,
    lines: Count,
}

impl Totals {
    fn counts(&mut self) -> [&mut Count; 3] {
        [&mut self.functions, &mut self.branches, &mut self.lines]
    }

    fn print(mut self, page: &mut Vec<u8>) {
        for Count { hit, found } in self.counts() {
            write!(page, "{hit}/{found} ").expect("memory takes all");
        }
        let Count { hit, found } = self.lines;
        let share = (1000 * hit).checked_div(found);
        let share = share.map_or_else(|| "-".to_owned(), |share| share.to_string());
        page.extend_from_slice(share.as_bytes());
    }
}

impl AddAssign for Totals {
    fn add_assign(&mut self, mut other: Totals) {
        for (sum, count) in self.counts().into_iter().zip(other.counts()) {
            sum.hit += count.hit;
            sum.found += count.found;
        }
    }
}

/// The page of a report that is printed in default tags.
pub fn of(report: &[u8]) -> Vec<u8> {
    let (mut page, mut all, mut open) = (Vec::new(), Totals::default(), Totals::default());
    let mut names = Vec::new();
    for line in report.split(|&byte| byte == b'\n') {
        let (tag, body) = split_at(line, b':');
        match tag {
            b"TN" | b"SF" => names.push(body),
            b"FNDA" => open.functions.add(split_at(body, b',').0),
            b"BRDA" => open.branches.add(field(body, 3)),
            b"DA" => open.lines.add(field(body, 1)),
            b"end_of_record" => {
                open.print(&mut page);
                for name in names.drain(..) {
                    page.extend([b" ", name].concat());
                }
                page.push(b'\n');
                all += std::mem::take(&mut open);
            }
            _ => {}
        }
    }
    all.print(&mut page);
    page.push(b'\n');
    page
}

/// The lines that are hit and found in such a report, of all sections.
pub fn hit_and_found(report: &[u8]) -> (u64, u64) {
    let mut lines = Count::default();
    for line in report.split(|&byte| byte == b'\n') {
        if let (b"DA", body) = split_at(line, b':') {
            lines.add(field(body, 1));
        }
    }
    (lines.hit, lines.found)
}

/// The entries of such a report: its sections, and all that is in them.
pub fn entries(report: &[u8]) -> u64 {
    let tags = report
        .split(|&byte| byte == b'\n')
        .map(|line| split_at(line, b':').0);
    let entries = tags.filter(|tag| matches!(*tag, b"end_of_record" | b"FNDA" | b"BRDA" | b"DA"));
    entries.count() as u64
}

fn field(body: &[u8], place: usize) -> &[u8] {
    let mut fields = body.split(|&byte| byte == b',');
    fields.nth(place).expect("a printed record has its fields")
}

/// What is before the first such byte and what is after it.
fn split_at(line: &[u8], byte: u8) -> (&[u8], &[u8]) {
    match line.iter().position(|&other| other == byte) {
        Some(place) => (&line[..place], &line[place + 1..]),
        None => (line, &[]),
    }
}

#[cfg(test)]
mod tests {
    use super::*;

    /// The page of sections with these lines; blanks stand for line ends.
    fn page(lines: &str) -> String {
        let report = format!("{lines} ").replace(' ', "\n");
        String::from_utf8(of(report.as_bytes())).unwrap()
    }

    #[test]
    fn what_is_found_and_what_is_hit() {
        for (lines, expected) in [
            ("FN:3,f FNDA:0,f", "0/1 0/0 0/0 -"),
            ("FNDA:2,f FNDA:0,0 FNF:9 FNH:9", "1/2 0/0 0/0 -"),
            ("BRDA:1,0,0,- BRDA:1,0,1,0 BRDA:1,0,2,10", "0/0 1/3 0/0 -"),
            ("DA:0,0 DA:1,0,1 DA:2,7 LF:7 LH:7", "0/0 0/0 1/3 333"),
            ("DA:1,1,0 DA:2,1,-", "0/0 0/0 2/2 1000"),
        ] {
            let section = format!("TN:t SF:a,b:c {lines} end_of_record");
            assert_eq!(page(&section), format!("{expected} t a,b:c\n{expected}\n"));
        }
        assert_eq!(page(""), "0/0 0/0 0/0 -\n");
    }

    #[test]
    fn the_last_line_has_the_share_of_the_sums() {
        let three = "TN: SF:a FNDA:1,f DA:1,1 DA:2,0 DA:3,0 end_of_record";
        let one = "TN:t SF: BRDA:1,0,0,1 DA:1,1 end_of_record";
        assert_eq!(
            page(&format!("{three} {one}")),
            "1/1 0/0 1/3 333  a\n0/0 1/1 1/1 1000 t \n1/1 1/1 2/4 500\n"
        );
    }

    #[test]
    fn shares_are_rounded_down() {
        for (hit, found, share) in [(0, 1, 0), (1, 1001, 0), (999, 1000, 999), (2, 3, 666)] {
            let mut page = Vec::new();
            let lines = Count { hit, found };
            Totals {
                lines,
                ..Totals::default()
            }
            .print(&mut page);
            assert_eq!(page, format!("0/0 0/0 {hit}/{found} {share}").into_bytes());
        }
    }
}
