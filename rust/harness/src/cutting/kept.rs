//! The lines and branches of a printed report, by section. Functions are not compared: the end that is reckoned for one depends on the others of its
//! section, and of two end lines that FN gives, the larger is joined.

/// A section's key and what it has, each a printed line. A report prints each key once, in order.
#[derive(Default)]
pub struct Section<'a> {
    pub name: &'a [u8],
    pub path: &'a [u8],
    pub lines: Vec<&'a [u8]>,
    pub branches: Vec<&'a [u8]>,
}

/// The sections of a report printed in default tags. One that has functions alone is left out: the other report may lack it.
pub fn sections(report: &[u8]) -> Vec<Section<'_>> {
    let mut sections = Vec::new();
    let mut open = Section::default();
    for line in report.split(|&byte| byte == b'\n') {
        if let Some(name) = line.strip_prefix(b"TN:") {
            open.name = name;
        } else if let Some(path) = line.strip_prefix(b"SF:") {
            open.path = path;
        } else if line.starts_with(b"DA:") {
            open.lines.push(line);
        } else if line.starts_with(b"BRDA:") {
            open.branches.push(line);
        } else if line == b"end_of_record" {
            sections.push(std::mem::take(&mut open));
        }
    }
    sections.retain(|section| !section.lines.is_empty() || !section.branches.is_empty());
    sections
}

/// Whether both have the same keys with the same lines, counts and checksums, and the same branches and taken counts.
pub fn is_same(a: &[Section], b: &[Section], is_same_path: impl Fn(&[u8], &[u8]) -> bool) -> bool {
    let same = |(a, b): (&Section, &Section)| {
        a.name == b.name
            && is_same_path(a.path, b.path)
            && a.lines == b.lines
            && a.branches == b.branches
    };
    a.len() == b.len() && a.iter().zip(b).all(same)
}

/// FN and FNDA, in their order.
pub fn functions(report: &[u8]) -> Vec<&[u8]> {
    let is_function = |line: &&[u8]| line.starts_with(b"FN:") || line.starts_with(b"FNDA:");
    let lines = report.split(|&byte| byte == b'\n');
    lines.filter(is_function).collect()
}

#[cfg(test)]
mod tests {
    use super::*;
    use crate::expected::path_order;
    use crate::interface::EQUAL;

    /// Sections with these lines, blanks in place of line ends.
    fn report(lines: &str) -> Vec<u8> {
        format!("{lines} ").replace(' ', "\n").into_bytes()
    }

    fn is_same_report(a: &str, b: &str) -> bool {
        let (a, b) = (report(a), report(b));
        is_same(&sections(&a), &sections(&b), |a, b| {
            path_order(a, b) == EQUAL
        })
    }

    const ONE: &str = "TN:t SF:a/b BRDA:1,0,0,- BRDA:1,0,1,2 DA:1,1,c DA:2,0 end_of_record";

    #[test]
    fn whatever_differs_in_a_line_or_a_branch_is_seen() {
        assert!(is_same_report(ONE, ONE));
        for (was, is) in [
            ("TN:t", "TN:"),
            ("a/b", "a-b"),
            ("0,0,-", "0,0,0"),
            ("0,1,2", "0,1,3"),
            ("0,1,2", "1,1,2"),
            ("BRDA:1,0,0,- ", ""),
            ("DA:1,1,c", "DA:1,1"),
            ("DA:1,1,c", "DA:1,2,c"),
            ("DA:2,0", "DA:3,0"),
            (" DA:2,0", ""),
        ] {
            let other = ONE.replace(was, is);
            assert!(!is_same_report(ONE, &other), "{other}");
            assert!(!is_same_report(&other, ONE), "{other}");
        }
    }

    #[test]
    fn a_section_that_one_lacks_is_seen() {
        let two = format!("{ONE} TN:u SF:a DA:1,1 end_of_record");
        assert!(!is_same_report(ONE, &two));
        assert!(!is_same_report(&two, ONE));
        assert!(!is_same_report(ONE, ""));
    }

    #[test]
    fn spellings_functions_and_sections_of_functions_alone_are_not_compared() {
        for same in [
            ONE.replace("a/b", "a//b/."),
            ONE.replace("BRDA:1,0,0", "FN:1,f FNDA:1,f BRDA:1,0,0"),
            format!("TN: SF:a FN:1,f FNDA:0,f end_of_record {ONE}"),
        ] {
            assert!(is_same_report(ONE, &same), "{same}");
        }
        let printed = report("FN:1,f FNF:1 DA:1,1 FNDA:0,f");
        assert_eq!(functions(&printed), [&b"FN:1,f"[..], b"FNDA:0,f"]);
    }
}
