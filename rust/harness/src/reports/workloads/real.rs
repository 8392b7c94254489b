//! What is measured of a real tracefile.

const NAME: &[u8] = b"TN:utterances\n";

fn lines(text: &[u8]) -> impl Iterator<Item = &[u8]> {
    text.split_inclusive(|&byte| byte == b'\n')
}

/// The text with the same name in each TN.
pub fn under_one_name(text: &[u8]) -> Vec<u8> {
    let mut renamed = Vec::with_capacity(text.len());
    for line in lines(text) {
        let is_name = line.starts_with(b"TN:");
        renamed.extend_from_slice(if is_name { NAME } else { line });
    }
    renamed
}

/// Lines of a text that are measured by themselves.
#[derive(Debug, Clone, Copy, PartialEq, Eq)]
pub enum Part {
    Lines,
    Branches,
    Functions,
    All,
}

pub const PARTS: [Part; 4] = [Part::Lines, Part::Branches, Part::Functions, Part::All];

/// Without these a text has no sections.
const FRAME: [&str; 3] = ["TN:", "SF:", "end_of_record"];

impl Part {
    pub fn name(self) -> &'static str {
        match self {
            Part::Lines => "DA",
            Part::Branches => "BRDA",
            Part::Functions => "FN and FNDA",
            Part::All => "lines of all kinds",
        }
    }

    fn has(self, line: &[u8]) -> bool {
        let tags: &[&str] = match self {
            Part::Lines => &["DA:"],
            Part::Branches => &["BRDA:"],
            Part::Functions => &["FN:", "FNDA:"],
            Part::All => &[""],
        };
        starts_with_one(line, tags)
    }

    /// How many lines of the text belong to the part.
    pub fn count(self, text: &[u8]) -> usize {
        lines(text).filter(|line| self.has(line)).count()
    }

    /// The text with the lines of the part, and those that make sections.
    pub fn of(self, text: &[u8]) -> Vec<u8> {
        let kept = lines(text).filter(|line| self.has(line) || starts_with_one(line, &FRAME));
        kept.flatten().copied().collect()
    }
}

fn starts_with_one(line: &[u8], tags: &[&str]) -> bool {
    tags.iter().any(|tag| line.starts_with(tag.as_bytes()))
}

#[cfg(test)]
mod tests {
    use super::*;

    const TEXT: &[u8] =
        b"TN:a\nSF:x.c\nFN:1,f\nFNDA:2,f\nBRDA:1,0,0,-\nDA:1,2\nDA:2,3\nLF:2\nend_of_record\n\
        TN:b\nSF:y.c\nDA:1,0\nend_of_record\n";

    #[test]
    fn each_name_is_replaced() {
        let renamed = String::from_utf8(under_one_name(TEXT)).unwrap();
        assert_eq!(renamed.matches("TN:utterances\n").count(), 2);
        let others = |text: &str| {
            let lines = text.lines().filter(|line| !line.starts_with("TN:"));
            lines.map(str::to_owned).collect::<Vec<_>>()
        };
        assert_eq!(others(&renamed), others(std::str::from_utf8(TEXT).unwrap()));
    }

    #[test]
    fn a_part_keeps_its_lines_and_the_sections() {
        assert_eq!(PARTS.map(|part| part.count(TEXT)), [3, 1, 2, 13]);
        for part in PARTS {
            let text = part.of(TEXT);
            assert_eq!(part.count(&text), part.count(TEXT));
            assert_eq!(
                lines(&text).filter(|line| line.starts_with(b"SF:")).count(),
                2
            );
            assert!(oracle::read_text(&text).is_ok());
        }
        assert_eq!(Part::All.of(TEXT), TEXT);
        let branches = b"TN:a\nSF:x.c\nBRDA:1,0,0,-\nend_of_record\nTN:b\nSF:y.c\nend_of_record\n";
        assert_eq!(Part::Branches.of(TEXT), branches);
    }
}
