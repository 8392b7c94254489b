//! What `--lab` and `--quota` ask for: which lab sent each tracefile, and which labs are let in (SPEC 7.7).

use crate::failure::Failure;
use crate::form::is_digits;
use crate::table;
use crate::wrong::from_one_to;
use lcov_sys::{Fault, LABS};
use std::ffi::{OsStr, OsString};
use std::os::unix::ffi::OsStrExt;
use std::path::PathBuf;

const HEADER: [&str; 4] = ["lab", "entries", "quota", "state"];

/// Lab 1 is at place 0.
#[derive(Debug, Default)]
pub struct Labs {
    /// The lab of each file, in order.
    of_files: Vec<usize>,
    quotas: [Option<u64>; LABS],
}

/// What came of a lab's own gather.
#[derive(Debug)]
pub enum Mark {
    LetIn(u64),
    /// So many entries are more than its quota.
    Above(u64),
    Refused(Failure),
}

impl Labs {
    /// Words `LAB:FILE`, whose files are told, and `LAB=N`.
    pub fn parse(
        files: impl Iterator<Item = OsString>,
        quotas: impl Iterator<Item = OsString>,
    ) -> Result<(Self, Vec<PathBuf>), Failure> {
        let mut labs = Labs::default();
        let mut paths = Vec::new();
        for word in files {
            let (lab, file) = LAB.parted(&word)?;
            if file.is_empty() {
                return Err(LAB.malformed(&word));
            }
            labs.of_files.push(lab);
            paths.push(PathBuf::from(OsStr::from_bytes(file)));
        }
        for word in quotas {
            labs.set_quota(&word)?;
        }
        Ok((labs, paths))
    }

    fn set_quota(&mut self, word: &OsStr) -> Result<(), Failure> {
        let (lab, quota) = QUOTA.parted(word)?;
        let digits = std::str::from_utf8(quota).ok().filter(|_| is_digits(quota));
        let quota = digits.and_then(|digits| digits.parse().ok());
        let quota = quota.ok_or_else(|| QUOTA.malformed(word))?;
        match self.quotas[lab].replace(quota) {
            None => Ok(()),
            Some(earlier) => {
                let what = format!("lab {} has the quota {earlier} already", lab + 1);
                Err(QUOTA.wrong(word, &what))
            }
        }
    }

    /// The files of each lab.
    pub fn split<T>(&self, files: Vec<T>) -> [Vec<T>; LABS] {
        let mut of_labs: [Vec<T>; LABS] = Default::default();
        for (file, &lab) in files.into_iter().zip(&self.of_files) {
            of_labs[lab].push(file);
        }
        of_labs
    }

    /// The files of the labs that are let in, in the order in which they were named.
    pub fn let_in<T>(&self, of_labs: [Vec<T>; LABS], marks: &[Mark]) -> Vec<T> {
        let mut of_labs = of_labs.map(Vec::into_iter);
        let let_in = self.of_files.iter().filter(|&&lab| marks[lab].is_let_in());
        let_in.filter_map(|&lab| of_labs[lab].next()).collect()
    }

    /// The mark of a lab whose gather has so many entries.
    pub fn mark(&self, lab: usize, entries: u64) -> Mark {
        match self.quotas[lab] {
            Some(quota) if entries > quota => Mark::Above(entries),
            _ => Mark::LetIn(entries),
        }
    }

    /// A row for each lab that has a file or a quota.
    pub fn table(&self, marks: &[Mark]) -> String {
        let or_dash = |number: Option<u64>| number.map_or("-".to_owned(), |n| n.to_string());
        let mut rows = vec![HEADER.map(str::to_owned)];
        for (lab, mark) in marks.iter().enumerate() {
            let quota = self.quotas[lab];
            if quota.is_some() || self.of_files.contains(&lab) {
                let number = (lab + 1).to_string();
                let state = mark.state().to_owned();
                rows.push([number, or_dash(mark.entries()), or_dash(quota), state]);
            }
        }
        table::aligned(&rows, HEADER.len() - 1)
    }
}

impl Mark {
    pub fn is_let_in(&self) -> bool {
        matches!(self, Mark::LetIn(_))
    }

    fn entries(&self) -> Option<u64> {
        match self {
            Mark::LetIn(entries) | Mark::Above(entries) => Some(*entries),
            Mark::Refused(_) => None,
        }
    }

    fn state(&self) -> &'static str {
        match self {
            Mark::LetIn(_) => "let in",
            Mark::Above(_) => "above its quota",
            Mark::Refused(_) => "refused",
        }
    }
}

/// An option whose words are a lab, a byte and what the lab gets.
struct Words {
    option: &'static str,
    form: &'static str,
    between: u8,
}

const LAB: Words = Words {
    option: "--lab",
    form: "LAB:FILE",
    between: b':',
};

const QUOTA: Words = Words {
    option: "--quota",
    form: "LAB=N",
    between: b'=',
};

impl Words {
    fn parted<'a>(&self, word: &'a OsStr) -> Result<(usize, &'a [u8]), Failure> {
        let bytes = word.as_bytes();
        let end = memchr::memchr(self.between, bytes).filter(|&end| is_digits(&bytes[..end]));
        let end = end.ok_or_else(|| self.malformed(word))?;
        let lab = from_one_to(LABS, &bytes[..end], Fault::MalformedLabs);
        let lab = lab.map_err(|what| self.wrong(word, &what))?;
        Ok((lab - 1, &bytes[end + 1..]))
    }

    fn malformed(&self, word: &OsStr) -> Failure {
        let Words { option, form, .. } = self;
        Failure::Usage(format!("{option} wants {form}, not {}", word.display()))
    }

    fn wrong(&self, word: &OsStr, what: &str) -> Failure {
        Failure::Usage(format!("{} {}: {what}", self.option, word.display()))
    }
}

#[cfg(test)]
mod tests {
    use super::*;

    fn parse(files: &[&str], quotas: &[&str]) -> Result<(Labs, Vec<PathBuf>), String> {
        let words = |words: &[&str]| words.iter().map(OsString::from).collect::<Vec<_>>();
        let parsed = Labs::parse(words(files).into_iter(), words(quotas).into_iter());
        parsed.map_err(|failure| failure.to_string())
    }

    fn refused() -> Mark {
        Mark::Refused(Failure::TooLong(PathBuf::from("a")))
    }

    #[test]
    fn a_file_may_have_any_name() {
        let (labs, paths) = parse(&["1:a:b", "8:-", "001: c=d"], &["8=007"]).unwrap();
        assert_eq!(labs.of_files, [0, 7, 0]);
        assert_eq!(paths, ["a:b", "-", " c=d"].map(PathBuf::from));
        assert_eq!(labs.quotas[7], Some(7));
        assert_eq!(labs.quotas[..7], [None; 7]);
    }

    #[test]
    fn labs_are_1_to_8_and_have_one_quota() {
        let meaning = "a lab number is outside 1 to 8, or there is not one lab number for each text (refusal 29)";
        for lab in ["0", "9", "4294967297"] {
            let told = parse(&[&format!("{lab}:a")], &[]).unwrap_err();
            let expected = format!("--lab {lab}:a: {meaning}\n");
            assert!(told.starts_with(&expected), "{told}");
            let told = parse(&["1:a"], &[&format!("{lab}=5")]).unwrap_err();
            let expected = format!("--quota {lab}=5: {meaning}\n");
            assert!(told.starts_with(&expected), "{told}");
        }
        for word in ["", "a", "1", ":a", "1:", "x:a", "+1:a", "1=a", " 1:a"] {
            let told = parse(&[word], &[]).unwrap_err();
            let expected = format!("--lab wants LAB:FILE, not {word}\n");
            assert!(told.starts_with(&expected), "{told}");
        }
        for word in [
            "",
            "1",
            "=5",
            "1=",
            "1=x",
            "1=-1",
            "1=+1",
            "1:5",
            "1=18446744073709551616",
        ] {
            let told = parse(&["1:a"], &[word]).unwrap_err();
            let expected = format!("--quota wants LAB=N, not {word}\n");
            assert!(told.starts_with(&expected), "{told}");
        }
        let told = parse(&["1:a"], &["2=5", "02=6"]).unwrap_err();
        assert!(
            told.starts_with("--quota 02=6: lab 2 has the quota 5 already\n"),
            "{told}"
        );
    }

    #[test]
    fn files_are_parted_and_come_back_in_order() {
        let (labs, paths) = parse(&["2:a", "1:b", "2:c", "8:d", "1:e"], &[]).unwrap();
        let of_labs = labs.split(paths);
        assert_eq!(of_labs[0], ["b", "e"].map(PathBuf::from));
        assert_eq!(of_labs[1], ["a", "c"].map(PathBuf::from));
        assert!(of_labs[2..7].iter().all(Vec::is_empty));
        let mut marks: Vec<Mark> = (0..LABS).map(|_| Mark::LetIn(1)).collect();
        let all = ["a", "b", "c", "d", "e"].map(PathBuf::from);
        assert_eq!(labs.let_in(of_labs.clone(), &marks), all);
        marks[0] = Mark::Above(1);
        marks[7] = refused();
        assert_eq!(labs.let_in(of_labs, &marks), ["a", "c"].map(PathBuf::from));
    }

    #[test]
    fn the_table_has_each_lab_with_a_file_or_a_quota() {
        let files = ["3:a", "1:b", "5:c", "6:d"];
        let quotas = ["1=10", "3=9", "4=0", "5=18446744073709551615"];
        let (labs, _) = parse(&files, &quotas).unwrap();
        let mut marks: Vec<Mark> = (0..LABS).map(|lab| labs.mark(lab, 0)).collect();
        marks[0] = labs.mark(0, 10);
        marks[2] = labs.mark(2, 10);
        marks[4] = refused();
        marks[5] = labs.mark(5, u64::MAX);
        let expected = "
lab               entries                 quota  state
  1                    10                    10  let in
  3                    10                     9  above its quota
  4                     0                     0  let in
  5                     -  18446744073709551615  refused
  6  18446744073709551615                     -  let in
";
        assert_eq!(labs.table(&marks), expected[1..]);
    }
}
