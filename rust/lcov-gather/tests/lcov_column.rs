//! The first table of docs/DIFFERENCES.md, row by row: Debian's lcov 1.16 and the command `lcov-gather` are run on the same files. What the
//! table quotes of an input or an answer is in that input or answer.

mod common;

use common::{missing, printed, said, said_in_short, Folder};
use std::collections::BTreeSet;
use std::path::Path;
use std::process::{Command, Output};

/// One question of a row. Lines are parted by blanks, and `end` is end_of_record.
struct Case {
    topic: &'static str,
    texts: &'static [&'static str],
    lcov: Answer,
    port: Answer,
}

/// What a program says on standard error, and what it writes; nothing is written by one that fails.
struct Answer {
    options: &'static [&'static str],
    said: &'static str,
    written: Option<&'static str>,
}

const fn case(
    topic: &'static str,
    texts: &'static [&'static str],
    lcov: Answer,
    port: Answer,
) -> Case {
    Case {
        topic,
        texts,
        lcov,
        port,
    }
}

const fn writes(written: &'static str) -> Answer {
    warns("", written)
}

const fn warns(said: &'static str, written: &'static str) -> Answer {
    Answer {
        options: &[],
        said,
        written: Some(written),
    }
}

const fn fails(said: &'static str) -> Answer {
    Answer {
        options: &[],
        said,
        written: None,
    }
}

/// The command takes it only so, since something is replaced.
const fn as_written(written: &'static str) -> Answer {
    writes(written).with(&["--as-written"])
}

impl Answer {
    const fn with(mut self, options: &'static [&'static str]) -> Self {
        self.options = options;
        self
    }
}

const BRANCHES: &[&str] = &["--rc", "lcov_branch_coverage=1"];
const NO_RECORDS: &str = "ERROR: no valid records found in tracefile t0";

const CASES: &[Case] = &[
    case(
        "order of LF and LH",
        &["SF:m DA:1,1 end"],
        writes("TN: SF:m FNF:0 FNH:0 DA:1,1 LF:1 LH:1 end"),
        writes("TN: SF:m DA:1,1 LF:1 LH:1 end"),
    ),
    case(
        "one TN for many sections",
        &["TN:a SF:x DA:1,1 end SF:y DA:1,1 end"],
        writes("TN:a SF:x FNF:0 FNH:0 DA:1,1 LF:1 LH:1 end TN:a SF:y FNF:0 FNH:0 DA:1,1 LF:1 LH:1 end"),
        as_written("TN: SF:y DA:1,1 LF:1 LH:1 end TN:a SF:x DA:1,1 LF:1 LH:1 end"),
    ),
    case(
        "one TN for many sections",
        &["TN:a SF:x DA:1,1 end TN:b SF:y DA:1,1 end"],
        writes("TN:a SF:x FNF:0 FNH:0 DA:1,1 LF:1 LH:1 end TN:b SF:y FNF:0 FNH:0 DA:1,1 LF:1 LH:1 end"),
        writes("TN:a SF:x DA:1,1 LF:1 LH:1 end TN:b SF:y DA:1,1 LF:1 LH:1 end"),
    ),
    case(
        "TN in what is printed",
        &["SF:m DA:1,1 end"],
        writes("TN: SF:m FNF:0 FNH:0 DA:1,1 LF:1 LH:1 end"),
        writes("TN: SF:m DA:1,1 LF:1 LH:1 end"),
    ),
    case(
        "TN inside a section",
        &["SF:a TN:b DA:1,1 end"],
        writes("TN:b SF:a FNF:0 FNH:0 DA:1,1 LF:1 LH:1 end"),
        fails("t0:2: TN inside a section (refusal 7)"),
    ),
    case(
        "TN after the last section",
        &["SF:m DA:1,1 end TN:a"],
        writes("TN: SF:m FNF:0 FNH:0 DA:1,1 LF:1 LH:1 end"),
        writes("TN: SF:m DA:1,1 LF:1 LH:1 end"),
    ),
    case(
        "test name with other characters",
        &["TN:a-b SF:m DA:1,1 end"],
        warns(
            "WARNING: invalid characters removed from testname",
            "TN:a_b SF:m FNF:0 FNH:0 DA:1,1 LF:1 LH:1 end",
        ),
        writes("TN:a-b SF:m DA:1,1 LF:1 LH:1 end"),
    ),
    case(
        "test name with other characters",
        &["TN:a,b SF:m DA:1,1 end"],
        writes("TN:a SF:m FNF:0 FNH:0 DA:1,1 LF:1 LH:1 end"),
        writes("TN:a,b SF:m DA:1,1 LF:1 LH:1 end"),
    ),
    case(
        "relative path",
        &["SF:../m.c DA:1,1 end"],
        writes("TN: SF:../m.c FNF:0 FNH:0 DA:1,1 LF:1 LH:1 end"),
        writes("TN: SF:../m.c DA:1,1 LF:1 LH:1 end"),
    ),
    case(
        "section without SF",
        &["DA:1,1 end"],
        fails(NO_RECORDS),
        writes("TN: SF: DA:1,1 LF:1 LH:1 end"),
    ),
    case(
        "section without SF",
        &["SF:a DA:1,1 end DA:2,1 end"],
        writes("TN: SF:a FNF:0 FNH:0 DA:1,1 DA:2,1 LF:2 LH:2 end"),
        writes("TN: SF: DA:2,1 LF:1 LH:1 end TN: SF:a DA:1,1 LF:1 LH:1 end"),
    ),
    case(
        "section without SF",
        &["DA:2,1 end SF:a DA:1,1 end"],
        writes("TN: SF:a FNF:0 FNH:0 DA:1,1 LF:1 LH:1 end"),
        writes("TN: SF: DA:2,1 LF:1 LH:1 end TN: SF:a DA:1,1 LF:1 LH:1 end"),
    ),
    case(
        "second SF in a section",
        &["SF:a DA:1,1 SF:b DA:2,1 end"],
        writes("TN: SF:b FNF:0 FNH:0 DA:2,1 LF:1 LH:1 end"),
        fails("t0:3: second SF in a section (refusal 25)"),
    ),
    case(
        "one path in two spellings",
        &["SF:a//b DA:1,1 end", "SF:a/b DA:1,1 end"],
        writes("TN: SF:a//b FNF:0 FNH:0 DA:1,1 LF:1 LH:1 end TN: SF:a/b FNF:0 FNH:0 DA:1,1 LF:1 LH:1 end"),
        writes("TN: SF:a//b DA:1,2 LF:1 LH:1 end"),
    ),
    case(
        "order of sections",
        &["TN:b SF:a DA:1,1 end TN:a SF:b DA:1,1 end"],
        writes("TN:b SF:a FNF:0 FNH:0 DA:1,1 LF:1 LH:1 end TN:a SF:b FNF:0 FNH:0 DA:1,1 LF:1 LH:1 end"),
        writes("TN:a SF:b DA:1,1 LF:1 LH:1 end TN:b SF:a DA:1,1 LF:1 LH:1 end"),
    ),
    case(
        "order of sections",
        &["TN:a SF:b DA:1,1 end TN:b SF:a DA:1,1 end TN:a SF:a DA:1,1 end"],
        writes("TN:a SF:a FNF:0 FNH:0 DA:1,1 LF:1 LH:1 end TN:b SF:a FNF:0 FNH:0 DA:1,1 LF:1 LH:1 end TN:a SF:b FNF:0 FNH:0 DA:1,1 LF:1 LH:1 end"),
        writes("TN:a SF:a DA:1,1 LF:1 LH:1 end TN:a SF:b DA:1,1 LF:1 LH:1 end TN:b SF:a DA:1,1 LF:1 LH:1 end"),
    ),
    case(
        "functions of another test",
        &["TN:a SF:m FN:1,f FNDA:2,f DA:1,1 end TN:b SF:m DA:1,1 end"],
        writes("TN:a SF:m FN:1,f FNDA:2,f FNF:1 FNH:1 DA:1,1 LF:1 LH:1 end TN:b SF:m FN:1,f FNF:0 FNH:0 DA:1,1 LF:1 LH:1 end"),
        writes("TN:a SF:m FN:1,f FNDA:2,f FNF:1 FNH:1 DA:1,1 LF:1 LH:1 end TN:b SF:m DA:1,1 LF:1 LH:1 end"),
    ),
    case(
        "order of paths",
        &["SF:a-b DA:1,1 end SF:a/b DA:1,1 end"],
        writes("TN: SF:a-b FNF:0 FNH:0 DA:1,1 LF:1 LH:1 end TN: SF:a/b FNF:0 FNH:0 DA:1,1 LF:1 LH:1 end"),
        writes("TN: SF:a/b DA:1,1 LF:1 LH:1 end TN: SF:a-b DA:1,1 LF:1 LH:1 end"),
    ),
    case(
        "order of the lines of a section",
        &["SF:m DA:1,1 BRDA:1,0,0,- FNDA:2,f FN:1,g end"],
        writes("TN: SF:m FN:1,g FNDA:0,g FNDA:2,f FNF:2 FNH:1 BRDA:1,0,0,- BRF:1 BRH:0 DA:1,1 LF:1 LH:1 end").with(BRANCHES),
        writes("TN: SF:m FN:1,g FNDA:2,f FNDA:0,g FNF:2 FNH:1 BRDA:1,0,0,- BRF:1 BRH:0 DA:1,1 LF:1 LH:1 end"),
    ),
    case(
        "end of a section",
        &["SF:m DA:1,1 end_of_record:z"],
        writes("TN: SF:m FNF:0 FNH:0 DA:1,1 LF:1 LH:1 end"),
        writes("TN: SF:m DA:1,1 LF:1 LH:1 end"),
    ),
    case(
        "text that ends inside a section",
        &["SF:m DA:1,1 end SF:n DA:1,1"],
        writes("TN: SF:m FNF:0 FNH:0 DA:1,1 LF:1 LH:1 end"),
        fails("t0:6: the text ends inside a section (refusal 8)"),
    ),
    case(
        "section without items",
        &["SF:m end SF:n DA:1,1 end"],
        writes("TN: SF:n FNF:0 FNH:0 DA:1,1 LF:1 LH:1 end"),
        writes("TN: SF:n DA:1,1 LF:1 LH:1 end"),
    ),
    case(
        "section without items",
        &["SF:m end"],
        fails(NO_RECORDS),
        writes(""),
    ),
    case(
        "section without DA",
        &["SF:m FN:1,f end SF:n DA:1,1 end"],
        writes("TN: SF:n FNF:0 FNH:0 DA:1,1 LF:1 LH:1 end"),
        writes("TN: SF:m FN:1,f FNDA:0,f FNF:1 FNH:0 end TN: SF:n DA:1,1 LF:1 LH:1 end"),
    ),
    case(
        "same section twice in a text",
        &["SF:m DA:1,1 end SF:m DA:2,1 end"],
        writes("TN: SF:m FNF:0 FNH:0 DA:1,1 DA:2,1 LF:2 LH:2 end"),
        as_written("TN: SF:m DA:2,1 LF:1 LH:1 end"),
    ),
    case(
        "ends of lines",
        &["SF:m\r FN:1,f\r DA:1,1\r end_of_record\r"],
        writes("TN: SF:m\r FN:1,f\r FNDA:0,f\r FNF:1 FNH:0 DA:1,1 LF:1 LH:1 end"),
        writes("TN: SF:m FN:1,f FNDA:0,f FNF:1 FNH:0 DA:1,1 LF:1 LH:1 end"),
    ),
    case(
        "unknown tag",
        &["SF:m VER:1 DA:1,1 end"],
        writes("TN: SF:m FNF:0 FNH:0 DA:1,1 LF:1 LH:1 end"),
        fails("t0:2: tag unknown (refusal 1)"),
    ),
    case(
        "blank line",
        &["SF:m  DA:1,1 end"],
        writes("TN: SF:m FNF:0 FNH:0 DA:1,1 LF:1 LH:1 end"),
        fails("t0:2: tag unknown (refusal 1)"),
    ),
    case(
        "a field too many",
        &["SF:m DA:1,1 LF:1,2 end"],
        writes("TN: SF:m FNF:0 FNH:0 DA:1,1 LF:1 LH:1 end"),
        fails("t0:3: too many fields (refusal 3)"),
    ),
    case(
        "a field too few",
        &["SF:m DA:1,1 DA:2 end"],
        writes("TN: SF:m FNF:0 FNH:0 DA:1,1 LF:1 LH:1 end"),
        fails("t0:3: field 2: field missing (refusal 2)"),
    ),
    case(
        "line number past 2^32 − 1",
        &["SF:m DA:4294967296,1 end"],
        writes("TN: SF:m FNF:0 FNH:0 DA:4294967296,1 LF:1 LH:1 end"),
        fails("t0:2: field 1: number too large (refusal 6)"),
    ),
    case(
        "count past 2^64 − 1",
        &["SF:m DA:1,18446744073709551616 end"],
        writes("TN: SF:m FNF:0 FNH:0 DA:1,1.84467440737096e+19 LF:1 LH:1 end"),
        fails("t0:2: field 2: number too large (refusal 6)"),
    ),
    case(
        "count below 0",
        &["SF:m DA:1,-3 end"],
        warns(
            "WARNING: negative counts found in tracefile t0",
            "TN: SF:m FNF:0 FNH:0 DA:1,0 LF:1 LH:0 end",
        ),
        fails("t0:2: field 2: bad digit (refusal 5)"),
    ),
    case(
        "count with a plus sign",
        &["SF:m DA:1,1 DA:2,+3 end"],
        writes("TN: SF:m FNF:0 FNH:0 DA:1,1 LF:1 LH:1 end"),
        fails("t0:3: field 2: number with a plus sign (refusal 19)"),
    ),
    case(
        "repeated DA",
        &["SF:m DA:1,2 DA:1,3 end"],
        writes("TN: SF:m FNF:0 FNH:0 DA:1,5 LF:1 LH:1 end"),
        as_written("TN: SF:m DA:1,3 LF:1 LH:1 end"),
    ),
    case(
        "repeated BRDA",
        &["SF:m BRDA:1,0,0,2 BRDA:1,0,0,3 DA:1,1 end"],
        writes("TN: SF:m FNF:0 FNH:0 BRDA:1,0,0,5 BRF:1 BRH:1 DA:1,1 LF:1 LH:1 end").with(BRANCHES),
        as_written("TN: SF:m BRDA:1,0,0,3 BRF:1 BRH:1 DA:1,1 LF:1 LH:1 end"),
    ),
    case(
        "branches",
        &["SF:m BRDA:1,0,0,2 DA:1,1 end"],
        writes("TN: SF:m FNF:0 FNH:0 DA:1,1 LF:1 LH:1 end"),
        writes("TN: SF:m BRDA:1,0,0,2 BRF:1 BRH:1 DA:1,1 LF:1 LH:1 end"),
    ),
    case(
        "branches",
        &["SF:m BRDA:1,0,0,2 DA:1,1 end"],
        writes("TN: SF:m FNF:0 FNH:0 BRDA:1,0,0,2 BRF:1 BRH:1 DA:1,1 LF:1 LH:1 end").with(BRANCHES),
        writes("TN: SF:m BRDA:1,0,0,2 BRF:1 BRH:1 DA:1,1 LF:1 LH:1 end"),
    ),
    case(
        "FNDA without FN",
        &["SF:m FNDA:2,f DA:1,1 end"],
        writes("TN: SF:m FNDA:2,f FNF:1 FNH:1 DA:1,1 LF:1 LH:1 end"),
        writes("TN: SF:m FNDA:2,f FNF:1 FNH:1 DA:1,1 LF:1 LH:1 end"),
    ),
    case(
        "FN after FNDA",
        &["SF:m FNDA:2,f FN:3,f DA:1,1 end"],
        writes("TN: SF:m FN:3,f FNDA:2,f FNF:1 FNH:1 DA:1,1 LF:1 LH:1 end"),
        as_written("TN: SF:m FN:3,f FNDA:0,f FNF:1 FNH:0 DA:1,1 LF:1 LH:1 end"),
    ),
    case(
        "start lines that differ in a text",
        &["SF:m FN:1,f FN:2,f DA:1,1 end"],
        writes("TN: SF:m FN:2,f FNDA:0,f FNF:1 FNH:0 DA:1,1 LF:1 LH:1 end"),
        writes("TN: SF:m FN:2,f FNDA:0,f FNF:1 FNH:0 DA:1,1 LF:1 LH:1 end"),
    ),
    case(
        "start lines that differ in two texts",
        &["SF:m FN:1,f DA:1,1 end", "SF:m FN:2,f DA:1,1 end"],
        warns(
            "WARNING: function data mismatch at m:2",
            "TN: SF:m FN:1,f FNDA:0,f FNF:1 FNH:0 DA:1,2 LF:1 LH:1 end",
        ),
        fails("t1: the start lines of a function differ (refusal 11)"),
    ),
    case(
        "start lines that differ in two texts",
        &["SF:m FN:1,f DA:1,1 end", "SF:m FN:2,f DA:1,1 end"],
        warns(
            "WARNING: function data mismatch at m:2",
            "TN: SF:m FN:1,f FNDA:0,f FNF:1 FNH:0 DA:1,2 LF:1 LH:1 end",
        ),
        writes("TN: SF:m FN:2,f FNDA:0,f FNF:1 FNH:0 DA:1,2 LF:1 LH:1 end").with(&["--lossy"]),
    ),
    case(
        "function name with a comma",
        &["SF:m FN:1,f(a,b) FNDA:3,f(a,b) DA:1,1 end"],
        writes("TN: SF:m FN:1,f(a FNDA:3,f(a FNF:1 FNH:1 DA:1,1 LF:1 LH:1 end"),
        writes("TN: SF:m FN:1,f(a,b) FNDA:3,f(a,b) FNF:1 FNH:1 DA:1,1 LF:1 LH:1 end"),
    ),
    case(
        "FN with an end line",
        &["SF:m FN:138,168,name FNDA:2,name DA:138,2 end"],
        writes("TN: SF:m FN:138,168 FNDA:0,168 FNDA:2,name FNF:2 FNH:1 DA:138,2 LF:1 LH:1 end"),
        writes("TN: SF:m FN:138,168,name FNDA:2,name FNF:1 FNH:1 DA:138,2 LF:1 LH:1 end"),
    ),
    case(
        "end line below the start line",
        &["SF:m FN:168,138,name DA:138,2 end"],
        writes("TN: SF:m FN:168,138 FNDA:0,138 FNF:1 FNH:0 DA:138,2 LF:1 LH:1 end"),
        fails("t0:2: end line below the start line (refusal 23)"),
    ),
    case(
        "FNL and FNA",
        &["SF:m FNL:0,138,168 FNA:0,2,name DA:138,2 end"],
        writes("TN: SF:m FNF:0 FNH:0 DA:138,2 LF:1 LH:1 end"),
        fails("t0:2: tag unknown (refusal 1)"),
    ),
    case(
        "block with the letter e",
        &["SF:m BRDA:1,e0,0,1 DA:1,1 end"],
        writes("TN: SF:m FNF:0 FNH:0 DA:1,1 LF:1 LH:1 end").with(BRANCHES),
        fails("t0:2: field 2: bad digit (refusal 5)"),
    ),
    case(
        "empty groups",
        &["SF:m DA:1,1 end"],
        writes("TN: SF:m FNF:0 FNH:0 DA:1,1 LF:1 LH:1 end").with(BRANCHES),
        writes("TN: SF:m DA:1,1 LF:1 LH:1 end"),
    ),
    case(
        "found and hit lines in the input",
        &["SF:m DA:1,1 LF:9 LH:9 end"],
        writes("TN: SF:m FNF:0 FNH:0 DA:1,1 LF:1 LH:1 end"),
        writes("TN: SF:m DA:1,1 LF:1 LH:1 end"),
    ),
    case(
        "sum of a line past 2^64 − 1",
        &["SF:m DA:1,18446744073709551615 end", "SF:m DA:1,1 end"],
        writes("TN: SF:m FNF:0 FNH:0 DA:1,1.84467440737096e+19 LF:1 LH:1 end"),
        fails("t1: the counts of a line or branch add up past 2^64 - 1 (refusal 13)"),
    ),
    case(
        "sum of a function past 2^64 − 1",
        &["SF:m FNDA:18446744073709551615,f DA:1,1 end", "SF:m FNDA:1,f DA:1,1 end"],
        writes("TN: SF:m FNDA:1.84467440737096e+19,f FNF:1 FNH:1 DA:1,2 LF:1 LH:1 end"),
        writes("TN: SF:m FNDA:18446744073709551615,f FNF:1 FNH:1 DA:1,2 LF:1 LH:1 end"),
    ),
    case(
        "checksums in what is printed",
        &["SF:m DA:1,2,any end"],
        writes("TN: SF:m FNF:0 FNH:0 DA:1,2 LF:1 LH:1 end"),
        writes("TN: SF:m DA:1,2,any LF:1 LH:1 end"),
    ),
    case(
        "checksums in what is printed",
        &["SF:m DA:1,2,any end"],
        writes("TN: SF:m FNF:0 FNH:0 DA:1,2,any LF:1 LH:1 end").with(&["--checksum"]),
        writes("TN: SF:m DA:1,2,any LF:1 LH:1 end"),
    ),
    case(
        "checksum that is a dash",
        &["SF:m DA:1,2,- end"],
        writes("TN: SF:m FNF:0 FNH:0 DA:1,2,- LF:1 LH:1 end").with(&["--checksum"]),
        writes("TN: SF:m DA:1,2 LF:1 LH:1 end"),
    ),
    case(
        "empty checksum",
        &["SF:m DA:1,2, end"],
        writes("TN: SF:m FNF:0 FNH:0 DA:1,2 LF:1 LH:1 end").with(&["--checksum"]),
        writes("TN: SF:m DA:1,2, LF:1 LH:1 end"),
    ),
    case(
        "checksum with a comma",
        &["SF:m DA:1,2,a,b end"],
        writes("TN: SF:m FNF:0 FNH:0 DA:1,2,a LF:1 LH:1 end").with(&["--checksum"]),
        writes("TN: SF:m DA:1,2,a,b LF:1 LH:1 end"),
    ),
    case(
        "checksums that differ",
        &["SF:m DA:1,1,a end", "SF:m DA:1,1,b end"],
        fails("ERROR: checksum mismatch at m:1").with(&["--no-checksum"]),
        fails("t1: the checksums of a line differ (refusal 12)"),
    ),
    case(
        "checksums that differ",
        &["SF:m DA:1,1,a end", "SF:m DA:1,1,b end"],
        fails("ERROR: checksum mismatch at m:1").with(&["--checksum"]),
        writes("TN: SF:m DA:1,2,b LF:1 LH:1 end").with(&["--lossy"]),
    ),
];

fn text(lines: &str) -> String {
    let lines = lines.split(' ').filter(|_| !lines.is_empty());
    lines
        .map(|line| if line == "end" { "end_of_record" } else { line })
        .map(|line| format!("{line}\n"))
        .collect()
}

/// The texts of a case as the files t0, t1, ..
fn folder_of(case: &Case) -> Folder {
    let folder = Folder::new();
    for (k, lines) in case.texts.iter().enumerate() {
        std::fs::write(folder.path(&format!("t{k}")), text(lines)).unwrap();
    }
    folder
}

fn names(case: &Case) -> Vec<String> {
    (0..case.texts.len()).map(|k| format!("t{k}")).collect()
}

// ---- lcov

fn lcov(folder: &Folder) -> Command {
    let mut command = Command::new("lcov");
    // What a user or a machine has set up is not read.
    std::fs::write(folder.path("settings"), "").unwrap();
    command
        .args(["--config-file", "settings"])
        .env("LC_ALL", "C")
        .current_dir(&folder.0);
    command
}

/// Whether lcov 1.16 is there.
fn has_lcov() -> bool {
    match lcov(&Folder::new()).arg("--version").output() {
        Ok(output) if printed(&output).contains("version 1.16") => return true,
        Ok(_) => missing("lcov 1.16"),
        Err(_) => missing("lcov"),
    }
    false
}

fn run_lcov(case: &Case, folder: &Folder) -> Output {
    let mut command = lcov(folder);
    command.args(case.lcov.options);
    for name in names(case) {
        command.args(["-a", &name]);
    }
    command.args(["-o", "out"]).output().unwrap()
}

/// lcov writes the FNDA lines of a section in any order.
fn with_sorted_calls(text: &str) -> String {
    let mut lines: Vec<&str> = text.split_inclusive('\n').collect();
    for run in lines.chunk_by_mut(|a, b| a.starts_with("FNDA:") && b.starts_with("FNDA:")) {
        run.sort_unstable();
    }
    lines.concat()
}

#[test]
fn lcov_does_what_the_table_says() {
    if !has_lcov() {
        return;
    }
    for case in CASES {
        let folder = folder_of(case);
        let output = run_lcov(case, &folder);
        let (place, told) = (format!("{}: {:?}", case.topic, case.texts), said(&output));
        assert!(told.contains(case.lcov.said), "{place}: {told}");
        let is_told = told.contains("WARNING") || told.contains("ERROR");
        assert_eq!(is_told, !case.lcov.said.is_empty(), "{place}: {told}");
        assert_eq!(output.status.success(), case.lcov.written.is_some());
        match case.lcov.written {
            None => assert!(!folder.path("out").exists(), "{place}"),
            Some(written) => {
                let (out, written) = (folder.text("out"), text(written));
                assert_eq!(
                    with_sorted_calls(&out),
                    with_sorted_calls(&written),
                    "{place}"
                );
            }
        }
    }
}

// ---- the port

fn run_port(case: &Case, options: &[&str]) -> Result<String, String> {
    let names = names(case);
    let names: Vec<&str> = names.iter().map(String::as_str).collect();
    let output = folder_of(case).run(&[options, &names].concat());
    if output.status.success() {
        return Ok(printed(&output));
    }
    assert_eq!(output.status.code(), Some(1));
    Err(said_in_short(&output))
}

#[test]
fn the_port_does_what_the_table_says() {
    for case in CASES {
        let answer = run_port(case, case.port.options);
        let expected = match case.port.written {
            Some(written) => Ok(text(written)),
            None => Err(format!("lcov-gather: {}\n", case.port.said)),
        };
        assert_eq!(answer, expected, "{}: {:?}", case.topic, case.texts);
        if case.port.options == ["--as-written"] {
            let refused = run_port(case, &[]).unwrap_err();
            assert!(refused.contains("--as-written"), "{}", case.topic);
        }
    }
}

// ---- the table

/// A row has topic, input, page, lcov, port and reason.
struct Row {
    cells: Vec<String>,
}

fn rows_of_the_table() -> Vec<Row> {
    let path = Path::new(env!("CARGO_MANIFEST_DIR")).join("../../docs/DIFFERENCES.md");
    let page = std::fs::read_to_string(path).unwrap();
    let table = page
        .lines()
        .skip_while(|line| !line.starts_with("| topic | smallest input | page |"));
    let rows = table.skip(2).take_while(|line| line.starts_with('|'));
    rows.map(|line| Row {
        cells: line
            .trim_matches('|')
            .split(" | ")
            .map(|cell| cell.trim().to_owned())
            .collect(),
    })
    .collect()
}

/// What stands between backquotes, and the refusals with their fields.
fn quoted(cell: &str) -> Vec<String> {
    let codes = cell.split('`').skip(1).step_by(2).map(str::to_owned);
    let refusals = numbers_after(cell, "refusal ").map(|number| format!("(refusal {number})"));
    let fields = numbers_after(cell, ", field ").map(|number| format!(": field {number}: "));
    codes.chain(refusals).chain(fields).collect()
}

fn numbers_after<'a>(cell: &'a str, word: &'a str) -> impl Iterator<Item = &'a str> {
    let rests = cell.split(word).skip(1);
    rests.map(|rest| rest.split(|c: char| !c.is_ascii_digit()).next().unwrap())
}

/// A line of the written text, or a part of the options or of what is said.
fn is_in(answer: &Answer, code: &str) -> bool {
    let written = answer.written.map_or_else(String::new, text);
    has_line(&written, code)
        || answer.options.join(" ").contains(code)
        || answer.said.contains(code)
}

fn has_line(text: &str, code: &str) -> bool {
    text.lines().any(|line| line.trim_end() == code)
}

#[test]
fn each_row_is_run_and_quotes_what_was_run() {
    let rows = rows_of_the_table();
    let topics: Vec<&str> = rows.iter().map(|row| row.cells[0].as_str()).collect();
    let in_table: BTreeSet<&str> = topics.iter().copied().collect();
    assert_eq!(in_table.len(), topics.len(), "a topic has one row");
    let run: BTreeSet<&str> = CASES.iter().map(|case| case.topic).collect();
    assert_eq!(in_table, run);

    for row in &rows {
        let [topic, input, _, lcov, port, why] = &row.cells[..] else {
            panic!("{:?}", row.cells);
        };
        assert!(!why.is_empty(), "{topic}");
        let cases = || CASES.iter().filter(|case| case.topic == topic);
        for code in quoted(input) {
            let mut texts = cases().flat_map(|case| case.texts);
            assert!(
                texts.any(|lines| has_line(&text(lines), &code)),
                "{topic}: {code}"
            );
        }
        for code in quoted(lcov) {
            assert!(
                cases().any(|case| is_in(&case.lcov, &code)),
                "{topic}: {code}"
            );
        }
        for code in quoted(port) {
            assert!(
                cases().any(|case| is_in(&case.port, &code)),
                "{topic}: {code}"
            );
        }
    }
}
