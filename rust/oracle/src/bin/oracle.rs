//! Answers requests (see [`oracle::requests`]) with the unchanged Rust.

use oracle::filter::line_num::Range;
use oracle::requests::{
    answer_all, given, hex, shown_order, shown_pairs, shown_truth, Lines, Request,
};
use oracle::{Fault, Record};
use std::io;

fn main() -> io::Result<()> {
    oracle::hush_overflow();
    answer_all(answer)
}

fn answer(request: Request) -> Result<String, Fault> {
    match request {
        Request::Line(line) => oracle::read_line(&line).map(|record| shown_record(&record)),
        Request::Print(line) => {
            oracle::read_line(&line).map(|record| hex(&oracle::print_record(&record)))
        }
        Request::Text(text) => {
            oracle::read_text(&text).map(|report| hex(&oracle::print_report(report)))
        }
        Request::Gather(mode, texts) => {
            let texts: Vec<&[u8]> = texts.iter().map(Vec::as_slice).collect();
            oracle::gather(mode, &texts).map(|printed| hex(&printed))
        }
        Request::Paths(a, b) => oracle::compare_paths(&a, &b).map(shown_order),
        Request::Insert(inserts) => {
            let ranges: Vec<Range> = inserts.into_iter().map(range).collect();
            Ok(shown_pairs(&oracle::ranges_after(&ranges)))
        }
        Request::Query(pairs, start, end) => oracle::query(&pairs, start, end).map(shown_truth),
        Request::Filter(text, pairs) => oracle::filter(&text, &pairs).map(|printed| hex(&printed)),
    }
}

fn range(lines: Lines) -> Range {
    match lines {
        Lines::Closed(start, end) => oracle::closed(start, end),
        Lines::HalfOpen(start, past) => Range::from(start..past),
    }
}

fn shown_record(record: &Record) -> String {
    let values = match record {
        Record::TestName { name } => format!(" {}", hex(name.as_bytes())),
        Record::SourceFile { path } => format!(" {}", hex(path.as_os_str().as_encoded_bytes())),
        Record::FunctionName { name, start_line } => {
            format!(" {start_line} {}", hex(name.as_bytes()))
        }
        Record::FunctionData { name, count } => format!(" {count} {}", hex(name.as_bytes())),
        Record::FunctionsFound { found }
        | Record::BranchesFound { found }
        | Record::LinesFound { found } => format!(" {found}"),
        Record::FunctionsHit { hit } | Record::BranchesHit { hit } | Record::LinesHit { hit } => {
            format!(" {hit}")
        }
        Record::BranchData {
            line,
            block,
            branch,
            taken,
        } => {
            format!(
                " {line} {block} {branch} {}",
                given(taken.map(|count| count.to_string()))
            )
        }
        Record::LineData {
            line,
            count,
            checksum,
        } => {
            format!(
                " {line} {count} {}",
                given(checksum.as_ref().map(|checksum| hex(checksum.as_bytes())))
            )
        }
        Record::EndOfRecord => String::new(),
    };
    format!("{}{values}", record.kind().as_str())
}
