//! The Rust answers the cases of SPEC 11, and the oracle tells what lies outside the comparison.

use oracle::filter::line_num::Range;
use oracle::{closed, Fault, Mode, Record, Refusal};
use std::cmp::Ordering;

fn refused<T>(number: u32, line: usize, field: u32) -> Result<T, Fault> {
    refused_in(0, number, line, field)
}

fn refused_in<T>(text: usize, number: u32, line: usize, field: u32) -> Result<T, Fault> {
    Err(Fault::Refused(Refusal {
        number,
        text,
        line,
        field,
    }))
}

fn line_data(line: u32, count: u64, checksum: Option<&str>) -> Result<Record, Fault> {
    Ok(Record::LineData {
        line,
        count,
        checksum: checksum.map(str::to_owned),
    })
}

fn printed(text: &str) -> Result<String, Fault> {
    oracle::read_text(text.as_bytes()).map(|report| string(oracle::print_report(report)))
}

fn gathered(mode: Mode, texts: &[&str]) -> Result<String, Fault> {
    let texts: Vec<&[u8]> = texts.iter().map(|text| text.as_bytes()).collect();
    oracle::gather(mode, &texts).map(string)
}

fn string(bytes: Vec<u8>) -> String {
    String::from_utf8(bytes).unwrap()
}

#[test]
fn case_a_fields_missing_and_too_many() {
    assert_eq!(oracle::read_line(b"FN:5"), refused(2, 1, 2));
    assert_eq!(oracle::read_line(b"FNF:1,2"), refused(3, 1, 0));
}

#[test]
fn case_b_checksums_empty_and_none() {
    assert_eq!(oracle::read_line(b"DA:1,2,"), line_data(1, 2, Some("")));
    assert_eq!(oracle::read_line(b"DA:1,2,-"), line_data(1, 2, None));
}

#[test]
fn case_c_an_empty_taken_count() {
    assert_eq!(oracle::read_line(b"BRDA:1,0,0,"), refused(4, 1, 4));
}

#[test]
fn case_d_a_digit_is_tried_before_the_fit() {
    assert_eq!(
        oracle::read_line(b"DA:4294967295,0"),
        line_data(4294967295, 0, None)
    );
    assert_eq!(oracle::read_line(b"DA:4294967296x,0"), refused(6, 1, 1));
    assert_eq!(oracle::read_line(b"DA:4294967295x,0"), refused(5, 1, 1));
}

#[test]
fn case_e_the_body_of_an_end_is_ignored() {
    assert_eq!(
        oracle::read_line(b"end_of_record:z"),
        Ok(Record::EndOfRecord)
    );
}

#[test]
fn case_f_a_section_must_end() {
    assert_eq!(printed("TN:a\n"), Ok(String::new()));
    assert_eq!(printed("TN:a\nSF:b\n"), refused(8, 3, 0));
}

#[test]
fn case_g_a_start_sets_the_count_to_0() {
    let text = "FNDA:2,f\nFN:3,f\nend_of_record\n";
    assert_eq!(
        printed(text).unwrap(),
        "TN:\nSF:\nFN:3,f\nFNDA:0,f\nFNF:1\nFNH:0\nend_of_record\n"
    );
}

#[test]
fn case_h_paths_by_components() {
    assert_eq!(
        oracle::compare_paths(b"a//b", b"a/./b"),
        Ok(Ordering::Equal)
    );
    assert_eq!(oracle::compare_paths(b"./a", b"a"), Ok(Ordering::Less));
    assert_eq!(oracle::compare_paths(b"a/b", b"a-b"), Ok(Ordering::Less));
}

#[test]
fn case_i_neighbours_join() {
    assert_eq!(
        oracle::ranges_after(&[closed(1, 2), closed(3, 4)]),
        [(1, 4)]
    );
    assert_eq!(
        oracle::ranges_after(&[closed(1, 2), closed(4, 5)]),
        [(1, 2), (4, 5)]
    );
}

#[test]
#[allow(clippy::reversed_empty_ranges)]
fn case_j_half_open_ranges() {
    let held = oracle::ranges_after(&[Range::from(0..0)]);
    assert_eq!(oracle::query(&held, 0, 0), Ok(true));
    assert_eq!(oracle::ranges_after(&[Range::from(5..5)]), []);
}

#[test]
fn case_k_of_two_starts_on_a_line_the_later_stays() {
    let text = b"SF:a\nFN:3,f\nFN:3,g\nend_of_record\n";
    let left = "TN:\nSF:a\nFN:3,g\nFNDA:0,g\nFNF:1\nFNH:0\nend_of_record\n";
    assert_eq!(oracle::filter(text, &[(3, 3)]).map(string).unwrap(), left);
}

/// Those of one start but the last end before it, whatever start comes then.
#[test]
fn of_three_starts_on_a_line_the_last_goes_on() {
    let text = b"FN:3,f\nFN:3,g\nFN:3,h\nFN:7,i\nend_of_record\n";
    for (line, left) in [(6, "FN:3,h\nFNDA:0,h\n"), (7, "FN:7,i\nFNDA:0,i\n")] {
        let left = format!("TN:\nSF:\n{left}FNF:1\nFNH:0\nend_of_record\n");
        let filtered = oracle::filter(text, &[(line, line)]);
        assert_eq!(filtered.map(string).unwrap(), left);
    }
}

#[test]
fn case_l_a_text_gathered_with_itself() {
    let text = "TN:a\nSF:m.c\nFN:3,f\nFNDA:2,f\nDA:3,2\nDA:4,0\nend_of_record\n";
    let joined =
        "TN:a\nSF:m.c\nFN:3,f\nFNDA:4,f\nFNF:1\nFNH:1\nDA:3,4\nDA:4,0\nLF:2\nLH:1\nend_of_record\n";
    assert_eq!(text.len(), 56);
    assert_eq!(gathered(Mode::Checked, &[text, text]).unwrap(), joined);
}

#[test]
fn the_place_of_a_count_depends_on_its_tag() {
    assert_eq!(oracle::read_line(b"FNDA:x,f"), refused(5, 1, 1));
    assert_eq!(oracle::read_line(b"DA:1,x"), refused(5, 1, 2));
}

#[test]
fn a_refusal_names_its_text_and_line() {
    assert_eq!(
        gathered(Mode::Checked, &["TN:a\n", "SF:a\nTN:b\n"]),
        refused_in(1, 7, 2, 0)
    );
    assert_eq!(
        gathered(Mode::Checked, &["TN:a\n", "\n"]),
        refused_in(1, 1, 1, 0)
    );
}

#[test]
fn the_modes_differ_where_two_values_are_given() {
    let early = "FN:1,f\nDA:1,1,a\nend_of_record\n";
    let late = "FN:2,f\nDA:1,1,b\nend_of_record\n";
    let same_start = "FN:1,f\nDA:1,1,b\nend_of_record\n";
    let lossy = "TN:\nSF:\nFN:2,f\nFNDA:0,f\nFNF:1\nFNH:0\nDA:1,2,b\nLF:1\nLH:1\nend_of_record\n";
    assert_eq!(
        gathered(Mode::Checked, &[early, late]),
        refused_in(1, 11, 0, 0)
    );
    assert_eq!(
        gathered(Mode::Checked, &[early, same_start]),
        refused_in(1, 12, 0, 0)
    );
    assert_eq!(gathered(Mode::Lossy, &[early, late]).unwrap(), lossy);
}

#[test]
fn sums_that_document_01_refuses_are_outside() {
    oracle::hush_overflow();
    let calls = "FNDA:18446744073709551615,f\nFNDA:3,f\nend_of_record\n";
    let most = "DA:1,18446744073709551615\nend_of_record\n";
    let taken = "BRDA:1,0,0,18446744073709551615\nend_of_record\n";
    assert_eq!(printed(calls), Err(Fault::Outside));
    assert_eq!(gathered(Mode::Checked, &[most, most]), Err(Fault::Outside));
    assert_eq!(gathered(Mode::Lossy, &[taken, taken]), Err(Fault::Outside));
}

#[test]
fn bytes_and_pairs_that_the_rust_can_not_hold_are_outside() {
    assert_eq!(oracle::read_line(b"TN:\xff"), Err(Fault::Outside));
    assert_eq!(oracle::query(&[(1, 2), (3, 4)], 1, 1), Err(Fault::Outside));
    assert_eq!(
        oracle::query(&[(4294967295, 4294967295)], 7, 4294967295),
        Ok(true)
    );
}

/// Where the port answers otherwise, as docs/DIFFERENCES.md says: the Rust's form of FN has no end line.
#[test]
fn an_end_line_is_a_part_of_the_name() {
    let name = |line: &[u8]| match oracle::read_line(line) {
        Ok(Record::FunctionName { name, .. }) => name,
        other => panic!("{other:?}"),
    };
    assert_eq!(name(b"FN:138,168,name"), "168,name");
    assert_eq!(name(b"FN:168,138,name"), "138,name");
    let text = |end: &str| format!("FN:1,{end},f\nend_of_record\n");
    let both = gathered(Mode::Checked, &[&text("9"), &text("5")]).unwrap();
    assert!(both.contains("FN:1,5,f\nFN:1,9,f\nFNDA:0,5,f\nFNDA:0,9,f\n"));
    let nested = b"FN:3,20,f\nFN:9,g\nend_of_record\n";
    let left = "TN:\nSF:\nFN:9,g\nFNDA:0,g\nFNF:1\nFNH:0\nend_of_record\n";
    assert_eq!(oracle::filter(nested, &[(9, 9)]).map(string).unwrap(), left);
}
