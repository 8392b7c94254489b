//! Inputs of docs/DIFFERENCES.md: what the command prints for them, and what it says on standard error. lcov_column.rs compares with lcov.
//! That the Rust makes the same of them is compared by the harness, on these and many others.

mod common;

use common::Folder;

/// What the command prints for texts, or what it says of the refusal.
fn gathered(options: &[&str], texts: &[&str]) -> Result<String, String> {
    let names: Vec<String> = (0..texts.len()).map(|k| format!("t{k}")).collect();
    let names: Vec<&str> = names.iter().map(String::as_str).collect();
    let files: Vec<(&str, &str)> = names.iter().copied().zip(texts.iter().copied()).collect();
    let output = Folder::with(&files).run(&[options, &names].concat());
    if output.status.success() {
        Ok(common::printed(&output))
    } else {
        assert_eq!(output.status.code(), Some(1));
        Err(common::said_in_short(&output)
            .trim_end()
            .replacen("lcov-gather: ", "", 1))
    }
}

/// Lines parted by blanks, each with byte 10 after it, in a section of the file m.
fn section(lines: &str) -> String {
    text(&format!("SF:m {lines} end_of_record"))
}

fn text(lines: &str) -> String {
    lines.split(' ').map(|line| format!("{line}\n")).collect()
}

fn prints(texts: &[&str], printed: &str) {
    assert_eq!(gathered(&[], texts), Ok(text(printed)), "{texts:?}");
    let as_written = gathered(&["--as-written"], texts);
    assert_eq!(as_written, Ok(text(printed)), "{texts:?}");
}

fn refuses(texts: &[&str], said: &str) {
    assert_eq!(gathered(&[], texts), Err(said.to_owned()), "{texts:?}");
    let as_written = gathered(&["--as-written", "--quiet"], texts);
    assert_eq!(as_written, Err(said.to_owned()), "{texts:?}");
}

/// One text in which something is replaced: what is printed of it as it is written, and what is said without that option.
fn replaces(replacing: &str, printed: &str, said: &str) {
    let as_written = gathered(&["--as-written"], &[replacing]);
    assert_eq!(as_written, Ok(text(printed)), "{replacing}");
    let advice = "refused, since counts or test names may be lost; --as-geninfo adds them up, --as-written takes the file as it is";
    let refused = Err(format!("{said}\nlcov-gather: {advice}"));
    assert_eq!(gathered(&[], &[replacing]), refused, "{replacing}");
}

#[test]
fn order_of_lf_and_lh() {
    prints(
        &[&section("DA:1,1")],
        "TN: SF:m DA:1,1 LF:1 LH:1 end_of_record",
    );
}

#[test]
fn each_section_has_its_own_tn() {
    let two = text("TN:a SF:x DA:1,1 end_of_record SF:y DA:1,1 end_of_record");
    replaces(
        &two,
        "TN: SF:y DA:1,1 LF:1 LH:1 end_of_record TN:a SF:x DA:1,1 LF:1 LH:1 end_of_record",
        "t0:5: the section of y has no TN, and the TN at t0:1 is not for it",
    );
    refuses(
        &[&text("SF:a TN:b")],
        "t0:2: TN inside a section (refusal 7)",
    );
}

#[test]
fn a_repeated_line_or_branch_stays_as_last_given() {
    replaces(
        &section("DA:1,2 DA:1,3"),
        "TN: SF:m DA:1,3 LF:1 LH:1 end_of_record",
        "t0:3: DA:1 replaces the one at t0:2",
    );
    replaces(
        &section("BRDA:1,0,0,2 BRDA:1,0,0,3"),
        "TN: SF:m BRDA:1,0,0,3 BRF:1 BRH:1 end_of_record",
        "t0:3: BRDA:1,0,0 replaces the one at t0:2",
    );
}

#[test]
fn a_section_that_comes_again_replaces_the_first() {
    let twice = section("DA:1,1") + &section("DA:2,1");
    replaces(
        &twice,
        "TN: SF:m DA:2,1 LF:1 LH:1 end_of_record",
        "t0:4: the section of m replaces the one at t0:1",
    );
}

#[test]
fn fn_after_fnda_sets_the_count_to_0() {
    replaces(
        &section("FNDA:2,f FN:3,f"),
        "TN: SF:m FN:3,f FNDA:0,f FNF:1 FNH:0 end_of_record",
        "t0:3: FN sets the count of f, given at t0:2, to 0",
    );
}

#[test]
fn a_section_has_one_sf() {
    prints(
        &[&text(
            "DA:1,1 SF:a DA:2,1 end_of_record SF:b DA:1,1 end_of_record",
        )],
        "TN: SF:a DA:1,1 DA:2,1 LF:2 LH:2 end_of_record TN: SF:b DA:1,1 LF:1 LH:1 end_of_record",
    );
    let said = "t0:4: second SF in a section (refusal 25)";
    for [first, second] in [
        ["SF:a", "SF:b"],
        ["SF:a", "SF:a"],
        ["SF:", "SF:a"],
        ["SF:a", "SF:"],
    ] {
        let two = text(&format!("DA:1,1 {first} DA:2,1 {second} end_of_record"));
        refuses(&[&two], said);
        let mixed = text(&format!("DA:1,1 {first} DA:1,1 {second} end_of_record"));
        for text in [two, mixed] {
            assert_eq!(gathered(&["--as-geninfo"], &[&text]), Err(said.to_owned()));
        }
    }
}

#[test]
fn sections_by_test_name_and_then_by_path() {
    let two = text("TN:b SF:a DA:1,1 end_of_record TN:a SF:b DA:1,1 end_of_record");
    prints(
        &[&two],
        "TN:a SF:b DA:1,1 LF:1 LH:1 end_of_record TN:b SF:a DA:1,1 LF:1 LH:1 end_of_record",
    );
}

#[test]
fn one_path_in_two_spellings() {
    let a = text("SF:a//b DA:1,1 end_of_record");
    let b = text("SF:a/b DA:1,1 end_of_record");
    prints(&[&a, &b], "TN: SF:a//b DA:1,2 LF:1 LH:1 end_of_record");
}

#[test]
fn start_lines_and_checksums_that_differ() {
    refuses(
        &[&section("FN:1,f"), &section("FN:2,f")],
        "t1: the start lines of a function differ (refusal 11)",
    );
    refuses(
        &[&section("DA:1,1,a"), &section("DA:1,1,b")],
        "t1: the checksums of a line differ (refusal 12)",
    );
}

#[test]
fn an_unknown_or_blank_line_is_refused() {
    refuses(&["VER:1\n"], "t0:1: tag unknown (refusal 1)");
    refuses(&["\n"], "t0:1: tag unknown (refusal 1)");
}

#[test]
fn counts_with_a_sign() {
    refuses(
        &[&section("DA:1,-3")],
        "t0:2: field 2: bad digit (refusal 5)",
    );
    refuses(
        &[&section("DA:1,+3")],
        "t0:2: field 2: number with a plus sign (refusal 19)",
    );
}

#[test]
fn names_are_kept_whole() {
    prints(
        &[&section("FN:1,f(a,b)")],
        "TN: SF:m FN:1,f(a,b) FNDA:0,f(a,b) FNF:1 FNH:0 end_of_record",
    );
    let named = text("TN:a-b SF:m DA:1,1 end_of_record");
    prints(&[&named], "TN:a-b SF:m DA:1,1 LF:1 LH:1 end_of_record");
}

#[test]
fn empty_groups_are_not_printed_and_a_section_without_lines_stays() {
    prints(
        &[&section("FN:1,f")],
        "TN: SF:m FN:1,f FNDA:0,f FNF:1 FNH:0 end_of_record",
    );
}

#[test]
fn found_and_hit_lines_are_counted_anew() {
    prints(
        &[&section("DA:1,1 LF:9 LH:9")],
        "TN: SF:m DA:1,1 LF:1 LH:1 end_of_record",
    );
}

#[test]
fn sums_past_the_largest_number() {
    const MAX: &str = "18446744073709551615";
    let line = section(&format!("DA:1,{MAX}"));
    refuses(
        &[&line, &section("DA:1,1")],
        "t1: the counts of a line or branch add up past 2^64 - 1 (refusal 13)",
    );
    let function = section(&format!("FNDA:{MAX},f"));
    let held = format!("TN: SF:m FNDA:{MAX},f FNF:1 FNH:1 end_of_record");
    prints(&[&function, &section("FNDA:3,f")], &held);
    refuses(
        &[&section(&format!("FNDA:{MAX},f FNDA:3,f"))],
        "t0:3: the calls of a function add up past 2^64 - 1 (refusal 9)",
    );
}

#[test]
fn functions_say_where_they_end() {
    prints(
        &[&section("FN:138,168,name FNDA:2,name")],
        "TN: SF:m FN:138,168,name FNDA:2,name FNF:1 FNH:1 end_of_record",
    );
    for texts in [["FN:1,9,f", "FN:1,5,f"], ["FN:1,5,f", "FN:1,9,f"]] {
        prints(
            &[&section(texts[0]), &section(texts[1])],
            "TN: SF:m FN:1,9,f FNDA:0,f FNF:1 FNH:0 end_of_record",
        );
    }
    refuses(
        &[&section("FN:168,138,name")],
        "t0:2: end line below the start line (refusal 23)",
    );
}

#[test]
fn a_block_that_is_no_number() {
    refuses(
        &[&section("BRDA:1,e0,0,1")],
        "t0:2: field 2: bad digit (refusal 5)",
    );
}

#[test]
fn a_checksum_is_any_text_but_a_dash() {
    prints(
        &[&section("DA:1,2,-")],
        "TN: SF:m DA:1,2 LF:1 LH:1 end_of_record",
    );
    prints(
        &[&section("DA:1,2,any")],
        "TN: SF:m DA:1,2,any LF:1 LH:1 end_of_record",
    );
}

#[test]
fn a_path_is_any_text_and_may_be_left_out() {
    let lone = text("DA:1,1 end_of_record");
    prints(&[&lone], "TN: SF: DA:1,1 LF:1 LH:1 end_of_record");
    let relative = text("SF:../m.c DA:1,1 end_of_record");
    prints(&[&relative], "TN: SF:../m.c DA:1,1 LF:1 LH:1 end_of_record");
}

#[test]
fn lines_of_a_section_come_in_any_order() {
    prints(
        &[&section("DA:1,1 BRDA:1,0,0,- FNDA:2,f LH:1")],
        "TN: SF:m FNDA:2,f FNF:1 FNH:1 BRDA:1,0,0,- BRF:1 BRH:0 DA:1,1 LF:1 LH:1 end_of_record",
    );
}

#[test]
fn a_section_ends_whatever_follows_the_tag() {
    prints(
        &[&text("SF:m DA:1,1 end_of_record:z")],
        "TN: SF:m DA:1,1 LF:1 LH:1 end_of_record",
    );
}

#[test]
fn bytes_13_at_the_end_of_a_line_go() {
    prints(
        &["SF:m\r\nDA:1,1,-\r\nend_of_record\r\n"],
        "TN: SF:m DA:1,1 LF:1 LH:1 end_of_record",
    );
}

#[test]
fn line_numbers_have_32_bits_and_counts_64() {
    prints(
        &[&section("DA:4294967295,18446744073709551615")],
        "TN: SF:m DA:4294967295,18446744073709551615 LF:1 LH:1 end_of_record",
    );
    refuses(
        &[&section("DA:4294967296,1")],
        "t0:2: field 1: number too large (refusal 6)",
    );
    refuses(
        &[&section("DA:1,18446744073709551616")],
        "t0:2: field 2: number too large (refusal 6)",
    );
}

#[test]
fn a_field_too_many_or_too_few_is_refused() {
    refuses(&[&section("LF:1,2")], "t0:2: too many fields (refusal 3)");
    refuses(
        &[&section("DA:1")],
        "t0:2: field 2: field missing (refusal 2)",
    );
}
