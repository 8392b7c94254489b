//! Reads one tracefile with the port's calls and tells how many of its lines ran.
//!
//!     cd rust/lcov-gather && cargo run --offline --release --example totals -- FILE

use lcov_sys::{Refusal, MAX_ENTRIES, WORDS, WORDS_PER_ENTRY};

fn main() {
    let path = std::env::args().nth(1).expect("usage: totals FILE");
    let text = std::fs::read(&path).expect("a file that can be read");
    match report(&text) {
        Err(refusal) => println!(
            "{path}:{}: {} (refusal {})",
            refusal.line,
            refusal.meaning(),
            refusal.number
        ),
        Ok(report) => println!(
            "{} of {} lines ran",
            sum(&report, b"LH:"),
            sum(&report, b"LF:")
        ),
    }
}

/// The text's report printed. Where the output is too short, the refusal tells the needed length.
fn report(text: &[u8]) -> Result<Vec<u8>, Refusal> {
    let mut scratch = vec![0; MAX_ENTRIES * WORDS_PER_ENTRY];
    let mut out = vec![0; 3 * text.len() + 64];
    let mut answer = [0; WORDS];
    let number = lcov_sys::read_text(text, &mut scratch, &mut out, &mut answer);
    let len = Refusal::unless_answered(number, answer)?;
    out.truncate(len as usize);
    Ok(out)
}

/// What the lines with a tag add up to.
fn sum(report: &[u8], tag: &[u8]) -> u64 {
    let lines = report.split(|&byte| byte == b'\n');
    lines
        .filter_map(|line| {
            std::str::from_utf8(line.strip_prefix(tag)?)
                .ok()?
                .parse::<u64>()
                .ok()
        })
        .sum()
}
