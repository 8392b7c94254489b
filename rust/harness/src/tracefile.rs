//! Lines as `geninfo` writes them, for the measure of speed.

use crate::Rng;

const FOLDERS: [&str; 8] = [
    "/home/lab/recogniser/src/decoder",
    "/home/lab/recogniser/src/decoder/lattice",
    "/home/lab/recogniser/src/acoustic/features",
    "/home/lab/recogniser/src/language_model",
    "/home/lab/recogniser/include/recogniser/util",
    "/home/lab/recogniser/build/generated/protocol",
    "/usr/include/c++/12/bits",
    "/usr/include/x86_64-linux-gnu/c++/12/bits",
];

const WORDS: [&str; 16] = [
    "decode", "frame", "lattice", "beam", "prune", "score", "token", "state", "emit", "window",
    "feature", "buffer", "search", "commit", "reset", "weight",
];

/// A tracefile's lines, sections of so many source files. Most are DA, then BRDA, then FN and FNDA.
pub fn lines(rng: &mut Rng, files: usize) -> Vec<String> {
    let mut lines = Vec::new();
    for _ in 0..files {
        section(rng, &mut lines);
    }
    lines
}

fn section(rng: &mut Rng, lines: &mut Vec<String>) {
    lines.push(format!(
        "TN:{}_utterances_{}",
        rng.pick(&WORDS),
        rng.below(100)
    ));
    lines.push(format!(
        "SF:{}/{}.cc",
        rng.pick(&FOLDERS),
        compound(rng, '_')
    ));
    functions(rng, lines);
    branches(rng, lines);
    instrumented(rng, lines);
    lines.push("end_of_record".to_owned());
}

fn functions(rng: &mut Rng, lines: &mut Vec<String>) {
    let names: Vec<String> = (0..4 + rng.below(16)).map(|_| mangled(rng)).collect();
    for name in &names {
        lines.push(format!("FN:{},{name}", 1 + rng.below(2_000)));
    }
    for name in &names {
        lines.push(format!("FNDA:{},{name}", count(rng)));
    }
    found_and_hit(rng, lines, "FN", names.len());
}

fn branches(rng: &mut Rng, lines: &mut Vec<String>) {
    let many = rng.below(80);
    for _ in 0..many {
        let (line, block) = (1 + rng.below(2_000), rng.below(4));
        let taken = if rng.one_in(3) {
            "-".to_owned()
        } else {
            count(rng).to_string()
        };
        lines.push(format!("BRDA:{line},{block},{},{taken}", rng.below(8)));
    }
    found_and_hit(rng, lines, "BR", many);
}

/// Checksums are rare: `geninfo` writes them only where it is told to.
fn instrumented(rng: &mut Rng, lines: &mut Vec<String>) {
    let many = 40 + rng.below(240);
    let with_checksums = rng.one_in(10);
    let mut line = rng.below(60);
    for _ in 0..many {
        line += 1 + rng.below(4);
        let checksum = if with_checksums {
            format!(",{}", md5_like(rng))
        } else {
            String::new()
        };
        lines.push(format!("DA:{line},{}{checksum}", count(rng)));
    }
    found_and_hit(rng, lines, "L", many);
}

fn found_and_hit(rng: &mut Rng, lines: &mut Vec<String>, tag: &str, found: usize) {
    lines.push(format!("{tag}F:{found}"));
    lines.push(format!("{tag}H:{}", rng.below(found + 1)));
}

/// A third was never run; the others' counts go up to a hundred million.
fn count(rng: &mut Rng) -> u64 {
    if rng.one_in(3) {
        return 0;
    }
    let most = 10u64.pow(1 + rng.below(8) as u32);
    1 + rng.word() % most
}

fn compound(rng: &mut Rng, between: char) -> String {
    format!("{}{between}{}", rng.pick(&WORDS), rng.pick(&WORDS))
}

/// A C++ name as the compiler writes it.
fn mangled(rng: &mut Rng) -> String {
    let class = compound(rng, '_');
    let function = compound(rng, '_');
    format!(
        "_ZN10recogniser{}{class}{}{function}ERKSt6vectorIfSaIfEEm",
        class.len(),
        function.len()
    )
}

/// As long as the Base64 of an MD5 sum.
fn md5_like(rng: &mut Rng) -> String {
    const BASE64: &[u8; 64] = b"ABCDEFGHIJKLMNOPQRSTUVWXYZabcdefghijklmnopqrstuvwxyz0123456789+/";
    (0..22).map(|_| char::from(rng.pick(BASE64))).collect()
}

#[cfg(test)]
mod tests {
    use super::*;

    #[test]
    fn a_tracefile_is_readable_and_mostly_da() {
        let lines = lines(&mut Rng::new(1), 100);
        let text: String = lines.iter().map(|line| format!("{line}\n")).collect();
        let report = oracle::read_text(text.as_bytes()).expect("it is readable");
        assert!(!oracle::print_report(report).is_empty());
        let with = |tag: &str| lines.iter().filter(|line| line.starts_with(tag)).count();
        assert!(with("DA:") * 2 > lines.len());
        assert!(with("BRDA:") > with("FN:") && with("FN:") == with("FNDA:") && with("FN:") > 400);
    }
}
