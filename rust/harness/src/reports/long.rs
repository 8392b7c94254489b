//! Random texts with one long section: thousands of lines over hundreds of keys, in the orders of tools and in none.

use super::workloads::names::Names;
use super::workloads::shuffle;
use crate::Rng;

const MOST_FUNCTIONS: usize = 1500;
const MOST_LINES: usize = 3000;

/// Calls whose sum may pass 2^64 - 1.
const LARGE: [u64; 4] = [1 << 62, 1 << 63, u64::MAX - 1, u64::MAX];

/// A section without other ones, which the Rust reads or refuses for the sum of its calls.
pub fn text(rng: &mut Rng) -> Vec<u8> {
    let kinds = [
        Names::Mangled,
        Names::Plain,
        Names::Prefixed { groups: 3 },
        Names::Repeated,
    ];
    let many = 1 + rng.below(MOST_FUNCTIONS);
    let functions = rng.pick(&kinds).of(rng, many);
    let large = rng.one_in(4);
    let mut lines = match rng.below(3) {
        0 => in_turn(rng, &functions, large),
        1 => one_after_the_other(rng, &functions, large),
        _ => mixed(rng, &functions, large),
    };
    let numbers = 1 + rng.below(MOST_LINES);
    let data = (0..rng.below(MOST_LINES)).map(|_| data_line(rng, numbers));
    lines.extend(data.collect::<Vec<_>>());
    if rng.one_in(3) {
        shuffle(rng, &mut lines);
    }
    let mut text = String::from("TN:a\nSF:a/b\n");
    for line in lines {
        text.push_str(&line);
        text.push('\n');
    }
    text.push_str("end_of_record\n");
    text.into_bytes()
}

/// FN and FNDA of each function, as geninfo has them.
fn in_turn(rng: &mut Rng, functions: &[String], large: bool) -> Vec<String> {
    let mut lines = Vec::new();
    for name in functions {
        lines.push(start(rng, name));
        lines.push(calls(rng, name, large));
    }
    lines
}

/// All FN and then all FNDA, as lcov has them; some functions have no FNDA or several.
fn one_after_the_other(rng: &mut Rng, functions: &[String], large: bool) -> Vec<String> {
    let mut lines: Vec<String> = functions.iter().map(|name| start(rng, name)).collect();
    for name in functions {
        for _ in 0..rng.below(3) {
            lines.push(calls(rng, name, large));
        }
    }
    lines
}

/// FN and FNDA of any function, again and again.
fn mixed(rng: &mut Rng, functions: &[String], large: bool) -> Vec<String> {
    let many = 2 * functions.len();
    let mut lines = Vec::new();
    for _ in 0..many {
        let name = &functions[rng.below(functions.len())];
        if rng.one_in(3) {
            lines.push(start(rng, name));
        } else {
            lines.push(calls(rng, name, large));
        }
    }
    lines
}

fn start(rng: &mut Rng, name: &str) -> String {
    format!("FN:{},{name}", rng.below(9999))
}

fn calls(rng: &mut Rng, name: &str, large: bool) -> String {
    let count = if large && rng.one_in(700) {
        rng.pick(&LARGE)
    } else {
        rng.below(100) as u64
    };
    format!("FNDA:{count},{name}")
}

/// DA or BRDA of one of so many lines.
fn data_line(rng: &mut Rng, numbers: usize) -> String {
    let line = rng.below(numbers);
    if rng.one_in(3) {
        let (block, branch) = (rng.below(2), rng.below(4));
        return format!("BRDA:{line},{block},{branch},{}", rng.below(9));
    }
    format!("DA:{line},{}", rng.below(100))
}

#[cfg(test)]
mod tests {
    use super::*;
    use crate::reports::expected::Expected;
    use crate::reports::Asked;

    #[test]
    fn most_texts_are_read_and_some_refused() {
        let mut rng = Rng::new(1);
        let texts: Vec<Vec<u8>> = (0..60).map(|_| text(&mut rng)).collect();
        let told = |text: &Vec<u8>| Expected::of(Asked::Text(text)).unwrap().told.is_ok();
        let read = texts.iter().filter(|text| told(text)).count();
        assert!(30 < read && read < 60, "{read} of 60 are read");
    }
}
