//! All short lines over small alphabets.

use super::{Visit, LAYOUTS};

/// What a body is made of: digits, signs, what parts fields, what is none of these, and what ends a line.
const BODY: &[u8] = b"019+-,:a\r\n";

/// What decides about the four fields of BRDA, which need seven bytes.
const FIELDS: &[u8] = b"1,-+\n";

/// The letters of the tags up to four letters long, and ':'.
const TAG: &[u8] = b"ABDFHLNRST:";

/// Lines that go on after sound fields, so that the short rest is about a later field.
const BEGUN: [&str; 10] = [
    "FN:1,",
    "FN:9,",
    "FN:9,10,",
    "FN:9,4294967296,",
    "FNDA:1,",
    "BRDA:1,",
    "BRDA:1,2,",
    "BRDA:1,2,3,",
    "DA:1,",
    "DA:1,2,",
];

/// Numbers one digit before they pass their type.
const NEARLY_TOO_LARGE: [&str; 7] = [
    "FN:429496729",
    "FN:1,429496729",
    "LH:429496729",
    "DA:429496729",
    "FNDA:1844674407370955161",
    "DA:1,1844674407370955161",
    "BRDA:1,2,3,1844674407370955161",
];

pub fn all(visit: Visit) {
    for layout in &LAYOUTS {
        each_string(&format!("{}:", layout.tag), BODY, 4, visit);
    }
    for head in BEGUN {
        each_string(head, BODY, 4, visit);
    }
    for head in NEARLY_TOO_LARGE {
        each_string(head, BODY, 3, visit);
    }
    each_string("BRDA:", FIELDS, 7, visit);
    each_string("", TAG, 5, visit);
}

/// A head with every string over an alphabet after it, up to a length.
pub fn each_string(head: &str, alphabet: &[u8], most: usize, visit: Visit) {
    let mut line = head.as_bytes().to_vec();
    extend(&mut line, alphabet, most, visit);
}

fn extend(line: &mut Vec<u8>, alphabet: &[u8], left: usize, visit: Visit) {
    visit(line);
    if left > 0 {
        for &byte in alphabet {
            line.push(byte);
            extend(line, alphabet, left - 1, visit);
            line.pop();
        }
    }
}

#[cfg(test)]
mod tests {
    use super::*;
    use std::collections::HashSet;

    #[test]
    fn every_string_comes_once() {
        let mut met = HashSet::new();
        let mut asked = 0;
        each_string("x", b"ab,", 4, &mut |line| {
            asked += 1;
            met.insert(line.to_vec());
        });
        assert_eq!(asked, 1 + 3 + 9 + 27 + 81);
        assert_eq!(met.len(), asked);
        assert!(met.contains(&b"x"[..]) && met.contains(&b"xb,,a"[..]));
    }
}
