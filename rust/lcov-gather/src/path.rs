//! The path of a section in a form that is equal where the paths are.
//!
//! The library compares paths by components but hands out no key to hash, so the form is written here; a test compares it with
//! `lcov_sys::compare_paths` on many spellings. `std::path::Components` has the same rules on Unix, but not on every system.

/// The components with one '/' between two: a first '/' is the root, a '.' that begins the path stays, and empty pieces and '.' vanish.
pub fn canonical(path: &[u8]) -> Vec<u8> {
    let mut form = Vec::with_capacity(path.len());
    let is_rooted = path.starts_with(b"/");
    if is_rooted {
        form.push(b'/');
    }
    for (place, piece) in path.split(|&byte| byte == b'/').enumerate() {
        let vanishes = piece.is_empty() || (piece == b"." && place > 0);
        if vanishes {
            continue;
        }
        if !form.is_empty() && form != b"/" {
            form.push(b'/');
        }
        form.extend_from_slice(piece);
    }
    form
}

#[cfg(test)]
mod tests {
    use super::canonical;
    use lcov_sys::{compare_paths, EQUAL};

    /// Every text of up to `len` of these pieces.
    fn spellings(pieces: &[&str], len: usize) -> Vec<String> {
        let mut all = vec![String::new()];
        let mut last = all.clone();
        for _ in 0..len {
            last = last
                .iter()
                .flat_map(|text| pieces.iter().map(move |piece| format!("{text}{piece}")))
                .collect();
            all.extend(last.iter().cloned());
        }
        all
    }

    #[test]
    fn forms_are_equal_where_the_library_finds_the_paths_equal() {
        let mut compared = 0;
        for all in [
            spellings(&["/", ".", "a"], 5),
            spellings(&["/", "..", "./", "a/", "\u{e9}"], 3),
            spellings(&["/", ".", "..", "a b", "a-b", "\0"], 3),
        ] {
            for a in &all {
                for b in &all {
                    let same = canonical(a.as_bytes()) == canonical(b.as_bytes());
                    let equal = compare_paths(a.as_bytes(), b.as_bytes()) == EQUAL;
                    assert_eq!(same, equal, "{a:?} {b:?}");
                    compared += 1;
                }
            }
        }
        assert!(compared > 150_000, "{compared}");
    }

    #[test]
    fn one_form_for_the_spellings_of_a_path() {
        for (path, form) in [
            ("", ""),
            ("/", "/"),
            ("//", "/"),
            ("/.", "/"),
            (".", "."),
            ("./", "."),
            ("./.", "."),
            ("a//b", "a/b"),
            ("a/./b/", "a/b"),
            ("./a", "./a"),
            ("/a/../b", "/a/../b"),
        ] {
            assert_eq!(canonical(path.as_bytes()), form.as_bytes(), "{path}");
        }
    }
}
