//! Bytes of tracefiles in messages: what a terminal would act on, or can't show, is escaped.

/// UTF-8 is shown as it is, without control characters; every other byte as `\x1b`.
pub fn shown(bytes: &[u8]) -> String {
    let mut text = String::with_capacity(bytes.len());
    for chunk in bytes.utf8_chunks() {
        for letter in chunk.valid().chars() {
            if letter.is_control() {
                let mut utf8 = [0; 4];
                letter.encode_utf8(&mut utf8);
                escape(&utf8[..letter.len_utf8()], &mut text);
            } else {
                text.push(letter);
            }
        }
        escape(chunk.invalid(), &mut text);
    }
    text
}

fn escape(bytes: &[u8], text: &mut String) {
    for byte in bytes {
        *text += &format!("\\x{byte:02x}");
    }
}

#[cfg(test)]
mod tests {
    use super::shown;

    #[test]
    fn only_what_can_be_shown_is() {
        assert_eq!(shown(b"src/a b.c"), "src/a b.c");
        assert_eq!(shown("\u{e9}\u{4e2d}".as_bytes()), "\u{e9}\u{4e2d}");
        assert_eq!(shown(b"\x1b[2J\t\0\x7f"), "\\x1b[2J\\x09\\x00\\x7f");
        assert_eq!(shown(b"a\xff\xc3"), "a\\xff\\xc3");
        assert_eq!(shown("\u{85}".as_bytes()), "\\xc2\\x85");
        assert_eq!(shown(b""), "");
    }
}
