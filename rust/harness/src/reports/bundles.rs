//! Bundles of both kinds as bytes: made, and taken apart by the words of SPEC 7.1 and 7.5.

pub use lcov_sys::MAX_TEXTS;

pub(super) const WORD: usize = 4;

/// So many numbers a bundle has of each text: start and length, and with revisions the run and the revision too.
const PLAIN: usize = 2;
const REVISED: usize = 4;

/// A text of a bundle with revisions.
#[derive(Debug, Clone, Copy, PartialEq, Eq)]
pub struct Sent<T> {
    pub run: u32,
    pub revision: u32,
    pub text: T,
}

/// The bundle with these text bytes, each text a start and a length in them.
pub fn encoded(bytes: &[u8], texts: &[(usize, usize)]) -> Vec<u8> {
    let rows: Vec<[usize; PLAIN]> = texts.iter().map(|&(start, len)| [start, len]).collect();
    laid_out(bytes, &rows)
}

/// The same with revisions: of each text start, length, run and revision.
pub fn encoded_revisions(bytes: &[u8], texts: &[[usize; REVISED]]) -> Vec<u8> {
    laid_out(bytes, texts)
}

/// The first numbers of all texts stand before the second ones, and so on.
fn laid_out<const NUMBERS: usize>(bytes: &[u8], texts: &[[usize; NUMBERS]]) -> Vec<u8> {
    let mut bundle = Vec::new();
    put(&mut bundle, texts.len());
    put(&mut bundle, bytes.len());
    for place in 0..NUMBERS {
        texts.iter().for_each(|text| put(&mut bundle, text[place]));
    }
    bundle.extend_from_slice(bytes);
    bundle
}

pub(super) fn put(bundle: &mut Vec<u8>, number: usize) {
    let number = u32::try_from(number).expect("bundles are short");
    bundle.extend_from_slice(&number.to_le_bytes());
}

/// The bundle of these texts, one after another.
pub fn of<T: AsRef<[u8]>>(texts: &[T]) -> Vec<u8> {
    let (bytes, places) = in_a_row(texts.iter().map(AsRef::as_ref));
    encoded(&bytes, &places)
}

/// The same with revisions.
pub fn of_revisions<T: AsRef<[u8]>>(sent: &[Sent<T>]) -> Vec<u8> {
    let (bytes, places) = in_a_row(sent.iter().map(|sent| sent.text.as_ref()));
    let rows: Vec<[usize; REVISED]> = places
        .iter()
        .zip(sent)
        .map(|(&(start, len), sent)| [start, len, sent.run as usize, sent.revision as usize])
        .collect();
    encoded_revisions(&bytes, &rows)
}

/// The texts one after another, and where each of them is.
fn in_a_row<'a>(texts: impl Iterator<Item = &'a [u8]>) -> (Vec<u8>, Vec<(usize, usize)>) {
    let (mut bytes, mut places) = (Vec::new(), Vec::new());
    for text in texts {
        places.push((bytes.len(), text.len()));
        bytes.extend_from_slice(text);
    }
    (bytes, places)
}

/// Where the numbers end and the text bytes begin.
pub fn head_len(texts: usize) -> usize {
    head::<PLAIN>(texts)
}

/// The same with revisions.
pub fn revisions_head_len(texts: usize) -> usize {
    head::<REVISED>(texts)
}

fn head<const NUMBERS: usize>(texts: usize) -> usize {
    2 * WORD + NUMBERS * WORD * texts
}

/// The texts in their order; None where the bundle is not well formed.
pub fn decoded(bundle: &[u8]) -> Option<Vec<&[u8]>> {
    let texts = taken_apart::<PLAIN>(bundle)?;
    Some(texts.into_iter().map(|(_, text)| text).collect())
}

/// The same of a bundle with revisions.
pub fn decoded_revisions(bundle: &[u8]) -> Option<Vec<Sent<&[u8]>>> {
    let texts = taken_apart::<REVISED>(bundle)?.into_iter();
    let sent = texts.map(|([_, _, run, revision], text)| Sent {
        run,
        revision,
        text,
    });
    Some(sent.collect())
}

/// Each text with its numbers.
fn taken_apart<const NUMBERS: usize>(bundle: &[u8]) -> Option<Vec<([u32; NUMBERS], &[u8])>> {
    let many = number(bundle, 0)? as usize;
    let total = number(bundle, 1)? as usize;
    if many > MAX_TEXTS || bundle.len() != head::<NUMBERS>(many) + total {
        return None;
    }
    let bytes = &bundle[head::<NUMBERS>(many)..];
    (0..many)
        .map(|text| {
            let numbers = std::array::from_fn(|place| number(bundle, 2 + place * many + text));
            let numbers = numbers.map(|number| number.expect("the head is there"));
            let (start, len) = (numbers[0] as usize, numbers[1] as usize);
            Some((numbers, bytes.get(start..start + len)?))
        })
        .collect()
}

/// The number at a place, counted in numbers. Sums of two of them don't pass 64 bits.
pub(super) fn number(bundle: &[u8], place: usize) -> Option<u32> {
    let bytes = bundle.get(place * WORD..place * WORD + WORD)?;
    Some(u32::from_le_bytes(bytes.try_into().ok()?))
}

#[cfg(test)]
mod tests {
    use super::*;

    #[test]
    fn a_bundle_is_taken_apart_again() {
        let texts: [&[u8]; 3] = [b"TN:a\n", b"", b"x"];
        assert_eq!(decoded(&of(&texts)).unwrap(), texts);
        let overlapping = encoded(b"abc", &[(0, 2), (1, 2), (0, 2)]);
        assert_eq!(decoded(&overlapping).unwrap(), [b"ab", b"bc", b"ab"]);
        assert!(decoded(&of::<&[u8]>(&[])).unwrap().is_empty());
    }

    #[test]
    fn so_is_one_with_revisions() {
        let sent = |run, revision, text: &'static [u8]| Sent {
            run,
            revision,
            text,
        };
        let all = [
            sent(9, 1, b"TN:a\n"),
            sent(u32::MAX, 0, b""),
            sent(9, 2, b"x"),
        ];
        let bundle = of_revisions(&all);
        assert_eq!(decoded_revisions(&bundle).unwrap(), all);
        assert_eq!(bundle.len(), revisions_head_len(3) + 6);
        assert!(decoded(&bundle).is_none());
        let numbers: Vec<u8> = [1, 2, 0, 2, 7, 8].map(u32::to_le_bytes).concat();
        let expected = [&numbers[..], b"ab"].concat();
        assert_eq!(of_revisions(&[sent(7, 8, b"ab")]), expected);
        assert_eq!(of_revisions::<&[u8]>(&[]), of::<&[u8]>(&[]));
    }

    #[test]
    fn what_is_not_well_formed() {
        assert!(decoded(b"").is_none());
        assert!(decoded(&encoded(b"abc", &[(1, 3)])).is_none());
        assert!(decoded(&encoded(b"", &[(0, 0); 65])).is_none());
        assert!(decoded(&encoded(b"", &[(0, 0); 64])).is_some());
        let mut longer = encoded(b"abc", &[(0, 3)]);
        longer.push(0);
        assert!(decoded(&longer).is_none());
    }
}
