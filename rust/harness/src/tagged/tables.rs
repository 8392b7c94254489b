//! Tables of tags: which load, and tables to ask with.

use crate::Rng;
use lcov_sys::{make_tags, DEFAULT_TAGS, DEFAULT_TAG_NAMES, KINDS, TAGS_LEN, TAG_SLOT};

pub const MALFORMED_TAGS: u32 = 21;
pub const EQUAL_TAGS: u32 = 22;

pub type Tags<'a> = [&'a [u8]; KINDS];

/// Tags of a tool that has its own, for the measurements.
pub const HOUSE: Tags = [
    b"test", b"file", b"func", b"calls", b"nfunc", b"hfunc", b"branch", b"nbranch", b"hbranch",
    b"line", b"nline", b"hline", b"end",
];

/// The tags of a table, or the number that refuses it: each tag is tried before two are compared.
pub fn loaded(table: &[u8]) -> Result<Tags<'_>, u32> {
    if table.len() != TAGS_LEN {
        return Err(MALFORMED_TAGS);
    }
    let (lens, slots) = table.split_at(KINDS);
    let mut tags: Tags = [b""; KINDS];
    for (kind, slot) in slots.chunks(TAG_SLOT).enumerate() {
        let len = usize::from(lens[kind]);
        let is_wrong = |byte: &u8| matches!(byte, b'\n' | b'\r' | b':');
        if len == 0
            || len > TAG_SLOT
            || slot[..len].iter().any(is_wrong)
            || slot[len..].iter().any(|&byte| byte != 0)
        {
            return Err(MALFORMED_TAGS);
        }
        tags[kind] = &slot[..len];
    }
    let is_repeated = |kind: usize| tags[..kind].contains(&tags[kind]);
    match (0..KINDS).any(is_repeated) {
        true => Err(EQUAL_TAGS),
        false => Ok(tags),
    }
}

/// The table of tags that are 1 to 16 bytes long.
pub fn of(tags: Tags) -> Vec<u8> {
    make_tags(tags).expect("tags that fit their slots").to_vec()
}

/// Few letters, so that tags are beginnings of each other, and bytes that fields have.
const LETTERS: &[u8] = b"FNDA,+1 -\0\xff";

/// A default tag, one that begins as an earlier one, or any bytes that may be in a tag.
fn some_tag(rng: &mut Rng, earlier: &[Vec<u8>]) -> Vec<u8> {
    let len = 1 + rng.below(TAG_SLOT);
    match rng.below(8) {
        0 => rng.pick(&DEFAULT_TAG_NAMES).as_bytes().to_vec(),
        1 if !earlier.is_empty() => {
            let mut tag = earlier[rng.below(earlier.len())].clone();
            tag.push(rng.pick(LETTERS));
            tag.truncate(1 + rng.below(TAG_SLOT));
            tag
        }
        2..5 => (0..1 + len / 4).map(|_| rng.pick(LETTERS)).collect(),
        _ => {
            let bytes = (0..len).map(|_| rng.byte());
            let is_free = |byte: &u8| !matches!(byte, b'\n' | b'\r' | b':');
            let mut tag: Vec<u8> = bytes.filter(is_free).collect();
            tag.resize(tag.len().max(1), b'x');
            tag
        }
    }
}

/// A table that loads.
pub fn random(rng: &mut Rng) -> Vec<u8> {
    let mut tags: Vec<Vec<u8>> = Vec::new();
    while tags.len() < KINDS {
        let tag = some_tag(rng, &tags);
        if !tags.contains(&tag) {
            tags.push(tag);
        }
    }
    let tags: Vec<&[u8]> = tags.iter().map(Vec::as_slice).collect();
    of(tags.try_into().expect("a tag for each kind"))
}

/// A table with a fault, or with several.
pub fn damaged(rng: &mut Rng) -> Vec<u8> {
    let mut table = if rng.one_in(2) {
        DEFAULT_TAGS.to_vec()
    } else {
        random(rng)
    };
    while loaded(&table).is_ok() || rng.one_in(4) {
        damage(rng, &mut table);
    }
    table
}

fn damage(rng: &mut Rng, table: &mut Vec<u8>) {
    table.resize(TAGS_LEN, 0);
    let (kind, other) = (rng.below(KINDS), rng.below(KINDS));
    let slot = |kind: usize| KINDS + TAG_SLOT * kind;
    match rng.below(8) {
        0 => table.truncate(rng.below(TAGS_LEN)),
        1 => table.push(rng.pick(b"\0x")),
        2 => table[kind] = rng.pick(&[0, 17, 255]),
        3 => table[kind] = table[kind].saturating_sub(1),
        4 => table[slot(kind) + rng.below(TAG_SLOT)] = rng.pick(b"\n\r:"),
        5 => table[slot(kind) + TAG_SLOT - 1] = rng.pick(b"x\0"),
        _ => {
            table[kind] = table[other];
            table.copy_within(slot(other)..slot(other) + TAG_SLOT, slot(kind));
        }
    }
}

/// Tables that a plausible reading takes otherwise.
pub fn special() -> Vec<Vec<u8>> {
    let default = DEFAULT_TAG_NAMES.map(str::as_bytes);
    let with = |others: &[(usize, &'static [u8])]| {
        let mut tags = default;
        for &(kind, tag) in others {
            tags[kind] = tag;
        }
        of(tags)
    };
    let mut equal_and_empty = with(&[(1, b"TN")]);
    equal_and_empty[12] = 0;
    let mut not_cleared = DEFAULT_TAGS.to_vec();
    not_cleared[0] = 1;
    let mut longer = DEFAULT_TAGS.to_vec();
    longer.push(0);
    vec![
        DEFAULT_TAGS.to_vec(),
        of(HOUSE),
        with(&[(4, b"A"), (5, b"A\0")]),
        with(&[(0, b"F"), (2, b"FN"), (3, b"FND"), (1, b"FN,")]),
        with(&[(0, b"SF"), (1, b"TN"), (9, b"BRDA"), (6, b"DA")]),
        with(&[(9, b"0123456789abcdef"), (12, b"0123456789abcdeg")]),
        with(&[(9, b" "), (6, b","), (3, b"+"), (2, b"1")]),
        with(&[(1, b"TN")]),
        with(&[(12, b"TN")]),
        with(&[(9, b"a:b")]),
        with(&[(9, b"a\nb")]),
        with(&[(9, b"a\r")]),
        equal_and_empty,
        not_cleared,
        longer,
        DEFAULT_TAGS[..TAGS_LEN - 1].to_vec(),
        Vec::new(),
    ]
}

#[cfg(test)]
mod tests {
    use super::*;

    #[test]
    fn which_tables_load() {
        let numbers = special()
            .iter()
            .map(|table| loaded(table).err())
            .collect::<Vec<_>>();
        let loads = [None; 7];
        let equal = [Some(EQUAL_TAGS); 2];
        let malformed = [Some(MALFORMED_TAGS); 8];
        assert_eq!(numbers, [&loads[..], &equal, &malformed].concat());
    }

    #[test]
    fn random_tables_load_and_damaged_ones_do_not() {
        let mut rng = Rng::new(1);
        let mut met = [0; 23];
        let mut prefixes = 0;
        for _ in 0..2_000 {
            let table = random(&mut rng);
            let tags = loaded(&table).unwrap();
            let begins = |a: &&[u8]| tags.iter().any(|b| b != a && b.starts_with(a));
            prefixes += tags.iter().filter(|tag| begins(tag)).count();
            met[loaded(&damaged(&mut rng)).unwrap_err() as usize] += 1;
        }
        assert!(prefixes > 1_000, "{prefixes}");
        assert!(met[21] > 200 && met[22] > 200, "{met:?}");
    }
}
