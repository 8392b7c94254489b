//! Bytes read to their end, and gunzipped on the way where they are gzip data.

use flate2::read::MultiGzDecoder;
use std::io::{self, Read};

/// The first two bytes of gzip data. No tracefile begins with them.
const MAGIC: &[u8] = &[0x1f, 0x8b];

#[derive(Debug)]
pub enum ReadError {
    /// The system can't read it.
    Io(io::Error),
    /// It is gzip data that ends too early or is not what was packed.
    Damaged(io::Error),
}

/// Appends at most `limit` bytes, two or more, of those that come out of gzip data.
pub fn read_to_end(
    mut reader: impl Read,
    limit: u64,
    bytes: &mut Vec<u8>,
) -> Result<(), ReadError> {
    let start = bytes.len();
    let first = MAGIC.len() as u64;
    // A pipe may hand over one byte at a time, so this reads on until both are there.
    let mut head = reader.by_ref().take(first);
    head.read_to_end(bytes).map_err(ReadError::Io)?;
    if &bytes[start..] != MAGIC {
        let rest = reader.take(limit - first).read_to_end(bytes);
        return rest.map(|_| ()).map_err(ReadError::Io);
    }
    bytes.truncate(start);
    let unzipped = MultiGzDecoder::new(MAGIC.chain(reader))
        .take(limit)
        .read_to_end(bytes);
    unzipped.map(|_| ()).map_err(told_apart)
}

/// What the system refuses has a number of the system.
fn told_apart(error: io::Error) -> ReadError {
    match error.raw_os_error() {
        Some(_) => ReadError::Io(error),
        None => ReadError::Damaged(error),
    }
}

#[cfg(test)]
mod tests {
    use super::*;
    use flate2::write::GzEncoder;
    use flate2::Compression;
    use std::io::Write;

    const ALL: u64 = 1 << 32;

    fn packed(text: &[u8]) -> Vec<u8> {
        let mut encoder = GzEncoder::new(Vec::new(), Compression::default());
        encoder.write_all(text).unwrap();
        encoder.finish().unwrap()
    }

    fn read(bytes: impl Read, limit: u64) -> Result<Vec<u8>, ReadError> {
        let mut read = b"before".to_vec();
        read_to_end(bytes, limit, &mut read)?;
        assert!(read.starts_with(b"before"));
        Ok(read.split_off(6))
    }

    /// Hands over one byte at a time, as a slow pipe may.
    struct Slow<'a>(&'a [u8]);

    impl Read for Slow<'_> {
        fn read(&mut self, out: &mut [u8]) -> io::Result<usize> {
            let len = out.len().min(1);
            self.0.read(&mut out[..len])
        }
    }

    #[test]
    fn packed_or_not_the_same_bytes_come_out() {
        for text in [&b""[..], b"\x1f", b"TN:\n", &b"DA:1,1\n".repeat(50_000)] {
            assert_eq!(read(text, ALL).unwrap(), text);
            assert_eq!(read(Slow(text), ALL).unwrap(), text);
            assert_eq!(read(&packed(text)[..], ALL).unwrap(), text);
            assert_eq!(read(Slow(&packed(text)), ALL).unwrap(), text);
        }
    }

    #[test]
    fn members_stand_one_after_the_other() {
        let members = [packed(b"TN:a\n"), packed(b""), packed(b"SF:b\n")].concat();
        assert_eq!(read(&members[..], ALL).unwrap(), b"TN:a\nSF:b\n");
    }

    #[test]
    fn the_limit_is_of_what_comes_out() {
        for limit in 2..7 {
            let text = &b"12345"[..limit.min(5)];
            assert_eq!(read(&b"12345"[..], limit as u64).unwrap(), text);
            assert_eq!(
                read(&packed(&[0; 1 << 20])[..], limit as u64).unwrap(),
                vec![0; limit]
            );
        }
    }

    #[test]
    fn every_cut_but_one_between_members_is_found() {
        let first = packed(b"TN:a\n");
        let both = [&first[..], &packed(b"SF:b\n")].concat();
        for len in 2..both.len() {
            let cut = read(&both[..len], ALL);
            if len == first.len() {
                assert_eq!(cut.unwrap(), b"TN:a\n");
            } else {
                assert!(matches!(cut, Err(ReadError::Damaged(_))), "{len}");
            }
        }
    }

    #[test]
    fn a_changed_byte_of_data_or_sums_is_found() {
        let text = b"DA:1,1\nDA:2,1\n";
        let whole = packed(text);
        for place in 10..whole.len() {
            let mut changed = whole.clone();
            changed[place] ^= 0x10;
            assert!(
                matches!(read(&changed[..], ALL), Err(ReadError::Damaged(_))),
                "{place}"
            );
        }
        let followed = [&whole[..], b"rest"].concat();
        assert!(matches!(
            read(&followed[..], ALL),
            Err(ReadError::Damaged(_))
        ));
    }
}
