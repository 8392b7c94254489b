//! The joined tracefile written, whole or not at all.

use crate::failure::Failure;
use crate::replace::replace;
use std::fs::{self, Metadata, OpenOptions};
use std::io::{self, BufWriter, ErrorKind, Write};
use std::os::unix::fs::{FileTypeExt, MetadataExt};
use std::os::unix::net::UnixStream;
use std::path::{Path, PathBuf};

/// Slices are written together up to so many bytes.
const SHORT: usize = 64 << 10;

/// As many links as Linux follows.
const LINKS: usize = 40;

/// Slices of a text, one after the other.
pub fn print(slices: &[&[u8]]) -> Result<(), Failure> {
    print_to_output(slices).map_err(|error| Failure::File(PathBuf::from("standard output"), error))
}

fn print_to_output(slices: &[&[u8]]) -> io::Result<()> {
    let mut out = io::stdout().lock();
    write_slices(&mut out, slices)?;
    out.flush()
}

/// A file is replaced, also where symbolic links lead to it. A device, a fifo or a socket is written to.
pub fn write(path: &Path, slices: &[&[u8]]) -> Result<(), Failure> {
    write_to(path, slices).map_err(|error| Failure::File(path.to_owned(), error))
}

fn write_to(path: &Path, slices: &[&[u8]]) -> io::Result<()> {
    let old = match fs::metadata(path) {
        Ok(old) => Some(old),
        Err(error) if error.kind() == ErrorKind::NotFound => None,
        Err(error) => return Err(error),
    };
    match old {
        Some(old) if old.file_type().is_socket() => {
            write_slices(&mut UnixStream::connect(path)?, slices)
        }
        Some(old) if !old.is_file() => write_into(path, slices),
        old => {
            let Some(target) = target(path)? else {
                return print_to_output(slices);
            };
            if old.as_ref().is_some_and(|old| !is_at(&target, old)) {
                // A link of /proc leads to an open file that has lost its name: there is nothing to replace.
                return write_into(path, slices);
            }
            replace(&target, old.as_ref(), slices)
        }
    }
}

fn write_into(path: &Path, slices: &[&[u8]]) -> io::Result<()> {
    let mut file = OpenOptions::new().write(true).truncate(true).open(path)?;
    write_slices(&mut file, slices)
}

pub fn write_slices(out: &mut impl Write, slices: &[&[u8]]) -> io::Result<()> {
    // Short slices are put together; long ones are written from where they are.
    let mut out = BufWriter::with_capacity(SHORT, out);
    slices.iter().try_for_each(|slice| out.write_all(slice))?;
    out.flush()
}

fn is_at(path: &Path, file: &Metadata) -> bool {
    let identity = |data: &Metadata| (data.dev(), data.ino());
    fs::symlink_metadata(path).is_ok_and(|found| identity(&found) == identity(file))
}

/// Where the links lead that begin at a path; none where that is standard output, as by /dev/stdout. `fs::canonicalize` does not tell that
/// of a link to a file that is yet to be made, so the links are followed here.
fn target(path: &Path) -> io::Result<Option<PathBuf>> {
    let mut target = path.to_owned();
    for _ in 0..LINKS {
        match fs::symlink_metadata(&target) {
            Ok(data) if data.is_symlink() && is_standard_output(&target) => return Ok(None),
            Ok(data) if data.is_symlink() => {
                let next = fs::read_link(&target)?;
                target = folder_of(&target).join(next);
            }
            _ => return Ok(Some(target)),
        }
    }
    Err(io::Error::from_raw_os_error(libc::ELOOP))
}

/// Whether a link is that of /proc for standard output. What was written to that file before stays there, and so does the file.
fn is_standard_output(link: &Path) -> bool {
    let is_first = link.file_name().is_some_and(|name| name == "1");
    let open_files = fs::canonicalize("/proc/self/fd").ok();
    is_first && open_files.is_some() && fs::canonicalize(folder_of(link)).ok() == open_files
}

pub fn folder_of(path: &Path) -> &Path {
    match path.parent() {
        Some(folder) if folder.as_os_str().is_empty() => Path::new("."),
        Some(folder) => folder,
        None => path,
    }
}
