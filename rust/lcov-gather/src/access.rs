//! The access list (POSIX ACL) of a file: rights of named users and groups beside its mode.

use std::ffi::{CStr, CString};
use std::fs::File;
use std::io;
use std::os::fd::AsRawFd;
use std::os::unix::ffi::OsStrExt;
use std::path::Path;

const LIST: &CStr = c"system.posix_acl_access";

/// As the system tells it; none where the file has none, or its file system knows none.
pub fn list_of(path: &Path) -> io::Result<Option<Vec<u8>>> {
    let path = CString::new(path.as_os_str().as_bytes())?;
    // A list is one attribute, which has at most 64 KiB.
    let mut list = vec![0_u8; 64 << 10];
    // SAFETY: both names end with byte 0, and the list is lent with its length.
    let len = unsafe {
        let (to, most) = (list.as_mut_ptr().cast(), list.len());
        libc::getxattr(path.as_ptr(), LIST.as_ptr(), to, most)
    };
    match usize::try_from(len) {
        Ok(len) => {
            list.truncate(len);
            Ok(Some(list))
        }
        Err(_) => none_if_absent().map(|()| None),
    }
}

pub fn set_list(file: &File, list: &[u8]) -> io::Result<()> {
    // SAFETY: the name ends with byte 0, and the list is lent with its length.
    let failed = unsafe {
        let (from, len) = (list.as_ptr().cast(), list.len());
        libc::fsetxattr(file.as_raw_fd(), LIST.as_ptr(), from, len, 0)
    };
    match failed {
        0 => Ok(()),
        _ => Err(io::Error::last_os_error()),
    }
}

/// Takes away the list that the file got from its folder.
pub fn remove_list(file: &File) -> io::Result<()> {
    // SAFETY: the name ends with byte 0.
    let failed = unsafe { libc::fremovexattr(file.as_raw_fd(), LIST.as_ptr()) };
    match failed {
        0 => Ok(()),
        _ => none_if_absent(),
    }
}

/// The last call failed: that is no error where there is no list.
fn none_if_absent() -> io::Result<()> {
    let error = io::Error::last_os_error();
    match error.raw_os_error() {
        Some(libc::ENODATA | libc::EOPNOTSUPP) => Ok(()),
        _ => Err(error),
    }
}
