//! A file replaced by a new one beside it, which takes its name: a reader sees the old file or the new one, whatever happens on the way.

use crate::access::{list_of, remove_list, set_list};
use crate::output::{folder_of, write_slices};
use std::fs::{File, Metadata, Permissions};
use std::io::{self, ErrorKind};
use std::os::unix::fs::{fchown, MetadataExt, PermissionsExt};
use std::path::Path;
use tempfile::Builder;

/// A new file that is left behind by a crash is known by its name. It disturbs no later run, which makes a name of its own, and no run
/// removes it: it may belong to another run.
pub const PREFIX: &str = ".lcov-gather-";

/// Nobody but its owner can open the new file (tempfile makes it so) until it has the owner, the group and then the mode that it keeps.
pub fn replace(path: &Path, old: Option<&Metadata>, slices: &[&[u8]]) -> io::Result<()> {
    let folder = folder_of(path);
    let mut new = Builder::new()
        .prefix(PREFIX)
        .suffix(".tmp")
        .tempfile_in(folder)?;
    write_slices(&mut new, slices)?;
    let mode = match old {
        Some(old) => keep_rights(new.as_file(), path, old)?,
        None => 0o666 & !umask(),
    };
    new.as_file()
        .set_permissions(Permissions::from_mode(mode))?;
    new.as_file().sync_all()?;
    new.persist(path).map_err(|failed| failed.error)?;
    sync_folder(folder)
}

/// Who owns the new file as the old one.
#[derive(Debug, Clone, Copy, PartialEq, Eq)]
enum Kept {
    Both,
    Group,
    Neither,
}

/// Gives the new file the owner, group and access list of the old one, as far as that is allowed: the mode that it may have. The group's
/// rights in the mode of a file with a list are those that the list gives to anybody, so without its list only the owner has rights.
fn keep_rights(new: &File, path: &Path, old: &Metadata) -> io::Result<u32> {
    let kept = keep_owner(new, old);
    let mode = kept_mode(old.mode(), kept);
    let list = list_of(path)?;
    if let Some(list) = &list {
        if kept != Kept::Neither && set_list(new, list).is_ok() {
            return Ok(mode);
        }
    }
    remove_list(new)?;
    Ok(match list {
        Some(_) => mode & 0o700,
        None => mode,
    })
}

/// Only a superuser gives files away, and others give them to groups of their own. A replacement that must not do so is still one.
fn keep_owner(new: &File, old: &Metadata) -> Kept {
    if fchown(new, Some(old.uid()), Some(old.gid())).is_ok() {
        Kept::Both
    } else if fchown(new, None, Some(old.gid())).is_ok() {
        Kept::Group
    } else {
        Kept::Neither
    }
}

/// The old mode, or less: where the group is another, it gets what both the old group and the others had, and so do the others, among whom
/// the old group is now. A file that somebody else owns does not run as that owner or group.
fn kept_mode(mode: u32, kept: Kept) -> u32 {
    match kept {
        Kept::Both => mode & 0o7777,
        Kept::Group => mode & 0o777,
        Kept::Neither => {
            let shared = mode >> 3 & mode & 0o7;
            mode & 0o700 | shared << 3 | shared
        }
    }
}

/// The mask can only be asked for by setting it. There is one thread, and a file made in between would be private.
fn umask() -> u32 {
    // SAFETY: umask takes any number and always succeeds.
    unsafe {
        let mask = libc::umask(0o077);
        libc::umask(mask);
        mask
    }
}

/// The new name is on the disk when the folder is. A folder that may not be read, or that is on a file system which syncs no folders, can't
/// be synced, and that is no failure.
fn sync_folder(folder: &Path) -> io::Result<()> {
    let synced = File::open(folder).and_then(|folder| folder.sync_all());
    match synced {
        Err(error)
            if !matches!(
                error.kind(),
                ErrorKind::PermissionDenied | ErrorKind::InvalidInput | ErrorKind::Unsupported
            ) =>
        {
            Err(error)
        }
        _ => Ok(()),
    }
}

#[cfg(test)]
mod tests {
    use super::*;

    #[test]
    fn a_mode_is_kept_or_reduced() {
        for (mode, kept, expected) in [
            (0o100640, Kept::Both, 0o640),
            (0o104755, Kept::Both, 0o4755),
            (0o106755, Kept::Group, 0o755),
            (0o100640, Kept::Group, 0o640),
            (0o100640, Kept::Neither, 0o600),
            (0o100604, Kept::Neither, 0o600),
            (0o100664, Kept::Neither, 0o644),
            (0o100644, Kept::Neither, 0o644),
        ] {
            assert_eq!(kept_mode(mode, kept), expected, "{mode:o} {kept:?}");
        }
    }
}
