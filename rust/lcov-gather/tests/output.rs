//! What `-o` names: devices, fifos and sockets are written to, links stay, and a replaced file keeps mode and owner.

mod common;

use common::{printed, said, say_not_permitted, section, Folder};
use lcov_gather::access::list_of;
use std::ffi::{CStr, CString};
use std::fs::{self, Permissions};
use std::io::Read;
use std::os::fd::FromRawFd;
use std::os::unix::ffi::OsStrExt;
use std::os::unix::fs::{chown, symlink, FileTypeExt, MetadataExt, PermissionsExt};
use std::os::unix::net::{UnixListener, UnixStream};
use std::os::unix::process::CommandExt;
use std::path::Path;
use std::process::Command;
use std::thread;
use std::time::Duration;

fn folder() -> Folder {
    Folder::with(&[("a", &result())])
}

fn result() -> String {
    section("x", &[(1, 1)])
}

fn c_path(path: &Path) -> CString {
    CString::new(path.as_os_str().as_bytes()).unwrap()
}

fn make_fifo(path: &Path) {
    // SAFETY: the path ends with byte 0.
    assert_eq!(unsafe { libc::mkfifo(c_path(path).as_ptr(), 0o600) }, 0);
}

/// A character device of the memory driver; whether it can be made and opened here.
fn make_device(path: &Path, minor: u32) -> bool {
    let mode = libc::S_IFCHR | 0o666;
    // SAFETY: the path ends with byte 0.
    let made = unsafe { libc::mknod(c_path(path).as_ptr(), mode, libc::makedev(1, minor)) };
    let usable = made == 0 && fs::OpenOptions::new().write(true).open(path).is_ok();
    if !usable {
        say_not_permitted("mknod of a character device; -o to it is not tested");
    }
    usable
}

fn is_superuser() -> bool {
    // SAFETY: geteuid has no arguments and always succeeds.
    let is_superuser = unsafe { libc::geteuid() } == 0;
    if !is_superuser {
        say_not_permitted("files of other owners; -o over them is not tested");
    }
    is_superuser
}

#[test]
fn a_fifo_is_written_to() {
    let folder = folder();
    make_fifo(&folder.path("out"));
    symlink("out", folder.path("link")).unwrap();
    for name in ["out", "link"] {
        let path = folder.path("out");
        let reader = std::thread::spawn(move || fs::read_to_string(path));
        let output = folder.run(&["-o", name, "a"]);
        // Looked at first: if the fifo was replaced, its reader waits for ever.
        let kind = fs::metadata(folder.path("out")).unwrap().file_type();
        assert!(kind.is_fifo(), "{name}");
        assert_eq!(printed(&output), "");
        assert_eq!(reader.join().unwrap().unwrap(), result());
    }
    assert_eq!(folder.names(), ["a", "link", "out"]);
}

#[test]
fn a_socket_is_written_to() {
    let folder = folder();
    let listener = UnixListener::bind(folder.path("out")).unwrap();
    let output = folder.run(&["-o", "out", "a"]);
    let kind = fs::metadata(folder.path("out")).unwrap().file_type();
    assert!(kind.is_socket());
    assert_eq!(printed(&output), "");
    let mut received = String::new();
    let (mut stream, _) = listener.accept().unwrap();
    stream.read_to_string(&mut received).unwrap();
    assert_eq!(received, result());
    // Nobody listens: an error, and the socket stays.
    drop((stream, listener));
    // A child that another test starts holds the listener until it runs its own program.
    while UnixStream::connect(folder.path("out")).is_ok() {
        thread::sleep(Duration::from_millis(1));
    }
    let output = folder.run(&["-o", "out", "a"]);
    assert_eq!(output.status.code(), Some(2));
    assert!(said(&output).starts_with("lcov-gather: out: "));
    let kind = fs::metadata(folder.path("out")).unwrap().file_type();
    assert!(kind.is_socket());
}

#[test]
fn a_device_of_mknod_is_written_to() {
    let folder = folder();
    const NULL: u32 = 3;
    const FULL: u32 = 7;
    for (name, minor, status) in [("null", NULL, 0), ("full", FULL, 2)] {
        let path = folder.path(name);
        if !make_device(&path, minor) {
            continue;
        }
        let output = folder.run(&["-o", name, "a"]);
        assert_eq!(output.status.code(), Some(status), "{name}");
        let after = fs::symlink_metadata(&path).unwrap();
        assert!(after.file_type().is_char_device(), "{name}");
        assert_eq!(after.rdev(), libc::makedev(1, minor), "{name}");
    }
}

/// A terminal is a device that any user can make. It is named by a link, so that a command at fault replaces only that.
#[test]
fn a_terminal_is_written_to() {
    let folder = folder();
    let (mut primary, mut secondary) = (0, 0);
    let mut name = [0; 64];
    // SAFETY: the numbers and the name are lent for the call, and a terminal's name is shorter than that.
    let opened = unsafe {
        libc::openpty(
            &mut primary,
            &mut secondary,
            name.as_mut_ptr(),
            std::ptr::null(),
            std::ptr::null(),
        )
    };
    assert_eq!(opened, 0);
    let name: Vec<u8> = name.iter().map(|&byte| byte as u8).collect();
    let name = String::from_utf8(name).unwrap();
    let name = name.trim_end_matches('\0');
    symlink(name, folder.path("link")).unwrap();
    // SAFETY: openpty opened it, and nothing else has it.
    let mut terminal = unsafe { fs::File::from_raw_fd(primary) };
    assert_eq!(printed(&folder.run(&["-o", "link", "a"])), "");
    let mut received = vec![0; 2 * result().len()];
    let len = terminal.read(&mut received).unwrap();
    let received = String::from_utf8(received[..len].to_vec()).unwrap();
    assert_eq!(received.replace('\r', ""), result());
    assert!(fs::metadata(name).unwrap().file_type().is_char_device());
    let link = fs::symlink_metadata(folder.path("link")).unwrap();
    assert!(link.is_symlink());
}

/// As /dev/stdout and /dev/fd/3, but links of this test's own: a command that replaces links must not harm the system's. They lead to
/// open files: standard output and a pipe are written to, another file that has a name is replaced, one without is written to.
#[test]
fn links_to_open_files() {
    let folder = folder();
    symlink("/proc/self/fd/1", folder.path("stdout")).unwrap();
    symlink("/proc/self/fd/3", folder.path("three")).unwrap();
    assert_eq!(printed(&folder.run(&["-o", "stdout", "a"])), result());
    let script = [
        r#""$0" -o stdout a > out"#,
        r#"echo before > more; "$0" -o stdout a >> more; "$0" -o /dev/fd/1 a >> more; { "$0" -o stdout a; echo after; } >> more"#,
        r#"exec 3<> gone; rm gone; "$0" -o three a; cat three > found"#,
    ];
    for line in script {
        let mut shell = Command::new("sh");
        shell.args(["-c", line, common::COMMAND]);
        let output = shell.current_dir(&folder.0).output().unwrap();
        assert_eq!(printed(&output), "", "{line}");
        assert_eq!(said(&output), "", "{line}");
    }
    assert_eq!(folder.text("out"), result());
    assert_eq!(folder.text("found"), result());
    let more = format!("before\n{}after\n", result().repeat(3));
    assert_eq!(folder.text("more"), more);
    assert_eq!(
        folder.names(),
        ["a", "found", "more", "out", "stdout", "three"]
    );
}

#[test]
fn a_link_stays_and_its_target_is_replaced() {
    let folder = folder();
    fs::create_dir(folder.path("sub")).unwrap();
    fs::write(folder.path("sub/file"), "old").unwrap();
    symlink("file", folder.path("sub/link")).unwrap();
    symlink(folder.path("sub/link"), folder.path("chain")).unwrap();
    symlink("sub/../chain", folder.path("out")).unwrap();
    let before = fs::metadata(folder.path("sub/file")).unwrap().ino();
    assert_eq!(printed(&folder.run(&["-o", "out", "a"])), "");
    for link in ["sub/link", "chain", "out"] {
        let data = fs::symlink_metadata(folder.path(link)).unwrap();
        assert!(data.is_symlink(), "{link}");
        assert_eq!(folder.text(link), result());
    }
    let after = fs::symlink_metadata(folder.path("sub/file")).unwrap();
    assert!(after.is_file() && after.ino() != before);
    assert_eq!(folder.names(), ["a", "chain", "out", "sub"]);
}

#[test]
fn a_link_to_nothing_makes_its_target() {
    let folder = folder();
    fs::create_dir(folder.path("sub")).unwrap();
    symlink("sub/link", folder.path("out")).unwrap();
    symlink("new", folder.path("sub/link")).unwrap();
    assert_eq!(printed(&folder.run(&["-o", "out", "a"])), "");
    for link in ["out", "sub/link"] {
        let data = fs::symlink_metadata(folder.path(link)).unwrap();
        assert!(data.is_symlink(), "{link}");
    }
    let new = fs::symlink_metadata(folder.path("sub/new")).unwrap();
    assert!(new.is_file());
    assert_eq!(folder.text("out"), result());
}

#[test]
fn a_folder_or_links_in_a_circle_are_errors() {
    let folder = folder();
    symlink("two", folder.path("one")).unwrap();
    symlink("one", folder.path("two")).unwrap();
    fs::create_dir(folder.path("sub")).unwrap();
    symlink("no/such/folder/out", folder.path("nowhere")).unwrap();
    for out in ["one", "sub", "nowhere", "."] {
        let output = folder.run(&["-o", out, "a"]);
        assert_eq!(output.status.code(), Some(2), "{out}");
        let start = format!("lcov-gather: {out}: ");
        assert!(said(&output).starts_with(&start), "{}", said(&output));
    }
    assert_eq!(folder.names(), ["a", "nowhere", "one", "sub", "two"]);
}

fn mode_of(path: &Path) -> u32 {
    fs::metadata(path).unwrap().mode() & 0o7777
}

#[test]
fn a_replaced_file_keeps_its_mode() {
    let folder = folder();
    let out = folder.path("out");
    for mode in [0o640, 0o600, 0o604, 0o664, 0o755, 0o400, 0o000] {
        fs::write(&out, "old").unwrap();
        fs::set_permissions(&out, Permissions::from_mode(mode)).unwrap();
        assert_eq!(printed(&folder.run(&["-o", "out", "a"])), "");
        assert_eq!(mode_of(&out), mode, "{mode:o}");
        fs::set_permissions(&out, Permissions::from_mode(0o600)).unwrap();
        assert_eq!(folder.text("out"), result());
    }
}

#[test]
fn a_replaced_file_keeps_its_owner_and_group() {
    if !is_superuser() {
        return;
    }
    let folder = folder();
    let out = folder.path("out");
    fs::write(&out, "old").unwrap();
    chown(&out, Some(12_345), Some(54_321)).unwrap();
    fs::set_permissions(&out, Permissions::from_mode(0o640)).unwrap();
    assert_eq!(printed(&folder.run(&["-o", "out", "a"])), "");
    let after = fs::metadata(&out).unwrap();
    assert_eq!((after.uid(), after.gid()), (12_345, 54_321));
    assert_eq!(mode_of(&out), 0o640);
    assert_eq!(folder.text("out"), result());
}

/// A user who may not give files away: those who could not read the old file can't read the new one.
#[test]
fn a_file_of_somebody_else_is_not_more_readable_after() {
    if !is_superuser() {
        return;
    }
    let folder = folder();
    chown(&folder.0, Some(12_345), Some(12_345)).unwrap();
    // Another process copies it: a file that this one writes to may be open in a child that another test starts, and then can't be run.
    let mut copy = Command::new("cp");
    let copy = copy.arg(common::COMMAND).arg(folder.path("command"));
    assert!(copy.status().unwrap().success());
    for (mode, group, expected) in [
        (0o640, 0, 0o600),
        (0o644, 0, 0o644),
        (0o604, 0, 0o600),
        (0o640, 12_345, 0o640),
    ] {
        let out = folder.path("out");
        fs::write(&out, "old").unwrap();
        chown(&out, Some(0), Some(group)).unwrap();
        fs::set_permissions(&out, Permissions::from_mode(mode)).unwrap();
        let mut command = Command::new(folder.path("command"));
        command.args(["-o", "out", "a"]).current_dir(&folder.0);
        let output = command.uid(12_345).gid(12_345).output().unwrap();
        assert_eq!(printed(&output), "");
        let after = fs::metadata(&out).unwrap();
        assert_eq!((after.uid(), after.gid()), (12_345, 12_345));
        assert_eq!(mode_of(&out), expected, "{mode:o} {group}");
        fs::remove_file(out).unwrap();
    }
}

/// An access list as the system takes it: the owner reads and writes, user 12,345 reads, the group and others have no right.
fn access_list() -> Vec<u8> {
    let entries = [
        (0x01, 6, u32::MAX),
        (0x02, 4, 12_345),
        (0x04, 0, u32::MAX),
        (0x10, 4, u32::MAX),
        (0x20, 0, u32::MAX),
    ];
    let mut list = 2_u32.to_le_bytes().to_vec();
    for (tag, rights, id) in entries {
        list.extend(u16::to_le_bytes(tag));
        list.extend(u16::to_le_bytes(rights));
        list.extend(u32::to_le_bytes(id));
    }
    list
}

/// Whether the file system has access lists.
fn give_list(path: &Path, attribute: &CStr, list: &[u8]) -> bool {
    let (path, from, len) = (c_path(path), list.as_ptr().cast(), list.len());
    // SAFETY: both names end with byte 0, and the list is lent with its length.
    let failed = unsafe { libc::setxattr(path.as_ptr(), attribute.as_ptr(), from, len, 0) };
    if failed != 0 {
        say_not_permitted("access lists; -o over a file with one is not tested");
    }
    failed == 0
}

#[test]
fn a_replaced_file_keeps_its_access_list() {
    let folder = folder();
    let out = folder.path("out");
    fs::write(&out, "old").unwrap();
    if !give_list(&out, c"system.posix_acl_access", &access_list()) {
        return;
    }
    assert_eq!(mode_of(&out), 0o640);
    assert_eq!(printed(&folder.run(&["-o", "out", "a"])), "");
    assert_eq!(list_of(&out).unwrap(), Some(access_list()));
    assert_eq!(mode_of(&out), 0o640);
    assert_eq!(folder.text("out"), result());
}

/// The new file is made in a folder that gives each new file a list, which the old one did not have.
#[test]
fn a_replaced_file_gets_no_access_list() {
    let folder = folder();
    let out = folder.path("out");
    fs::write(&out, "old").unwrap();
    fs::set_permissions(&out, Permissions::from_mode(0o640)).unwrap();
    if !give_list(&folder.0, c"system.posix_acl_default", &access_list()) {
        return;
    }
    assert_eq!(printed(&folder.run(&["-o", "out", "a"])), "");
    assert_eq!(list_of(&out).unwrap(), None);
    assert_eq!(mode_of(&out), 0o640);
}

#[test]
fn a_new_file_has_the_mode_that_the_umask_leaves() {
    let folder = folder();
    for (mask, mode) in [("022", 0o644), ("027", 0o640), ("077", 0o600), ("0", 0o666)] {
        let mut shell = Command::new("sh");
        let line = format!(r#"umask {mask}; exec "$0" -o out a"#);
        shell.args(["-c", &line, common::COMMAND]);
        let output = shell.current_dir(&folder.0).output().unwrap();
        assert_eq!(printed(&output), "");
        assert_eq!(mode_of(&folder.path("out")), mode, "{mask}");
        fs::remove_file(folder.path("out")).unwrap();
    }
}
