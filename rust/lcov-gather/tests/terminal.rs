//! The progress bar: on a terminal, of a long gather, and not with --quiet.

mod common;

use common::{section, Folder};
use std::fs::File;
use std::io::{Read, Write};
use std::os::fd::FromRawFd;
use std::process::Stdio;
use std::time::Duration;

/// Both ends of a terminal.
fn terminal() -> (File, File) {
    let (mut primary, mut secondary) = (0, 0);
    let size = libc::winsize {
        ws_row: 24,
        ws_col: 80,
        ws_xpixel: 0,
        ws_ypixel: 0,
    };
    // SAFETY: all places are lent for the call.
    let opened = unsafe {
        let name = std::ptr::null_mut();
        libc::openpty(&mut primary, &mut secondary, name, std::ptr::null(), &size)
    };
    assert_eq!(opened, 0);
    // SAFETY: openpty opened both, and nothing else has them.
    unsafe { (File::from_raw_fd(primary), File::from_raw_fd(secondary)) }
}

/// What the terminal shows while a file and then, after a wait, standard input are gathered.
fn shown(options: &[&str], wait: Duration) -> String {
    let folder = Folder::with(&[("a", &section("x", &[(1, 1)]))]);
    let (mut primary, secondary) = terminal();
    let mut command = folder.command(&[options, &["a", "-", "a"]].concat());
    let mut child = command
        .stdin(Stdio::piped())
        .stdout(Stdio::null())
        .stderr(secondary)
        .spawn()
        .unwrap();
    // The command's own end of the terminal is the only one left when this is dropped.
    drop(command);
    std::thread::sleep(wait);
    let mut input = child.stdin.take().unwrap();
    input.write_all(section("x", &[(1, 1)]).as_bytes()).unwrap();
    drop(input);
    let mut shown = Vec::new();
    let mut buffer = [0; 4096];
    // The end of a terminal whose other end is closed is an error.
    while let Ok(len @ 1..) = primary.read(&mut buffer) {
        shown.extend_from_slice(&buffer[..len]);
    }
    assert!(child.wait().unwrap().success());
    String::from_utf8_lossy(&shown).into_owned()
}

const LONG: Duration = Duration::from_millis(900);

#[test]
fn a_long_gather_shows_a_bar_and_takes_it_back() {
    let shown = shown(&[], LONG);
    assert!(shown.contains("of 3 files"), "{shown:?}");
    let (_, after) = shown.rsplit_once("files").unwrap();
    assert!(
        after.contains("\x1b[2K") || after.contains("\x1b[K"),
        "{shown:?}"
    );
    assert!(
        shown.contains("a: the same file as a, counted once more\r\n"),
        "{shown:?}"
    );
}

#[test]
fn a_quiet_one_shows_nothing() {
    assert_eq!(shown(&["--quiet"], LONG), "");
}

#[test]
fn a_short_one_shows_no_bar() {
    let shown = shown(&[], Duration::ZERO);
    assert!(!shown.contains("files"), "{shown:?}");
}
