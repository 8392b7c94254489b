//! The command: its words are parsed, what they ask for is done, and the exit status tells how that went.

use lcov_gather::options::{self, Asked};
use lcov_gather::{output, reporter, run};
use std::process::ExitCode;

/// Blocks of so many bytes are mapped by themselves, and given back when they are freed. Otherwise what the threads read and wrote stays.
const MAPPED: i32 = 128 << 10;

fn main() -> ExitCode {
    // SAFETY: the call takes any number; one that it refuses changes nothing.
    unsafe { libc::mallopt(libc::M_MMAP_THRESHOLD, MAPPED) };
    let done = match options::parse(std::env::args_os()) {
        Ok(Asked::Print(text)) => output::print(&[&text]).map(|()| 0),
        Ok(Asked::Gather(options)) => run::run(&options),
        Err(failure) => Err(failure),
    };
    match done {
        Ok(status) => ExitCode::from(status),
        Err(failure) => {
            reporter::tell(&failure);
            ExitCode::from(failure.status())
        }
    }
}
