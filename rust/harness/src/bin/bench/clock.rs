//! The clock: the time that this thread has had a processor, which does not run while other programs have it.

/// How long the work takes, in seconds.
pub fn seconds(work: impl FnOnce()) -> f64 {
    let start = now();
    work();
    now() - start
}

fn now() -> f64 {
    let mut time = libc::timespec {
        tv_sec: 0,
        tv_nsec: 0,
    };
    // SAFETY: the time is lent for the call alone.
    let status = unsafe { libc::clock_gettime(libc::CLOCK_THREAD_CPUTIME_ID, &mut time) };
    assert_eq!(status, 0, "each thread has this clock");
    time.tv_sec as f64 + time.tv_nsec as f64 / 1e9
}

/// A move to another processor would empty the caches of one side's round.
pub fn stay_on_this_processor() {
    // SAFETY: all zeros is a set of no processors, and the set is lent for the calls alone.
    let status = unsafe {
        let mut processors: libc::cpu_set_t = std::mem::zeroed();
        libc::CPU_SET(libc::sched_getcpu() as usize, &mut processors);
        libc::sched_setaffinity(0, size_of::<libc::cpu_set_t>(), &processors)
    };
    if status != 0 {
        eprintln!("bench: the process may move between processors");
    }
}
