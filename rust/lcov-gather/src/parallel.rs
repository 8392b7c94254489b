//! Work on many things by several threads. The answers come in the order of the things, whoever worked on them.

use std::sync::atomic::{AtomicUsize, Ordering};
use std::thread;

/// `work` on each number below `count`. A worker has its own state and takes the next number when it is done with one.
pub fn map<S: Send, R: Send>(
    workers: &mut [S],
    count: usize,
    work: impl Fn(&mut S, usize) -> R + Sync,
) -> Vec<R> {
    let next = AtomicUsize::new(0);
    let work_on_next = |worker: &mut S| {
        let mut done = Vec::new();
        loop {
            let number = next.fetch_add(1, Ordering::Relaxed);
            if number >= count {
                return done;
            }
            done.push((number, work(worker, number)));
        }
    };
    let (first, others) = workers.split_first_mut().expect("a worker");
    let spare = count.saturating_sub(1).min(others.len());
    let others = &mut others[..spare];
    let mut all = thread::scope(|scope| {
        let work_on_next = &work_on_next;
        // Where the system gives no more threads, those that there are do the work.
        let threads: Vec<_> = others
            .iter_mut()
            .map_while(|worker| {
                let thread = thread::Builder::new();
                thread
                    .spawn_scoped(scope, move || work_on_next(worker))
                    .ok()
            })
            .collect();
        let mut all = work_on_next(first);
        for thread in threads {
            all.extend(thread.join().expect("a worker ends"));
        }
        all
    });
    all.sort_unstable_by_key(|(number, _)| *number);
    all.into_iter().map(|(_, answer)| answer).collect()
}

#[cfg(test)]
mod tests {
    use super::*;

    #[test]
    fn answers_come_in_order_and_each_number_once() {
        for workers in [1, 2, 7] {
            for count in [0, 1, 2, 100] {
                let mut workers = vec![0_usize; workers];
                let answers = map(&mut workers, count, |done, number| {
                    *done += 1;
                    number * number
                });
                let expected: Vec<usize> = (0..count).map(|number| number * number).collect();
                assert_eq!(answers, expected);
                assert_eq!(workers.iter().sum::<usize>(), count);
            }
        }
    }
}
