//! Cases spread over two threads.

use crate::tally::Tally;
use std::sync::atomic::{AtomicU64, Ordering::Relaxed};

const THREADS: usize = 2;

/// The case that each thread is at.
static CURRENT: [AtomicU64; THREADS] = [AtomicU64::new(0), AtomicU64::new(0)];

pub fn current() -> [u64; THREADS] {
    CURRENT.each_ref().map(|index| index.load(Relaxed))
}

/// Runs the work on each index below `count`.
pub fn spread(count: u64, work: impl Fn(u64, &mut Tally) + Sync) -> Tally {
    let next = AtomicU64::new(0);
    let worker = |current: &AtomicU64| {
        let mut tally = Tally::default();
        loop {
            let index = next.fetch_add(1, Relaxed);
            if index >= count {
                return tally;
            }
            current.store(index, Relaxed);
            work(index, &mut tally);
        }
    };
    let worker = &worker;
    let mut whole = Tally::default();
    std::thread::scope(|scope| {
        let threads = CURRENT.each_ref().map(|current| scope.spawn(move || worker(current)));
        threads.into_iter().for_each(|thread| whole.merge(thread.join().expect("a worker")));
    });
    whole
}
