//! Times the entry against the original on complete fits. See README.md.

mod archive;
mod bench_fits;
mod bench_memory;

use bench_fits::{Fit, fits};
use bench_memory::Memory;
use std::hint::black_box;
use std::process::ExitCode;

/// Timed batches of each side, in turn.
const REPEATS: usize = 25;
/// What a batch takes, about.
const BATCH_SECONDS: f64 = 0.004;
const OUT_BYTES: usize = 512;
/// Coordinates and maxcor of the rows in which the entry is to take at most half the time; in the
/// others at most as long.
const HALVED: (usize, u8) = (64, 10);

fn main() -> ExitCode {
    println!("load {}", load());
    println!("   n maxcor gradients   fits replies iterations   entry us    rust us  ratio  goal");
    let mut missed = 0;
    for n in [3, 10, 64] {
        for maxcor in [5, 10, 16] {
            for supplied in [true, false] {
                let goal = if (n, maxcor) == HALVED { 0.5 } else { 1.0 };
                missed += usize::from(row(n, maxcor, supplied, goal) > goal);
            }
        }
    }
    println!("load {}", load());
    println!("rows that meet their goal: {}, that miss it: {missed}", 18 - missed);
    if missed == 0 { ExitCode::SUCCESS } else { ExitCode::FAILURE }
}

fn load() -> String {
    std::fs::read_to_string("/proc/loadavg").unwrap_or_default().trim().to_string()
}

/// Prints a row and gives its ratio.
fn row(n: usize, maxcor: u8, supplied: bool, goal: f64) -> f64 {
    let fits = fits(n, maxcor, supplied);
    let mut memories: Vec<Memory> = fits.iter().map(Memory::of).collect();
    check(&fits, &mut memories);
    let mut out = [0; OUT_BYTES];
    let mut entry = || {
        for fit in &fits {
            black_box(archive::entry(black_box(&fit.record), black_box(&mut out)));
        }
    };
    let mut rust = || {
        for memory in &mut memories {
            black_box(memory.run());
        }
    };
    let (entry_rounds, rust_rounds) = (rounds(&mut entry), rounds(&mut rust));
    let mut times = [Vec::new(), Vec::new()];
    for _ in 0..REPEATS {
        times[0].push(batch(&mut entry, entry_rounds));
        times[1].push(batch(&mut rust, rust_rounds));
    }
    let [entry, rust] = times.map(|times| 1e6 * median(times) / fits.len() as f64);
    let ratio = entry / rust;
    println!(
        "{n:4} {maxcor:6} {:11} {:4} {:7.0} {:10.0} {entry:10.2} {rust:10.2} {ratio:6.3} {goal:5.1}",
        if supplied { "supplied" } else { "differenced" },
        fits.len(),
        mean(&fits, |fit| fit.replies),
        mean(&fits, |fit| fit.iterations),
    );
    ratio
}

fn mean(fits: &[Fit], of: impl Fn(&Fit) -> usize) -> f64 {
    fits.iter().map(of).sum::<usize>() as f64 / fits.len() as f64
}

/// Both sides end every fit at the same point.
fn check(fits: &[Fit], memories: &mut [Memory]) {
    for (fit, memory) in fits.iter().zip(memories) {
        let mut out = [0; OUT_BYTES];
        let number = archive::entry(&fit.record, &mut out);
        let point: Vec<u8> = memory.run().iter().flat_map(|xi| xi.to_le_bytes()).collect();
        assert!(memory.is_spent(), "every reply is used");
        assert_eq!(number, 0, "the fit has ended");
        assert_eq!(out[..point.len()], point, "the same point");
    }
}

/// How many times the work goes into a batch.
fn rounds(work: &mut impl FnMut()) -> usize {
    let mut rounds = 1;
    loop {
        let seconds = batch(work, rounds) * rounds as f64;
        if seconds >= BATCH_SECONDS {
            return rounds;
        }
        rounds *= 2;
    }
}

/// Seconds of this thread for one round, over a batch.
fn batch(work: &mut impl FnMut(), rounds: usize) -> f64 {
    let start = thread_seconds();
    for _ in 0..rounds {
        work();
    }
    (thread_seconds() - start) / rounds as f64
}

fn median(mut times: Vec<f64>) -> f64 {
    times.sort_by(f64::total_cmp);
    times[times.len() / 2]
}

#[repr(C)]
struct Timespec {
    seconds: i64,
    nanoseconds: i64,
}

unsafe extern "C" {
    fn clock_gettime(clock: i32, time: *mut Timespec) -> i32;
}

/// Processor time of this thread, which other programs do not lengthen.
fn thread_seconds() -> f64 {
    const THREAD_CLOCK: i32 = 3;
    let mut time = Timespec { seconds: 0, nanoseconds: 0 };
    // SAFETY: the struct is the C library's timespec on this platform.
    let failed = unsafe { clock_gettime(THREAD_CLOCK, &mut time) };
    assert_eq!(failed, 0, "the thread's clock can be read");
    time.seconds as f64 + 1e-9 * time.nanoseconds as f64
}
