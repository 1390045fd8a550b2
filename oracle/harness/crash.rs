//! A crash of the entry, told with the cases that were at work.

use crate::work;

/// Illegal instruction, abort, bus error, arithmetic, bad address.
const SIGNALS: [i32; 5] = [4, 6, 7, 8, 11];

unsafe extern "C" {
    fn signal(number: i32, handler: extern "C" fn(i32)) -> usize;
    fn _exit(status: i32) -> !;
}

/// From here on a crash is counted as a failure.
pub fn watch() {
    for number in SIGNALS {
        // SAFETY: the handler ends the process.
        unsafe { signal(number, tell) };
    }
}

extern "C" fn tell(number: i32) {
    println!("signal {number} at one of the cases {:?}", work::current());
    println!("0 passed, 1 failed");
    // SAFETY: nothing is left to be done.
    unsafe { _exit(1) }
}
