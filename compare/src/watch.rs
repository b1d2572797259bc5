//! Which case runs, so that it can be named when the program ends in the middle of it.

use crate::walk::Number;
use std::cell::Cell;
use std::ffi::{c_int, c_void};
use std::io::Write;
use std::sync::atomic::{AtomicU64, Ordering};

extern "C" {
    fn signal(number: c_int, handler: extern "C" fn(c_int)) -> usize;
    fn write(file: c_int, bytes: *const c_void, length: usize) -> isize;
    fn _exit(status: c_int) -> !;
}

/// Illegal instruction, trap, abort, bus error, arithmetic fault, segment fault.
const SIGNALS: [c_int; 6] = [4, 5, 6, 7, 8, 11];

/// The seed, for the line that tells how to run the case again.
static SEED: AtomicU64 = AtomicU64::new(0);

thread_local! {
    /// The case that this thread runs, as one number.
    static CASE: Cell<u64> = const { Cell::new(0) };
    /// What it is at, in words.
    static CALLING: Cell<&str> = const { Cell::new("no call") };
}

/// Notes the case that this thread is about to run.
pub fn begin(number: Number) {
    CASE.set(number.packed());
}

/// Notes what this thread is about to call.
pub fn calling(what: &'static str) {
    CALLING.set(what);
}

/// Says on standard error how to run this thread's case again; without a heap, which may be what broke.
fn say_again(what: &str) {
    let (seed, number) = (SEED.load(Ordering::Relaxed), Number::unpacked(CASE.get()));
    let mut line = [0; 300];
    let mut rest = &mut line[..];
    let _ = writeln!(rest, "compare: {what} in {}; again: --seed {seed} --only {number}", CALLING.get());
    let length = 300 - rest.len();
    // SAFETY: so many bytes of the line are filled.
    unsafe { write(2, line.as_ptr().cast(), length) };
}

/// A fault ends the program with the case's number. The thread that faults is the one that runs the case.
extern "C" fn fault(number: c_int) {
    say_again(match number {
        7 | 11 => "bytes touched that were not lent, or written that were lent for reading,",
        _ => "a fault",
    });
    // SAFETY: nothing runs after it.
    unsafe { _exit(1) }
}

/// From here on a fault or a panic names its case.
pub fn start(seed: u64) {
    SEED.store(seed, Ordering::Relaxed);
    for number in SIGNALS {
        // SAFETY: `fault` never returns.
        unsafe { signal(number, fault) };
    }
    let usual = std::panic::take_hook();
    std::panic::set_hook(Box::new(move |info| {
        usual(info);
        say_again("a panic");
    }));
}
