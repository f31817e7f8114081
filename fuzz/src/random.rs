//! A driver for the harness where there is no fuzzer: generated inputs, damaged at random.

use std::ffi::c_int;
use std::time::{Duration, Instant};

use crate::input::mutated;
use reference::generate::Random;

/// What a fuzzer calls with an input and its length.
type Harness = unsafe extern "C" fn(*const u8, usize) -> c_int;

/// Runs the harness for so long on the inputs of one seed after the other.
#[no_mangle]
extern "C" fn fuzz_at_random(harness: Harness, seconds: u64) {
    let (start, mut seed) = (Instant::now(), 0);
    while start.elapsed() < Duration::from_secs(seconds) {
        let input = mutated(&mut Random::new(seed));
        // SAFETY: the pointer and the length are those of one slice, which is only read.
        unsafe { harness(input.as_ptr(), input.len()) };
        seed += 1;
    }
    println!("{seed} inputs, no difference");
}
