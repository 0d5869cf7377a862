//! The least time of many runs.

use std::hint::black_box;
use std::time::{Duration, Instant};

/// Milliseconds of the fastest of as many runs as fit into `span`, and at least five.
pub fn best<T>(span: Duration, mut work: impl FnMut() -> T) -> f64 {
    black_box(work());
    let end = Instant::now() + span;
    let (mut least, mut runs) = (f64::INFINITY, 0);
    while runs < 5 || Instant::now() < end {
        let begun = Instant::now();
        black_box(work());
        least = least.min(begun.elapsed().as_secs_f64() * 1e3);
        runs += 1;
    }
    least
}

/// The same of work on something that is made ready before each run, which is not counted.
pub fn best_of<S, T>(
    span: Duration,
    state: &mut S,
    ready: impl Fn(&mut S),
    mut work: impl FnMut(&mut S) -> T,
) -> f64 {
    let end = Instant::now() + span;
    let (mut least, mut runs) = (f64::INFINITY, 0);
    while runs < 6 || Instant::now() < end {
        ready(state);
        let begun = Instant::now();
        black_box(work(state));
        least = least.min(begun.elapsed().as_secs_f64() * 1e3);
        runs += 1;
    }
    least
}

/// One pass over the memory, eight bytes at a time.
pub fn pass(bytes: &[u8]) -> u64 {
    let words =
        bytes.chunks_exact(8).map(|word| u64::from_le_bytes(word.try_into().expect("eight bytes")));
    words.fold(0, u64::wrapping_add)
}
