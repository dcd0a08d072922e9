//! Times, in nanoseconds for one call: the least of several rounds, each long enough for the clock.

use std::hint::black_box;
use std::time::{Duration, Instant};

const ROUNDS: usize = 8;
const ROUND: Duration = Duration::from_millis(4);

/// How often `call` fits into a round.
fn times(mut call: impl FnMut()) -> u32 {
    let mut times = 1u32;
    loop {
        let start = Instant::now();
        for _ in 0..times {
            call();
        }
        if start.elapsed() >= ROUND || times >= 1 << 20 {
            return times;
        }
        times *= 2;
    }
}

/// A call that leaves everything as it was. The first rounds, in which buffers and caches become warm, are among those that the least is taken of.
pub fn repeated<T>(mut call: impl FnMut() -> T) -> f64 {
    let times = times(|| drop(black_box(call())));
    let round = |_| {
        let start = Instant::now();
        for _ in 0..times {
            black_box(call());
        }
        start.elapsed().as_nanos() as f64 / f64::from(times)
    };
    (0..ROUNDS).map(round).fold(f64::INFINITY, f64::min)
}

/// A call that uses up what it is given; making that is not timed.
pub fn used_up<S>(mut make: impl FnMut() -> S, mut call: impl FnMut(&mut S), each: usize) -> f64 {
    let round = |_| {
        let mut given: Vec<S> = (0..each).map(|_| make()).collect();
        let start = Instant::now();
        for given in &mut given {
            call(black_box(given));
        }
        start.elapsed().as_nanos() as f64 / each as f64
    };
    (0..ROUNDS).map(round).fold(f64::INFINITY, f64::min)
}
