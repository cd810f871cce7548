//! Times of two sides, taken in turn: of many short runs of each the best one
//! counts, so that what else runs on the machine is left out of both alike.

use std::hint::black_box;
use std::time::Instant;

/// How long a short run takes, about: long for a clock, short for a machine.
const SHORT_NS: f64 = 20_000.0;

/// Nanoseconds of one call, over so many calls.
fn time(calls: usize, function: &mut dyn FnMut() -> usize) -> f64 {
    let start = Instant::now();
    for _ in 0..calls {
        black_box(function());
    }
    start.elapsed().as_nanos() as f64 / calls as f64
}

/// Calls that fill a short run.
fn calls(function: &mut dyn FnMut() -> usize) -> usize {
    let once = time(1, function).min(time(3, function)).max(1.0);
    ((SHORT_NS / once) as usize).clamp(1, 1000)
}

/// The best times of one call on each side.
pub fn best(
    runs: u64,
    first: &mut dyn FnMut() -> usize,
    second: &mut dyn FnMut() -> usize,
) -> (f64, f64) {
    let (first_calls, second_calls) = (calls(first), calls(second));
    let (mut a, mut b) = (f64::INFINITY, f64::INFINITY);
    for _ in 0..runs {
        a = a.min(time(first_calls, first));
        b = b.min(time(second_calls, second));
    }
    (a, b)
}

/// The best time of one call, where there is nothing to compare it with.
pub fn alone(runs: u64, function: &mut dyn FnMut() -> usize) -> f64 {
    let calls = calls(function);
    let times = (0..runs).map(|_| time(calls, function));
    times.fold(f64::INFINITY, f64::min)
}
