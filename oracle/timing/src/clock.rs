//! Time, on a machine that has other work: many short rounds, of which the least counts.
use std::hint::black_box;
use std::time::Instant;

pub const ROUNDS: usize = 200;
/// How long a round is to be, so that most are not interrupted.
const ROUND_NS: f64 = 60_000.0;

/// Gives the nanoseconds of a call, from one round of calls.
pub type Side<'a> = Box<dyn FnMut() -> f64 + 'a>;

pub fn round(calls: usize, mut call: impl FnMut(usize)) -> f64 {
    let start = Instant::now();
    for i in 0..calls {
        call(i);
    }
    start.elapsed().as_nanos() as f64 / calls as f64
}

/// A call that can be repeated on the same input.
pub fn side<'a, R>(mut call: impl FnMut() -> R + 'a) -> Side<'a> {
    let mut once = || round(8, |_| _ = black_box(call()));
    let calls = (ROUND_NS / once().min(once())).clamp(1.0, 10_000.0) as usize;
    Box::new(move || round(calls, |_| _ = black_box(call())))
}

/// The sides take turns, so that what else the machine does meets all of them.
pub fn least(mut sides: Vec<Side>) -> Vec<f64> {
    let mut best = vec![f64::INFINITY; sides.len()];
    for _ in 0..ROUNDS {
        for (least, side) in best.iter_mut().zip(&mut sides) {
            *least = least.min(side());
        }
    }
    best
}
