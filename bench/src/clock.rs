//! Timing programs side by side: short batches in turn, and of each program the fastest.

use std::time::{Duration, Instant};

/// How long a batch takes at least: short, so that many run undisturbed.
const BATCH: Duration = Duration::from_micros(200);
/// How long the batches of one comparison take together, and how many rounds there are at least.
const TOGETHER: Duration = Duration::from_millis(250);
const LEAST_ROUNDS: usize = 15;

/// Nanoseconds a call of two programs that do the same.
#[derive(Clone, Copy, Debug)]
pub struct Times {
    pub ours: f64,
    pub peers: f64,
}

impl Times {
    /// Ours over the peer's.
    pub fn ratio(&self) -> f64 {
        self.ours / self.peers
    }
}

/// Times two calls.
pub fn side_by_side(mut ours: impl FnMut(), mut peers: impl FnMut()) -> Times {
    let [ours, peers] = fastest([&mut ours, &mut peers]);
    Times { ours, peers }
}

/// Nanoseconds a call of each of these, in turn, the fastest batch of each.
pub fn fastest<const N: usize>(mut calls: [&mut dyn FnMut(); N]) -> [f64; N] {
    let batches = calls.each_mut().map(|call| batch_calls(call));
    let mut best = [f64::INFINITY; N];
    let start = Instant::now();
    let mut rounds = 0;
    while rounds < LEAST_ROUNDS || start.elapsed() < TOGETHER {
        for at in 0..N {
            best[at] = best[at].min(nanoseconds(batches[at], calls[at]));
        }
        rounds += 1;
    }
    best
}

/// The calls that fill a batch.
fn batch_calls(call: &mut dyn FnMut()) -> usize {
    let mut calls = 1;
    while nanoseconds(calls, call) * calls as f64 <= BATCH.as_nanos() as f64 {
        calls *= 2;
    }
    calls
}

/// Nanoseconds a call, of so many.
fn nanoseconds(calls: usize, call: &mut dyn FnMut()) -> f64 {
    let start = Instant::now();
    for _ in 0..calls {
        call();
    }
    start.elapsed().as_nanos() as f64 / calls as f64
}
