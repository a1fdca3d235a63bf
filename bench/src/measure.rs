//! Times of two functions that do the same, and of a plain copy of as many bytes.

use std::hint::black_box;
use std::time::{Duration, Instant};

/// A turn takes at least this long, so that the clock's own time does not count.
const TURN: Duration = Duration::from_millis(2);
/// Turns go on until this has passed.
const LONG_ENOUGH: Duration = Duration::from_millis(600);
const FEWEST_TURNS: usize = 5;

/// Nanoseconds a call in the best turn: other work on the machine only adds to a turn.
pub struct Times {
    pub ours: f64,
    pub rust: f64,
    /// A copy of the bytes that the call is given and returns.
    pub copy: f64,
}

/// Runs both, and the copy of so many bytes, in alternating turns.
pub fn times(bytes: usize, mut ours: impl FnMut(), mut rust: impl FnMut()) -> Times {
    let source = vec![1u8; bytes];
    let mut target = vec![0u8; bytes];
    let mut copy = || {
        target.copy_from_slice(black_box(&source));
        black_box(&mut target);
    };
    let calls = [
        calls_of_a_turn(&mut ours),
        calls_of_a_turn(&mut rust),
        calls_of_a_turn(&mut copy),
    ];
    let mut best = [f64::INFINITY; 3];
    let start = Instant::now();
    let mut turns = 0;
    while turns < FEWEST_TURNS || start.elapsed() < LONG_ENOUGH {
        best[0] = best[0].min(turn(&mut ours, calls[0]));
        best[1] = best[1].min(turn(&mut rust, calls[1]));
        best[2] = best[2].min(turn(&mut copy, calls[2]));
        turns += 1;
    }
    let [ours, rust, copy] = best;
    Times { ours, rust, copy }
}

/// How many calls a turn has: a first run of one call says it.
fn calls_of_a_turn(call: &mut impl FnMut()) -> u32 {
    let mut calls = 1;
    while calls < 1 << 20 {
        let start = Instant::now();
        repeat(call, calls);
        if start.elapsed() >= TURN {
            break;
        }
        calls *= 2;
    }
    calls
}

fn turn(call: &mut impl FnMut(), calls: u32) -> f64 {
    let start = Instant::now();
    repeat(call, calls);
    start.elapsed().as_nanos() as f64 / f64::from(calls)
}

fn repeat(call: &mut impl FnMut(), calls: u32) {
    for _ in 0..calls {
        call();
    }
}
