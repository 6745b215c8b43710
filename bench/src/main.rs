//! Times calls of the library and of the original on the same inputs. `bench/run` builds and runs it.

mod counting;
mod edits;
mod energies;
mod growing;
mod structures;

use std::hint::black_box;
use std::time::{Duration, Instant};

/// The time of one call: the best of seven rounds, each long enough for the clock.
pub fn time<T>(mut call: impl FnMut() -> T) -> Duration {
    let mut calls = 1u32;
    loop {
        let start = Instant::now();
        for _ in 0..calls {
            black_box(call());
        }
        if start.elapsed() > Duration::from_millis(20) {
            break;
        }
        calls *= 2;
    }
    let round = |_| {
        let start = Instant::now();
        for _ in 0..calls {
            black_box(call());
        }
        start.elapsed() / calls
    };
    (0..7).map(round).min().expect("there are seven rounds")
}

fn main() {
    structures::measure();
    println!();
    counting::measure();
    println!();
    edits::measure();
    println!();
    energies::measure();
}
