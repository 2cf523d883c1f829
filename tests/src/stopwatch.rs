//! How long a call takes.

use crate::program::State;
use std::time::{Duration, Instant};

/// The call is repeated until this time is spent in it, so that the clock's own steps do not matter.
const LEAST: Duration = Duration::from_millis(20);

/// Nanoseconds per call. A call is given so many copies of `start`, made while the clock stands.
pub fn measure(start: &State, copies: usize, mut call: impl FnMut(&mut [State])) -> f64 {
    let mut states = vec![start.clone(); copies];
    let (mut spent, mut times) = (Duration::ZERO, 0);
    while spent < LEAST {
        states.iter_mut().for_each(|state| reset(state, start));
        let from = Instant::now();
        call(&mut states);
        spent += from.elapsed();
        times += 1;
    }
    spent.as_nanos() as f64 / times as f64
}

/// Calls that are timed together where they need nothing between them.
const TOGETHER: usize = 64;

/// Nanoseconds per call, of one that can be made again and again as it stands.
pub fn measure_again(mut call: impl FnMut()) -> f64 {
    let (mut spent, mut times) = (Duration::ZERO, 0);
    while spent < LEAST {
        let from = Instant::now();
        (0..TOGETHER).for_each(|_| call());
        spent += from.elapsed();
        times += TOGETHER;
    }
    spent.as_nanos() as f64 / times as f64
}

/// Into the same memory as far as the call has kept it.
fn reset(state: &mut State, start: &State) {
    state.values.copy_from_slice(&start.values);
    state.marks.copy_from_slice(&start.marks);
    state.counts.copy_from_slice(&start.counts);
}
