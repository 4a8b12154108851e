//! Times of several calls in turn.

use std::time::{Duration, Instant};

/// The rounds of a case.
const ROUNDS: usize = 101;
/// About how long each call is repeated in a round.
const TURN: Duration = Duration::from_millis(1);
/// How long rounds of slow calls go on beginning.
const LONG: Duration = Duration::from_secs(5);

/// The microseconds of each call in one round.
pub type Round<const CALLS: usize> = [f64; CALLS];

/// How long a call takes so many times.
fn time(times: u32, call: &mut dyn FnMut()) -> Duration {
    let start = Instant::now();
    for _ in 0..times {
        call();
    }
    start.elapsed()
}

/// How many times a call takes about a turn.
fn times_for_a_turn(call: &mut dyn FnMut()) -> u32 {
    let mut times = 1;
    while time(times, call) < TURN {
        times *= 2;
    }
    times
}

/// Times the calls in turn, round after round.
pub fn rounds<const CALLS: usize>(calls: [&mut dyn FnMut(); CALLS]) -> Vec<Round<CALLS>> {
    let mut calls = calls.map(|call| (times_for_a_turn(call), call));
    let mut round = || {
        calls
            .each_mut()
            .map(|(times, call)| 1e6 * time(*times, call).as_secs_f64() / f64::from(*times))
    };
    (0..ROUNDS).map(|_| round()).collect()
}

/// The same for calls that may take seconds: each is made once in a round, and
/// there are as many rounds as begin within five seconds.
pub fn slow_rounds<const CALLS: usize>(mut calls: [&mut dyn FnMut(); CALLS]) -> Vec<Round<CALLS>> {
    let start = Instant::now();
    let mut round = || {
        calls
            .each_mut()
            .map(|call| 1e6 * time(1, *call).as_secs_f64())
    };
    let mut rounds = vec![round()];
    while start.elapsed() < LONG {
        rounds.push(round());
    }
    rounds
}

/// The median of a number that each round has.
pub fn median<const CALLS: usize>(
    rounds: &[Round<CALLS>],
    number: impl Fn(&Round<CALLS>) -> f64,
) -> f64 {
    let mut numbers: Vec<f64> = rounds.iter().map(number).collect();
    numbers.sort_unstable_by(f64::total_cmp);
    numbers[numbers.len() / 2]
}
