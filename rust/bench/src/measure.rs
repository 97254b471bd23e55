//! Times of two calls, taken in turn.

use crate::lines::{Case, Library, Line, Memory};
use std::time::{Duration, Instant};

/// How often each of the two is timed.
const ROUNDS: usize = 101;
/// What one timing should take at least. Short ones meet less of what else the machine does.
const LEAST: Duration = Duration::from_micros(100);

/// A call to be timed: a line, by a library, for each of the cases.
#[derive(Clone, Copy)]
pub struct Timed<'a> {
    pub line: Line,
    pub library: Library,
    pub cases: &'a [Case],
}

impl Timed<'_> {
    /// The time of so many turns of the cases.
    fn time(self, turns: usize, memory: &mut Memory) -> Duration {
        let start = Instant::now();
        for _ in 0..turns {
            for case in self.cases {
                self.line.run(self.library, case, memory);
            }
        }
        start.elapsed()
    }

    /// Microseconds of one call.
    fn call(self, time: Duration, turns: usize) -> f64 {
        time.as_secs_f64() * 1e6 / (turns * self.cases.len()) as f64
    }
}

/// What the rounds gave.
pub struct Ratio {
    /// The first's time by the second's: the median of the rounds, and the quarters below and above it.
    pub median: f64,
    pub lower: f64,
    pub upper: f64,
    /// The median times of one call, in microseconds.
    pub first: f64,
    pub second: f64,
}

/// Times the first and the second one after the other, the order changing with the round. Both make as many turns, so
/// that neither has its cases more often in a row.
pub fn ratio(first: Timed, second: Timed, memory: &mut Memory) -> Ratio {
    let mut turns = 1;
    while first.time(turns, memory).min(second.time(turns, memory)) < LEAST {
        turns *= 2;
    }
    let mut times = Vec::new();
    for round in 0..ROUNDS {
        let (a, b);
        if round % 2 == 0 {
            a = first.time(turns, memory);
            b = second.time(turns, memory);
        } else {
            b = second.time(turns, memory);
            a = first.time(turns, memory);
        }
        times.push((first.call(a, turns), second.call(b, turns)));
    }
    let quarters = |value: fn(&(f64, f64)) -> f64| {
        let mut values: Vec<f64> = times.iter().map(value).collect();
        values.sort_by(f64::total_cmp);
        [1, 2, 3].map(|quarter| values[quarter * (ROUNDS - 1) / 4])
    };
    let [lower, median, upper] = quarters(|(a, b)| a / b);
    Ratio { median, lower, upper, first: quarters(|(a, _)| *a)[1], second: quarters(|(_, b)| *b)[1] }
}
