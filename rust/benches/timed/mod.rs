//! Calls timed in rounds.

use std::time::{Duration, Instant};

pub const ROUNDS: usize = 301;
pub const ROUND: Duration = Duration::from_micros(500);

/// Something timed in rounds, each of as many calls as fill about the time of a round.
pub struct Timed<F: FnMut()> {
    call: F,
    calls: u32,
    /// Nanoseconds a call, one for each round.
    pub times: Vec<f64>,
}

impl<F: FnMut()> Timed<F> {
    pub fn new(mut call: F) -> Timed<F> {
        let mut calls = 1;
        loop {
            let start = Instant::now();
            for _ in 0..calls {
                call();
            }
            if start.elapsed() >= ROUND {
                return Timed { call, calls, times: vec![] };
            }
            calls *= 2;
        }
    }

    pub fn round(&mut self) {
        let start = Instant::now();
        for _ in 0..self.calls {
            (self.call)();
        }
        self.times.push(start.elapsed().as_nanos() as f64 / f64::from(self.calls));
    }
}

pub fn median(mut times: Vec<f64>) -> f64 {
    times.sort_by(f64::total_cmp);
    times[times.len() / 2]
}
