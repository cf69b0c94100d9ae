//! Rounds in turn, so that what the machine does meanwhile falls on all alike.
use std::hint::black_box;
use std::time::Instant;

/// The nanoseconds of one call: the least of the rounds, and the median.
#[derive(Clone, Copy)]
pub struct Time {
    pub least: f64,
    pub median: f64,
}

/// Times each of the functions in turn, round after round. A round calls a function as often as fills a fifth of a millisecond.
pub fn in_turn(rounds: usize, calls: &mut [&mut dyn FnMut() -> usize]) -> Vec<Time> {
    let repeats: Vec<u32> = calls.iter_mut().map(|call| repeats(call)).collect();
    let mut times = vec![Vec::with_capacity(rounds); calls.len()];
    for _ in 0..rounds {
        for (at, call) in calls.iter_mut().enumerate() {
            let start = Instant::now();
            for _ in 0..repeats[at] {
                black_box(call());
            }
            times[at].push(start.elapsed().as_nanos() as f64 / f64::from(repeats[at]));
        }
    }
    times.into_iter().map(summed_up).collect()
}

fn repeats(call: &mut dyn FnMut() -> usize) -> u32 {
    let start = Instant::now();
    black_box(call());
    let once = start.elapsed().as_nanos().max(1);
    (200_000 / once).clamp(1, 10_000) as u32
}

fn summed_up(mut times: Vec<f64>) -> Time {
    times.sort_by(f64::total_cmp);
    Time { least: times[0], median: times[times.len() / 2] }
}

/// Nanoseconds as the tables show them: three places, and five of what is short.
pub fn shown(time: f64) -> String {
    if time < 0.1 {
        format!("{time:.5}")
    } else {
        format!("{time:.3}")
    }
}
