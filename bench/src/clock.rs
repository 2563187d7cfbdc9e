//! Pieces of work timed side by side.

use std::hint::black_box;
use std::time::{Duration, Instant};

pub const ROUNDS: usize = 200;
pub const ROUND: Duration = Duration::from_millis(1);

/// Makes so many calls and says how long they took.
pub type Turn<'a> = Box<dyn FnMut(u32) -> Duration + 'a>;

/// The loop is inside, so that no call goes through a pointer.
pub fn turn<'a, T>(mut work: impl FnMut() -> T + 'a) -> Turn<'a> {
    Box::new(move |calls| {
        let start = Instant::now();
        (0..calls).for_each(|_| {
            black_box(work());
        });
        start.elapsed()
    })
}

/// The shortest time of a call in nanoseconds, of each rival in any round; in each round all of them take their turns.
pub fn shortest(rivals: &mut [&mut Turn]) -> Vec<f64> {
    let calls: Vec<u32> = rivals.iter_mut().map(|rival| calls_a_round(rival)).collect();
    let mut times = vec![f64::MAX; rivals.len()];
    for _ in 0..ROUNDS {
        for ((rival, calls), time) in rivals.iter_mut().zip(&calls).zip(&mut times) {
            *time = time.min(rival(*calls).as_nanos() as f64 / f64::from(*calls));
        }
    }
    times
}

fn calls_a_round(rival: &mut Turn) -> u32 {
    let mut calls = 1;
    while rival(calls) < ROUND {
        calls *= 2;
    }
    calls
}
