//! Times of both sides, taken in turns.

use std::hint::black_box;
use std::time::Instant;

use reference::call::Call;
use trials::sides::{proved, rival, Side};

use crate::rows::Row;

/// Nanoseconds a call, and the median of the turns' ratios.
pub struct Times {
    pub proved: f64,
    pub rust: f64,
    pub ratio: f64,
}

const TURNS: usize = 101;

pub fn measured(row: &Row) -> Times {
    let calls = row.pool(4_096 / row.sources.min(64));
    let mut buffer = vec![0; calls.iter().map(|call| call.room).max().unwrap_or(0)];
    assert!(calls.iter().all(|call| made(proved, call) == made(rival, call)), "both sides do the same");
    let mut turn = |side| nanoseconds(side, &calls, &mut buffer);
    let turns: Vec<[f64; 2]> = (0..TURNS).map(|_| [turn(proved), turn(rival)]).collect();
    Times {
        proved: median(turns.iter().map(|turn| turn[0])),
        rust: median(turns.iter().map(|turn| turn[1])),
        ratio: median(turns.iter().map(|turn| turn[0] / turn[1])),
    }
}

fn made(side: Side, call: &Call) -> ([u64; 3], Vec<u8>) {
    let mut buffer = vec![call.fill; call.room];
    let answer = side(call.entry, &call.first, &call.second, call.number, &mut buffer);
    (answer, buffer)
}

fn nanoseconds(side: Side, calls: &[Call], buffer: &mut [u8]) -> f64 {
    let start = Instant::now();
    for call in calls {
        let call = black_box(call);
        black_box(side(call.entry, &call.first, &call.second, call.number, &mut buffer[..call.room]));
    }
    start.elapsed().as_nanos() as f64 / calls.len() as f64
}

fn median(numbers: impl Iterator<Item = f64>) -> f64 {
    let mut numbers: Vec<f64> = numbers.collect();
    numbers.sort_by(f64::total_cmp);
    numbers[numbers.len() / 2]
}
