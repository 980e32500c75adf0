//! Two engines timed in turns.

use std::hint::black_box;
use std::time::{Duration, Instant};

/// Samples of each engine, and the fewest of calls that take long; the median is reported.
const SAMPLES: usize = 301;
const FEWEST: usize = 21;

/// What all samples of an engine may take, as long as there are enough.
const ALL_SAMPLES: Duration = Duration::from_secs(3);

/// The least time of a sample: long beside the clock's steps, and short beside the turns of
/// other programs, so that these disturb few samples.
const SAMPLE_TIME: Duration = Duration::from_micros(100);

/// Seconds of one call.
pub struct Times {
    pub engine: f64,
    pub reference: f64,
}

/// Times two engines in turns.
pub fn compare(mut engine: impl FnMut() -> bool, mut reference: impl FnMut() -> bool) -> Times {
    assert_eq!(engine(), reference(), "the engines agree");
    let counts = [calls_a_sample(&mut engine), calls_a_sample(&mut reference)];
    let mut samples = [Vec::new(), Vec::new()];
    for _ in 0..sample_count(&mut engine).min(sample_count(&mut reference)) {
        samples[0].push(seconds(&mut engine, counts[0]));
        samples[1].push(seconds(&mut reference, counts[1]));
    }
    let [engine, reference] = samples.map(median);
    Times { engine, reference }
}

/// How many samples of a call there are.
fn sample_count(call: &mut impl FnMut() -> bool) -> usize {
    let most = ALL_SAMPLES.as_secs_f64() / seconds(call, 1);
    (most as usize).clamp(FEWEST, SAMPLES)
}

/// How many calls one sample has.
fn calls_a_sample(call: &mut impl FnMut() -> bool) -> u32 {
    let mut count = 1;
    while seconds(call, count) * f64::from(count) < SAMPLE_TIME.as_secs_f64() {
        count *= 2;
    }
    count
}

/// Seconds a call, over so many calls.
fn seconds(call: &mut impl FnMut() -> bool, count: u32) -> f64 {
    let start = Instant::now();
    for _ in 0..count {
        black_box(call());
    }
    start.elapsed().as_secs_f64() / f64::from(count)
}

fn median(mut samples: Vec<f64>) -> f64 {
    samples.sort_by(f64::total_cmp);
    samples[samples.len() / 2]
}

/// A time in microseconds.
pub fn micros(seconds: f64) -> String {
    format!("{:.2}", seconds * 1e6)
}
