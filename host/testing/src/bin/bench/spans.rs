//! Spans of processor time, in each of which a call is made again and again.
//! A single short call cannot be timed: the clock is read in as much time, and
//! what other machines on the same processor take away is charged late.

use crate::clock::processor_time;
use std::time::Duration;

/// Microseconds of a call in each span: spans of at least `span`, one after
/// another until `turn` is over, after at least one call that does not count.
pub fn measured(span: Duration, turn: Duration, mut once: impl FnMut()) -> Vec<f64> {
    let batch = batch(span / 20, &mut once);
    let begin = processor_time();
    let mut spans = Vec::new();
    while spans.is_empty() || processor_time() - begin < turn {
        spans.push(one(span, batch, &mut once));
    }
    spans
}

/// How many calls take so long: the clock is looked at after as many.
fn batch(long: Duration, once: &mut impl FnMut()) -> u32 {
    let mut calls = 1;
    while repeated(calls, once) < long {
        calls *= 2;
    }
    calls
}

/// Microseconds of a call in one span.
fn one(span: Duration, batch: u32, once: &mut impl FnMut()) -> f64 {
    let mut took = Duration::ZERO;
    let mut calls = 0.0;
    while took < span {
        took += repeated(batch, once);
        calls += f64::from(batch);
    }
    took.as_secs_f64() * 1e6 / calls
}

fn repeated(calls: u32, once: &mut impl FnMut()) -> Duration {
    let begin = processor_time();
    for _ in 0..calls {
        once();
    }
    processor_time() - begin
}

/// The middle one, or the mean of the two in the middle.
pub fn median(spans: &[f64]) -> f64 {
    let mut sorted = spans.to_vec();
    sorted.sort_by(f64::total_cmp);
    let half = sorted.len() / 2;
    match sorted.len() % 2 {
        1 => sorted[half],
        _ => (sorted[half - 1] + sorted[half]) / 2.0,
    }
}

#[cfg(test)]
mod tests {
    use super::median;

    #[test]
    fn the_median_is_in_the_middle() {
        assert_eq!(median(&[7.0]), 7.0);
        assert_eq!(median(&[90.0, 1.0, 2.0]), 2.0);
        assert_eq!(median(&[4.0, 100.0, 1.0, 2.0]), 3.0);
    }
}
