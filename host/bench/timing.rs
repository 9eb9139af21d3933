//! Times several ways of doing the same work beside each other.

use std::array;
use std::time::Instant;

/// Nanoseconds for each call of a way, in the quickest round, and the median over the rounds of the
/// first way's time to this one's.
pub struct Timing {
    pub time: f64,
    pub ratio: f64,
}

/// A way of doing the work: makes so many calls and gives the nanoseconds for each.
pub type Way<'a> = Box<dyn FnMut(usize) -> f64 + 'a>;

/// The way that makes a call by itself. The calls are timed where they are known, so that the box
/// is opened once in a round and not for each of them.
pub fn way<'a>(mut work: impl FnMut() + 'a) -> Way<'a> {
    Box::new(move |calls| per_call(calls, &mut work))
}

/// Runs all ways in turn, `calls` times each in a round, so that whatever else the machine does
/// falls on all. The ratio is taken within a round. The first round warms the caches and is not
/// counted.
pub fn side_by_side<const WAYS: usize>(
    rounds: usize,
    calls: usize,
    mut ways: [Way; WAYS],
) -> [Timing; WAYS] {
    let times: Vec<Vec<f64>> =
        (0..=rounds).map(|_| ways.iter_mut().map(|way| way(calls)).collect()).collect();
    let counted = &times[1..];
    array::from_fn(|way| Timing {
        time: least(counted.iter().map(|round| round[way])),
        ratio: median(counted.iter().map(|round| round[0] / round[way])),
    })
}

fn per_call(calls: usize, work: &mut impl FnMut()) -> f64 {
    let began = Instant::now();
    for _ in 0..calls {
        work();
    }
    began.elapsed().as_nanos() as f64 / calls as f64
}

fn least(values: impl Iterator<Item = f64>) -> f64 {
    values.fold(f64::INFINITY, f64::min)
}

fn median(values: impl Iterator<Item = f64>) -> f64 {
    let mut sorted: Vec<f64> = values.collect();
    sorted.sort_by(f64::total_cmp);
    sorted[sorted.len() / 2]
}
