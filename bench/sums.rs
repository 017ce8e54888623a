//! Times three sums of the same octets, the best of RUNS batches of each: by 32-bit groups, which is ours, by a plain loop over 16-bit
//! words that the same compiler made, and the reference's.
mod batches;
#[path = "../compare/sums/library.rs"]
mod library;
mod report;

use batches::rounds_needed;
use library::{sum_by_groups, sum_by_words};
use report::{each, report};
use std::hint::black_box;
use std::time::{Duration, Instant};

/// A header without options, one with 40 bytes of them, and what an Ethernet frame holds of a stream.
const LENGTHS: [usize; 3] = [20, 60, 1460];

type Sum = fn(&[u8]) -> u32;
/// In the order in which they are reported.
const SUMS: [Sum; 3] = [sum_by_groups, sum_by_words, reference_sum];

fn reference_sum(octets: &[u8]) -> u32 {
    reference::checksum::ones_complement_sum(octets).into()
}

fn batch(sum: Sum, octets: &[u8], count: usize) -> Duration {
    let began = Instant::now();
    for _ in 0..count {
        black_box(sum(black_box(octets)));
    }
    began.elapsed()
}

/// The octets of a case with the best times so far.
struct Timed<'a> {
    octets: &'a [u8],
    counts: [usize; 3],
    best: [Duration; 3],
}

impl<'a> Timed<'a> {
    fn new(octets: &'a [u8]) -> Timed<'a> {
        let [ours, words, reference] = SUMS.map(|sum| sum(octets));
        assert_eq!(ours, words, "sum/{}", octets.len());
        assert_eq!(ours, reference, "sum/{}", octets.len());
        Timed {
            octets,
            counts: SUMS.map(|sum| rounds_needed(|count| batch(sum, octets, count))),
            best: [Duration::MAX; 3],
        }
    }

    /// A batch of each, one after the other, so that noise meets all.
    fn run(&mut self) {
        for (at, sum) in SUMS.into_iter().enumerate() {
            self.best[at] = batch(sum, self.octets, self.counts[at]).min(self.best[at]);
        }
    }

    fn report(&self) {
        let [ours, words, reference] = [0, 1, 2].map(|at| each(self.best[at], self.counts[at]));
        let case = format!("sum/{}", self.octets.len());
        report(&case, ours, reference, &[("words", words)]);
    }
}

fn main() {
    let runs = std::env::args().nth(1).and_then(|word| word.parse().ok());
    let runs: usize = runs.expect("RUNS");
    // Octets of every value.
    let octets: Vec<u8> = (0..1460).map(|at| (at * 7 + at / 256) as u8).collect();
    let mut timed: Vec<Timed> = LENGTHS.iter().map(|&n| Timed::new(&octets[..n])).collect();
    // A case's runs are far apart: a disturbance that lasts does not meet all of them.
    for _ in 0..runs {
        timed.iter_mut().for_each(Timed::run);
    }
    timed.iter().for_each(Timed::report);
}
