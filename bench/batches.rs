//! How long a batch takes that is timed.
use std::time::Duration;

/// Long enough that reading the clock does not matter, short enough to run undisturbed now and then on a loaded machine.
const LEAST: Duration = Duration::from_millis(2);

/// How many rounds make a batch long enough. Three have to be, as a disturbed one takes longer than it should.
pub fn rounds_needed(mut batch: impl FnMut(usize) -> Duration) -> usize {
    let mut rounds = 1;
    while !(0..3).all(|_| batch(rounds) >= LEAST) {
        rounds *= 2;
    }
    rounds
}
