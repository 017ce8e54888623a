//! The line that is printed for a case.
use std::time::Duration;

/// The times are in nanoseconds. What is timed besides is named, and has a ratio of its own.
pub fn report(case: &str, ours: f64, reference: f64, besides: &[(&str, f64)]) {
    print!(
        "{case} ours={} reference={} ratio={:.2}",
        nanoseconds(ours),
        nanoseconds(reference),
        ours / reference
    );
    for &(name, time) in besides {
        print!(
            " {name}={} {name}_ratio={:.2}",
            nanoseconds(time),
            ours / time
        );
    }
    println!();
}

/// Nanoseconds for each of so many calls or lines.
pub fn each(time: Duration, count: usize) -> f64 {
    time.as_nanos() as f64 / count as f64
}

/// A tenth matters only for short times.
fn nanoseconds(time: f64) -> String {
    if time < 100.0 {
        format!("{time:.1}")
    } else {
        format!("{time:.0}")
    }
}
