//! Times two trace programs on files of lines, the best of RUNS runs of each, from their start to their end.
mod report;

use report::{each, report};
use std::fs::File;
use std::process::{Command, Stdio};
use std::time::{Duration, Instant};

fn command(program: &str, file: &str) -> Command {
    let mut command = Command::new(program);
    command.stdin(File::open(file).expect("FILE"));
    command
}

fn printed(program: &str, file: &str) -> Vec<u8> {
    let output = command(program, file)
        .stderr(Stdio::inherit())
        .output()
        .expect(program);
    assert!(output.status.success(), "{program}: {}", output.status);
    output.stdout
}

fn time(program: &str, file: &str) -> Duration {
    let mut command = command(program, file);
    command.stdout(Stdio::null());
    let began = Instant::now();
    let status = command.status().expect(program);
    let time = began.elapsed();
    assert!(status.success(), "{program}: {status}");
    time
}

/// How many lines the file has, if both programs print the same for it. This also brings it into memory.
fn checked_lines(programs: [&str; 2], file: &str) -> usize {
    let [ours, reference] = programs.map(|program| printed(program, file));
    assert!(ours == reference, "{file}: other answers");
    // One for each line, and the total.
    ours.iter().filter(|&&byte| byte == b'\n').count() - 1
}

struct Timed<'a> {
    case: &'a str,
    file: &'a str,
    lines: usize,
    best: [Duration; 2],
}

impl Timed<'_> {
    fn run(&mut self, programs: [&str; 2]) {
        for (best, program) in self.best.iter_mut().zip(programs) {
            *best = time(program, self.file).min(*best);
        }
    }

    fn report(&self) {
        let [ours, reference] = self.best.map(|time| each(time, self.lines));
        report(self.case, ours, reference, &[]);
    }
}

fn main() {
    let words: Vec<String> = std::env::args().skip(1).collect();
    let [runs, ours, reference, cases @ ..] = &words[..] else {
        panic!("RUNS OURS REFERENCE (CASE FILE)...");
    };
    let runs: usize = runs.parse().expect("RUNS");
    let programs = [ours.as_str(), reference.as_str()];
    let mut timed: Vec<Timed> = cases
        .chunks_exact(2)
        .map(|pair| Timed {
            case: &pair[0],
            file: &pair[1],
            lines: checked_lines(programs, &pair[1]),
            best: [Duration::MAX; 2],
        })
        .collect();
    for _ in 0..runs {
        timed.iter_mut().for_each(|timed| timed.run(programs));
    }
    timed.iter().for_each(Timed::report);
}
