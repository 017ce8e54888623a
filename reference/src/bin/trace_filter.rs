//! Filters the trace lines on standard input and prints the answers (document
//! 01, "Trace lines").

use std::io;
use std::process::ExitCode;

fn main() -> ExitCode {
    match reference::trace_run::run(&mut io::stdin().lock(), &mut io::stdout().lock()) {
        Ok(()) => ExitCode::SUCCESS,
        Err(error) => {
            eprintln!("trace_filter: {error}");
            ExitCode::FAILURE
        }
    }
}
