//! The second program's bench: events on standard input, answers and formed
//! sessions on standard output.

use std::process::ExitCode;

fn main() -> ExitCode {
    match second::bench::run(std::io::stdin(), std::io::stdout()) {
        Ok(()) => ExitCode::SUCCESS,
        Err(error) => {
            eprintln!("second-bench: {error}");
            ExitCode::FAILURE
        }
    }
}
