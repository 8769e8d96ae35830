//! strips_expected [PATH]
//!
//! Prints what `strips` must print for a job, read from the path or from standard input. Ends with 3, and prints nothing,
//! where the job meets an elimination outside the domain of equality, so that the original can't tell.
use std::process::ExitCode;

use oracle::input::{self, OUTSIDE, UNUSABLE};
use oracle::run::expected;

fn main() -> ExitCode {
    let job = match input::job(std::env::args_os().nth(1)) {
        Ok(job) => job,
        Err(error) => {
            eprintln!("{error}");
            return ExitCode::from(UNUSABLE);
        }
    };
    match expected(&job) {
        Ok(printed) => {
            print!("{printed}");
            ExitCode::SUCCESS
        }
        Err(outside) => {
            eprintln!("{outside}");
            ExitCode::from(OUTSIDE)
        }
    }
}
