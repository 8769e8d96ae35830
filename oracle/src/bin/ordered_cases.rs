//! ordered_cases FOLDER
//!
//! Writes the recorded jobs under lent orders (C-16) into the folder: `stdin`, which the program `ordered` reads, and `stdout`, which
//! it must print. Prints the number and the name of each.
use std::path::Path;
use std::process::ExitCode;

use oracle::cases::ordered::{all, input, output};
use oracle::input::UNUSABLE;

fn main() -> ExitCode {
    let Some(folder) = std::env::args_os().nth(1) else {
        eprintln!("ordered_cases FOLDER");
        return ExitCode::from(UNUSABLE);
    };
    match make(Path::new(&folder)) {
        Ok(()) => ExitCode::SUCCESS,
        Err(error) => {
            eprintln!("{error}");
            ExitCode::from(UNUSABLE)
        }
    }
}

fn make(folder: &Path) -> std::io::Result<()> {
    let cases = all();
    std::fs::create_dir_all(folder)?;
    std::fs::write(folder.join("stdin"), input(&cases))?;
    std::fs::write(folder.join("stdout"), output(&cases))?;
    cases.iter().enumerate().for_each(|(number, case)| println!("{number:>2} {}", case.name));
    Ok(())
}
