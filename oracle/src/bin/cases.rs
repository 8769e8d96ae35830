//! cases FOLDER
//!
//! Writes the recorded jobs into the folder: `cases.txt`, and `README.md` that says how it was made. The latter also lists the jobs under
//! an order, which `ordered_cases` writes.
use std::path::Path;
use std::process::ExitCode;

use oracle::cases::{all, figures, kind, ordered, write};
use oracle::input::UNUSABLE;

fn main() -> ExitCode {
    let Some(folder) = std::env::args_os().nth(1) else {
        eprintln!("cases FOLDER");
        return ExitCode::from(UNUSABLE);
    };
    match make(Path::new(&folder)) {
        Ok(()) => ExitCode::SUCCESS,
        Err(error) => {
            eprintln!("{error}");
            ExitCode::from(UNUSABLE)
        }
    }
}

fn make(folder: &Path) -> std::io::Result<()> {
    let cases = all();
    let rows: String = figures(&cases).iter().map(|(kind, count)| format!("| {kind} | {count} |\n")).collect();
    std::fs::create_dir_all(folder)?;
    std::fs::write(folder.join("cases.txt"), write(&cases))?;
    std::fs::write(folder.join("README.md"), format!("{README}{rows}{ORDERED}{}", ordered_rows()))?;
    print!("{rows}");
    println!("{} cases", cases.len());
    Ok(())
}

/// Number and name of each job under an order, the figure told and what is printed.
fn ordered_rows() -> String {
    let row = |(number, case): (usize, &ordered::OrderedCase)| {
        let told = case.told();
        format!("| {number} | {} | {} | {} |\n", case.name, told.figure, kind(&told.text))
    };
    ordered::all().iter().enumerate().map(row).collect()
}

const README: &str = "\
# Recorded jobs

`cases.txt` holds jobs and what `strips` must print for each. A line begins with what it is: `=` the name of the next
case, `<` one record of its job in hexadecimal, `>` one printed line without its line feed, `#` a remark; then a space.
A case ends where the next begins. The job is the bytes of its `<` lines joined; a case without any is the empty job. A
case without `>` lines prints nothing.

How it was made: the program `cases` of the crate `oracle` writes each job, by hand or from a random generator that its
name seeds, and takes its answer from `strips_expected`: reading and refusals follow document 01, arithmetic, messages
and marginals come from the original compiled over stand-ins for its matrix library. Every job lies in the domain of
equality: no elimination of theirs reaches the block that the original leaves untransposed.

To make it anew, in the folder of that crate (ORIGINAL names the folder of the original's sources, if it isn't found):

    cargo run --release --offline --bin cases -- cases

The same bytes come out every time; `cargo test` compares them with this file.

| Printed | Cases |
|---|---|
";

const ORDERED: &str = "
## Jobs under an order

`../../crates/ordered/stdin` holds jobs, each with a lent order of its keys (C-16), and `stdout` beside it what the program `ordered` must
print. A case is the order and then the job, each behind the count of its bytes; a count takes two bytes, the lower one first. Printed are
a line `figure` with the figure that the run answers, what `strips` would print under the order, and the text of the plan.

Made as above, by another program; each answer is that of `oracle::order`:

    cargo run --release --offline --bin ordered_cases -- ../crates/ordered

| Case | Name | Figure | Printed |
|---|---|---|---|
";
