//! Reads a job from standard input and prints its text: what the program `strips` does, from Rust.
use std::io::{self, Read, Write};

/// A buffer of as many bytes takes the text of every job.
const OUTPUT: usize = 22944;
/// An observation has at most as many keys and rows.
const KEYS: u64 = 4;
const ROWS: u64 = 6;
/// Past as many bytes nothing in a job changes its text (firmware/strips.h).
const INPUT: u64 =
    11 * 32 + (8 + KEYS) * 64 + 8 * 2048 + 8 + KEYS + 8 * (ROWS * 32 + ROWS + ROWS * ROWS);

extern "C" {
    // firmware/strips.h has the contract
    fn strips_solve(job: *const u8, job_length: usize, out: *mut u8, out_length: usize) -> usize;
}

/// The text of a job.
fn solve(job: &[u8]) -> Vec<u8> {
    let mut out = vec![0; OUTPUT];
    // SAFETY: both slices are whole and apart, and live through the call.
    let length = unsafe { strips_solve(job.as_ptr(), job.len(), out.as_mut_ptr(), out.len()) };
    out.truncate(length);
    out
}

fn main() -> io::Result<()> {
    let mut job = Vec::new();
    io::stdin().take(INPUT).read_to_end(&mut job)?;
    io::stdout().write_all(&solve(&job))
}
