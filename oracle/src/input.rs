//! A job's bytes, from a path or from standard input.
use std::ffi::OsString;
use std::io::{self, Read};

/// Without a path, or with `-`, standard input is read.
pub fn job(path: Option<OsString>) -> io::Result<Vec<u8>> {
    match path {
        Some(path) if path != "-" => std::fs::read(path),
        _ => {
            let mut bytes = Vec::new();
            io::stdin().read_to_end(&mut bytes)?;
            Ok(bytes)
        }
    }
}

/// The exit status where a job, an order or a folder can't be used.
pub const UNUSABLE: u8 = 2;

/// The exit status where a job meets an elimination outside the domain of equality.
pub const OUTSIDE: u8 = 3;
