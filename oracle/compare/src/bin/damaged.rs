//! damaged [STEP]
//!
//! Every recorded job, cut at every byte and with every STEP-th bit flipped (each one where STEP is not given), through both
//! sides. Ends with 1 where they differ inside the domain of equality.
use std::collections::BTreeMap;
use std::process::ExitCode;

use compare::outcome::{Outcome, compare_bytes};
use oracle::cases::read;

fn main() -> ExitCode {
    let step = std::env::args().nth(1).and_then(|word| word.parse().ok()).unwrap_or(1);
    let text = std::fs::read_to_string(concat!(env!("CARGO_MANIFEST_DIR"), "/../cases/cases.txt")).unwrap();
    // The original panics outside the domain; a panic inside is counted as a difference.
    std::panic::set_hook(Box::new(|_| {}));
    let mut counts: BTreeMap<String, u64> = BTreeMap::new();
    let mut differ = 0;
    for case in read(&text).unwrap() {
        let job = case.job();
        let cuts = (0..job.len()).map(|end| job[..end].to_vec());
        let flips = (0..8 * job.len()).step_by(step).map(|bit| flipped(&job, bit));
        for damaged in cuts.chain(flips) {
            let name = match compare_bytes(&damaged) {
                Outcome::Same(kind) => format!("same: {kind}"),
                Outcome::Outside(_) => "outside".to_string(),
                Outcome::Differs(how) => {
                    eprintln!("{}: {how}", case.name);
                    differ += 1;
                    "DIFFERS INSIDE THE DOMAIN".to_string()
                }
            };
            *counts.entry(name).or_default() += 1;
        }
    }
    counts.iter().for_each(|(name, n)| println!("{n:>9}  {name}"));
    println!("{:>9}  all", counts.values().sum::<u64>());
    if differ == 0 { ExitCode::SUCCESS } else { ExitCode::from(1) }
}

fn flipped(job: &[u8], bit: usize) -> Vec<u8> {
    let mut job = job.to_vec();
    job[bit / 8] ^= 1 << (bit % 8);
    job
}
