//! compare SEED COUNT [THREADS [FOLDER]]
//!
//! Gives jobs 0 to COUNT - 1 of a seed to the original over its stand-ins and to the library, and counts what they print.
//! Ends with 1, and writes the smallest job found to FOLDER, where they differ inside the domain of equality.
use std::collections::BTreeMap;
use std::path::Path;
use std::process::ExitCode;

use compare::dealing::dealt;
use compare::jobs::superseding::{is_superseding, without};
use compare::jobs::{self, Kind};
use compare::outcome::{Outcome, compare};
use oracle::cases::Job;
use oracle::job;
use oracle::tolerance::nearest;

type Counts = BTreeMap<(Outcome, Kind, Met), u64>;

/// What is counted beside the outcome and the kind of a job.
#[derive(Clone, Copy, PartialEq, Eq, PartialOrd, Ord)]
struct Met {
    /// How many floats its nearest pivot lay above what it must exceed, where these are few.
    steps: Option<i64>,
    /// The flags of its observations.
    flags: [bool; 5],
    /// It holds a superseding record, which may be refused or never read.
    superseding: bool,
    /// How many were accepted, up to the most that is told apart.
    superseded: usize,
}

/// Pivots that lie further off are not told apart.
const NEAR: i64 = 2;

/// Nor are more factors that were superseded.
const MANY: usize = 5;

fn main() -> ExitCode {
    let words: Vec<String> = std::env::args().skip(1).collect();
    let number = |at: usize| words.get(at).and_then(|word| word.parse::<u64>().ok());
    let (Some(seed), Some(count)) = (number(0), number(1)) else {
        eprintln!("compare SEED COUNT [THREADS [FOLDER]]");
        return ExitCode::from(2);
    };
    let folder = words.get(3).map_or(".", |word| word);
    // The original panics outside the domain; a panic inside is counted as a difference.
    std::panic::set_hook(Box::new(|_| {}));
    let counts = dealt(count, number(2).unwrap_or(1), |numbers| some(seed, numbers, Path::new(folder)));
    println!("seed {seed}, {count} jobs");
    report(&counts)
}

fn some(seed: u64, numbers: impl Iterator<Item = u64>, folder: &Path) -> Counts {
    let mut counts = Counts::new();
    for number in numbers {
        let (kind, job) = jobs::draw(seed, number);
        nearest();
        let outcome = compare(&job);
        let met = met(&job);
        if let Outcome::Differs(how) = &outcome {
            eprintln!("job {number}: {how}");
            let small = reduced(job);
            std::fs::write(folder.join(format!("differs-{number}.job")), small.bytes()).unwrap();
        }
        *counts.entry((outcome, kind, met)).or_default() += 1;
    }
    counts
}

/// The job was compared just before, so that its pivots are the nearest ones.
fn met(job: &Job) -> Met {
    let steps = nearest().filter(|steps| steps.abs() <= NEAR);
    let superseding = job.records.iter().any(|record| is_superseding(record));
    let superseded = job::read(&job.bytes()).graph.superseded().min(MANY);
    Met { steps, flags: jobs::flags_in(job), superseding, superseded }
}

/// Without every record that the difference doesn't need.
fn reduced(mut job: Job) -> Job {
    let mut at = 0;
    while at < job.records.len() {
        let less = without(job.clone(), at);
        if matches!(compare(&less), Outcome::Differs(_)) { job = less } else { at += 1 }
    }
    job
}

/// By outcome, and by kind of job the number that was done and the number in the domain.
fn report(counts: &Counts) -> ExitCode {
    let mut by_outcome: BTreeMap<String, u64> = BTreeMap::new();
    let mut by_kind: BTreeMap<Kind, [u64; 4]> = BTreeMap::new();
    let mut by_steps: BTreeMap<i64, u64> = BTreeMap::new();
    let mut by_flag = [0; 5];
    let (mut superseding, mut by_superseded) = (0, [0; MANY + 1]);
    for ((outcome, kind, met), n) in counts {
        let (name, columns): (String, &[usize]) = match outcome {
            Outcome::Same(text) if text == "done" => (format!("same: {text}"), &[0, 1]),
            Outcome::Same(text) => (format!("same: {text}"), &[1]),
            Outcome::Outside(how) => (format!("outside: {how}"), &[2]),
            Outcome::Differs(_) => ("DIFFERS INSIDE THE DOMAIN".to_string(), &[1, 3]),
        };
        *by_outcome.entry(name).or_default() += n;
        if columns.contains(&1) {
            met.steps.into_iter().for_each(|steps| *by_steps.entry(steps).or_default() += n);
            by_flag.iter_mut().zip(met.flags).for_each(|(count, met)| *count += if met { *n } else { 0 });
            superseding += if met.superseding { *n } else { 0 };
            by_superseded[met.superseded] += n;
        }
        columns.iter().for_each(|&column| by_kind.entry(*kind).or_default()[column] += n);
    }
    by_outcome.iter().for_each(|(name, n)| println!("{n:>9}  {name}"));
    by_steps
        .iter()
        .for_each(|(steps, n)| println!("{n:>9}  in domain, a pivot {steps:+} floats from what it must exceed"));
    for (flag, n) in ["flag 0", "flag 1", "flag 2", "flag 3", "a flag above 3"].iter().zip(by_flag) {
        println!("{n:>9}  in domain, an observation with {flag}");
    }
    println!("{superseding:>9}  in domain, with a superseding record");
    println!("{:>9}  in domain, with one that was accepted", by_superseded[1..].iter().sum::<u64>());
    for (count, n) in by_superseded.iter().enumerate().skip(1) {
        let more = if count == MANY { " or more" } else { "" };
        println!("{n:>9}  in domain, with {count}{more} accepted");
    }
    println!("     done in domain   outside  differs  kind");
    by_kind.iter().for_each(|(kind, [done, inside, outside, differs])| {
        println!("{done:>9} {inside:>9} {outside:>9} {differs:>8}  {kind:?}")
    });
    let sum = |column: usize| by_kind.values().map(|row| row[column]).sum::<u64>();
    println!("{:>9} {:>9} {:>9} {:>8}  all", sum(0), sum(1), sum(2), sum(3));
    if sum(3) == 0 { ExitCode::SUCCESS } else { ExitCode::from(1) }
}
