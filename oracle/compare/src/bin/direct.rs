//! direct SEED COUNT
//!
//! Gives direct eliminations over the factors of COUNT jobs to the original and to the library, four a job, and counts what
//! they answer. Ends with 1 where they differ inside the domain of equality.
use std::collections::BTreeMap;
use std::process::ExitCode;

use compare::direct::{self, compare};
use compare::jobs;
use compare::outcome::Outcome;
use oracle::cases::Random;
use oracle::job;

const CALLS: usize = 4;

/// By what they answer, and by whether they list a superseded factor.
type Counts = BTreeMap<(Outcome, bool), u64>;

fn main() -> ExitCode {
    let words: Vec<u64> = std::env::args().skip(1).filter_map(|word| word.parse().ok()).collect();
    let [seed, count] = words[..] else {
        eprintln!("direct SEED COUNT");
        return ExitCode::from(2);
    };
    std::panic::set_hook(Box::new(|_| {}));
    let mut counts = Counts::new();
    (0..count).for_each(|number| one(seed, number, &mut counts));
    println!("seed {seed}, {count} jobs");
    for ((outcome, superseded), n) in &counts {
        println!("{n:>9}  {outcome:?}{}", if *superseded { ", with a superseded factor" } else { "" });
    }
    let differs = counts.keys().any(|(outcome, _)| matches!(outcome, Outcome::Differs(_)));
    if differs { ExitCode::from(1) } else { ExitCode::SUCCESS }
}

fn one(seed: u64, number: u64, counts: &mut Counts) {
    let bytes = jobs::draw(seed, number).1.bytes();
    let read = job::read(&bytes);
    if read.refusal.is_some() {
        return;
    }
    let random = &mut Random::new(seed ^ !number);
    for at in 0..CALLS {
        let call = direct::draw(random, &read.graph.all);
        let outcome = compare(&bytes, &read.graph, &call);
        if matches!(outcome, Outcome::Differs(_)) {
            eprintln!("job {number}, call {at}: {:?} {:?} {:?}", call.slots, call.kept, call.cleared);
        }
        let all = read.graph.all.n_factors();
        let superseded = call.slots.iter().any(|&slot| slot < all && !read.graph.is_live(slot));
        *counts.entry((outcome, superseded)).or_default() += 1;
    }
}
