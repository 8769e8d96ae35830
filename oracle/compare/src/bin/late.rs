//! late SEED COUNT [THREADS]
//!
//! Gives jobs 0 to COUNT - 1 of a seed, as far as they are accepted, and each with one observation more at its end (C-23) to the library's
//! plan, and compares the forward messages up to the step of the observation's first key. Ends with 1 where they differ.
use std::collections::BTreeMap;
use std::process::ExitCode;

use compare::dealing::dealt;
use compare::jobs;
use compare::late::{Met, draw, pair};
use oracle::cases::Random;

#[derive(Debug, Clone, Copy, PartialEq, Eq, PartialOrd, Ord)]
enum Outcome {
    Same(Met),
    NotAccepted,
    Differs,
}

type Counts = BTreeMap<Outcome, u64>;

fn main() -> ExitCode {
    let words: Vec<u64> = std::env::args().skip(1).filter_map(|word| word.parse().ok()).collect();
    let (&[seed, count] | &[seed, count, _]) = &words[..] else {
        eprintln!("late SEED COUNT [THREADS]");
        return ExitCode::from(2);
    };
    let counts = dealt(count, words.get(2).copied().unwrap_or(1), |numbers| some(seed, numbers));
    println!("seed {seed}, {count} jobs, each also with one observation more");
    report(&counts)
}

fn some(seed: u64, numbers: impl Iterator<Item = u64>) -> Counts {
    let mut counts = Counts::new();
    for number in numbers {
        let (job, extended, t) = draw(&mut Random::new(seed ^ !number), jobs::draw(seed, number).1);
        let outcome = match pair(&job, &extended, t) {
            Some(Ok(met)) => Outcome::Same(met),
            Some(Err(how)) => {
                eprintln!("job {number}: {how}");
                Outcome::Differs
            }
            None => Outcome::NotAccepted,
        };
        *counts.entry(outcome).or_default() += 1;
    }
    counts
}

fn report(counts: &Counts) -> ExitCode {
    let told = |name: &str, is: &dyn Fn(&Outcome) -> bool| {
        let n: u64 = counts.iter().filter(|(outcome, _)| is(outcome)).map(|(_, n)| n).sum();
        println!("{n:>9}  {name}");
        n
    };
    let same = |is: fn(&Met) -> bool| move |outcome: &Outcome| matches!(outcome, Outcome::Same(met) if is(met));
    told("pairs of plans that agree", &same(|_| true));
    told("with messages up to the step", &same(|met| met.some));
    told("with a content in another order", &same(|met| met.reordered));
    told("whose messages of the next step differ", &same(|met| met.next_differs));
    told("where the observation has no keys", &same(|met| met.keyless));
    told("with superseding records", &same(|met| met.superseding));
    told("observations that weren't accepted", &|outcome| *outcome == Outcome::NotAccepted);
    let differ = told("PAIRS THAT DIFFER", &|outcome| *outcome == Outcome::Differs);
    if differ == 0 { ExitCode::SUCCESS } else { ExitCode::from(1) }
}
