//! ordered SEED COUNT [THREADS [FOLDER]]
//!
//! Gives jobs 0 to COUNT - 1 of a seed, each with a lent order of keys (C-16), to the original over its stand-ins and to the library, and
//! compares the texts, the plans and the runs in stores of drawn lengths. Ends with 1, and writes the smallest job found and its order
//! to FOLDER, where they differ inside the domain of equality.
use std::collections::BTreeMap;
use std::path::Path;
use std::process::ExitCode;

use compare::dealing::dealt;
use compare::jobs;
use compare::jobs::superseding::without;
use compare::ordered::{Lent, Met, compare, draw};
use compare::orders::Kind;
use compare::outcome::Outcome;
use oracle::cases::{Job, Random};
use oracle::job;

type Counts = BTreeMap<(Kind, Outcome, Met), u64>;

fn main() -> ExitCode {
    let words: Vec<String> = std::env::args().skip(1).collect();
    let number = |at: usize| words.get(at).and_then(|word| word.parse::<u64>().ok());
    let (Some(seed), Some(count)) = (number(0), number(1)) else {
        eprintln!("ordered SEED COUNT [THREADS [FOLDER]]");
        return ExitCode::from(2);
    };
    let folder = words.get(3).map_or(".", |word| word);
    // The original panics where it disagrees; that is counted as a difference.
    std::panic::set_hook(Box::new(|_| {}));
    let counts = dealt(count, number(2).unwrap_or(1), |numbers| some(seed, numbers, Path::new(folder)));
    println!("seed {seed}, {count} jobs, each with an order");
    report(&counts)
}

fn some(seed: u64, numbers: impl Iterator<Item = u64>, folder: &Path) -> Counts {
    let mut counts = Counts::new();
    for number in numbers {
        let random = &mut Random::new(seed ^ !number);
        // Else a job without variables would hardly be met.
        let job = if random.below(100) == 0 { keyless(random) } else { jobs::draw(seed, number).1 };
        let (bytes, read) = (job.bytes(), job::read(&job.bytes()));
        let lent = draw(random, read.graph.all.n_keys());
        let (outcome, met) = compare(&bytes, read, &lent);
        if let Outcome::Differs(how) = &outcome {
            eprintln!("job {number} under {:?}, {:?}: {how}", lent.kind, lent.order);
            let path = folder.join(format!("differs-{number}"));
            std::fs::write(path.with_extension("job"), reduced(job, &lent).bytes()).unwrap();
            std::fs::write(path.with_extension("order"), &lent.order).unwrap();
        }
        *counts.entry((lent.kind, outcome, met)).or_default() += 1;
    }
    counts
}

/// A few observations without keys, or none.
fn keyless(random: &mut Random) -> Job {
    (0..random.below(3)).fold(Job::new(), |job, _| {
        let mean = random.numbers(1);
        job.unit_observation(&[], &[], &mean)
    })
}

/// Without every factor that the difference doesn't need. The order is one of all variables, so these stay.
fn reduced(mut job: Job, lent: &Lent) -> Job {
    let differs = |job: &Job| {
        let bytes = job.bytes();
        matches!(compare(&bytes, job::read(&bytes), lent).0, Outcome::Differs(_))
    };
    let mut at = 0;
    while at < job.records.len() {
        let less = without(job.clone(), at);
        if !job.records[at].starts_with(b"VA") && differs(&less) { job = less } else { at += 1 }
    }
    job
}

/// The columns of the table by kind of order.
const COLUMNS: [&str; 6] = ["done", "in reading", "order", "in the run", "outside", "differs"];

fn column(outcome: &Outcome) -> usize {
    match outcome {
        Outcome::Same(text) if text.starts_with("done") => 0,
        Outcome::Same(text) if text.ends_with("stage 0") => 1,
        Outcome::Same(text) if text.starts_with("refused 21 ") => 2,
        Outcome::Same(_) => 3,
        Outcome::Outside(_) => 4,
        Outcome::Differs(_) => 5,
    }
}

/// By outcome, by what was met, and by kind of order.
fn report(counts: &Counts) -> ExitCode {
    let mut by_outcome: BTreeMap<String, u64> = BTreeMap::new();
    let mut by_kind: BTreeMap<Kind, [u64; COLUMNS.len()]> = BTreeMap::new();
    for ((kind, outcome, _), n) in counts {
        let name = match outcome {
            Outcome::Same(text) => format!("same: {text}"),
            Outcome::Outside(how) => format!("outside: {how}"),
            Outcome::Differs(_) => "DIFFERS INSIDE THE DOMAIN".to_string(),
        };
        *by_outcome.entry(name).or_default() += n;
        by_kind.entry(*kind).or_default()[column(outcome)] += n;
    }
    by_outcome.iter().for_each(|(name, n)| println!("{n:>9}  {name}"));
    report_met(counts);
    let row =
        |row: &[String; 6], name: &str| println!("{}  {name}", row.each_ref().map(|n| format!("{n:>11}")).concat());
    row(&COLUMNS.map(str::to_string), "order");
    by_kind.iter().for_each(|(kind, counts)| row(&counts.map(|n| n.to_string()), &format!("{kind:?}")));
    let sums: Vec<u64> = (0..COLUMNS.len()).map(|at| by_kind.values().map(|row| row[at]).sum()).collect();
    row(&std::array::from_fn(|at| sums[at].to_string()), "all");
    if sums[5] == 0 { ExitCode::SUCCESS } else { ExitCode::from(1) }
}

fn report_met(counts: &Counts) {
    let met = |name: &str, is: fn(&Met) -> bool| {
        let n: u64 = counts.iter().filter(|((.., met), _)| is(met)).map(|(_, n)| n).sum();
        println!("{n:>9}  {name}");
    };
    met("accepted, not rising", |met| met.reordered);
    met("with another plan than with keys rising", |met| met.other_plan);
    met("with another text", |met| met.other_text);
    met("refused in a pass, the key told isn't its own place", |met| met.other_key);
    met("accepted, with a store too short (14)", |met| met.short);
    met("refused with 21, with a store that would be too short", |met| met.unlike_and_short);
}
