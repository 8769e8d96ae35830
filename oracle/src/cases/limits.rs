//! Every limit and every store: exactly full, and one over.
use super::{Cases, Job, Random, identity};
use crate::job::{self, FACTOR_STORE, FACTORS, KEYS, MESSAGE_STORE, MOST_ROWS, TOTAL_SIZE, VARIABLES};
use crate::plan::{Plan, Shapes};

pub fn add(cases: &mut Cases) {
    variables(cases);
    factors(cases);
    keys_and_rows(cases);
    message_shapes(cases);
    factor_store(cases);
    message_store(cases);
}

/// A prior on each key.
fn priors(job: Job) -> Job {
    (0..job.keys()).fold(job, |job, key| job.plain_prior(key, 1.0 + key as f64))
}

fn variables(cases: &mut Cases) {
    let full = || Job::with(&[1; VARIABLES]);
    cases.add("variables-32", priors(full()));
    cases.add("variables-33", full().variable(1));
    let sizes = [6, 6, 6, 6, 6, 2];
    assert_eq!(sizes.iter().sum::<usize>(), TOTAL_SIZE);
    cases.add("total-size-32", priors(Job::with(&sizes)));
    cases.add("total-size-33-by-a-seventh", Job::with(&sizes).variable(1));
    cases.add("total-size-33-by-the-last", Job::with(&[6, 6, 6, 6, 6, 3]));
    cases.add("total-size-32-after-a-refusal-is-never-read", Job::with(&[6, 6, 6, 6, 6, 3, 2]));
}

fn factors(cases: &mut Cases) {
    let full = || (0..FACTORS).fold(Job::with(&[1]), |job, at| job.prior(0, &[at as f64], &[1.0]));
    cases.add("factors-64", full());
    cases.add("factors-65", full().plain_prior(0, 1.0));
    cases.add("factors-65-numbers-cut", full().plain_prior(0, 1.0).cut(1));
    cases.add("factors-65-not-finite", full().prior(0, &[f64::NAN], &[1.0]));
    cases.add("factors-65-refused-pivot", full().prior(0, &[0.0], &[0.0]));
    cases.add("factors-65-no-such-key", full().prior(1, &[0.0], &[1.0]));
    cases.add("factors-65-observation", full().unit_observation(&[], &[], &[1.0]));
    cases.add("factors-65-observation-rows-7", full().observed(&[], 7, 2, &[1.0; 7]));
}

/// Both sides of the most keys and rows, and what the original takes beyond them: 8 keys and 12 rows were accepted before C-20.
fn keys_and_rows(cases: &mut Cases) {
    let many = |count| priors(Job::with(&vec![1; count]));
    for count in 0..=9 {
        let keys: Vec<usize> = (0..count).collect();
        let a: Vec<f64> = (0..count).map(|key| 0.3 + key as f64).collect();
        cases.add(format!("observation-of-{count}-keys"), many(9).unit_observation(&keys, &a, &[2.0]));
    }
    for rows in [1, 2, 5, 6, 7, 11, 12, 13] {
        cases.add(format!("observation-of-{rows}-rows"), tall(many(2), rows));
    }
    cases.add("observation-of-6-rows-and-width-12", tall(priors(Job::with(&[6, 6])), MOST_ROWS));
    // With one row more than a key has components; else the original's z branch would leave the domain of equality.
    let widest = tall(priors(Job::with(&[6; KEYS])), 1);
    cases.add("observation-of-6-rows-and-width-24-given", given(widest, MOST_ROWS));
    cases.add("observation-of-7-rows-given", given(many(1), MOST_ROWS + 1));
    cases.add("observation-of-5-keys-and-6-rows", tall(many(KEYS + 1), MOST_ROWS));
    cases.add("observation-of-5-keys-and-7-rows", tall(many(KEYS + 1), MOST_ROWS + 1));
}

/// A and the means of an observation of this width.
fn numbers(rows: usize, width: usize) -> (Vec<f64>, Vec<f64>) {
    let a = (0..rows * width).map(|at| 1.0 + 0.1 * at as f64);
    (a.collect(), (0..rows).map(|row| row as f64).collect())
}

fn observed(job: Job, keys: &[usize], rows: usize) -> Job {
    let (a, means) = numbers(rows, job.width(keys));
    job.unit_observation(keys, &a, &means)
}

/// An observation of all keys.
fn tall(job: Job, rows: usize) -> Job {
    let keys: Vec<usize> = (0..job.keys()).collect();
    observed(job, &keys, rows)
}

/// An observation of all keys with its variance.
fn given(job: Job, rows: usize) -> Job {
    let keys: Vec<usize> = (0..job.keys()).collect();
    let (a, means) = numbers(rows, job.width(&keys));
    let variance: Vec<f64> = identity(rows).iter().map(|unit| 0.25 + 2.0 * unit).collect();
    job.observation(&keys, &a, &means, &variance)
}

/// A message may keep more keys and have more rows than an observation: the first one clears key 0 and keeps all others but the last, with
/// as many rows as they have components.
fn message_shapes(cases: &mut Cases) {
    for (kept, size) in [(5, 1), (7, 1), (2, 4), (3, 6), (30, 1)] {
        let (last, rows) = (kept + 1, kept * size);
        let between: Vec<usize> = (1..last).collect();
        let hub = priors(Job::with(&[&[1], &vec![size; kept][..], &[1]].concat()));
        let job = between.chunks(if size == 1 { KEYS - 1 } else { 1 }).fold(hub, |job, keys| {
            let job = observed(job, &[&[0], keys].concat(), keys.len() * size);
            observed(job, &[keys, &[last]].concat(), 1)
        });
        let first = &plan(&job).forward[0].work;
        assert_eq!((&first.kept, first.rows), (&between, rows));
        cases.add(format!("message-of-{kept}-keys-and-{rows}-rows"), job);
    }
}

/// An observation without keys takes y + y y numbers of the store.
fn keyless(job: Job, rows: usize) -> Job {
    job.unit_observation(&[], &[], &vec![1.0; rows])
}

/// A prior and observations without keys that leave this much of the factor store.
pub fn filled(rows: &[usize], left: usize) -> Job {
    let all = [&[MOST_ROWS; 48][..], &[3], rows].concat();
    let job = all.iter().fold(Job::with(&[1]).prior(0, &[2.0], &[4.0]), |job, &rows| keyless(job, rows));
    assert_eq!(job::stored(&job::read(&job.bytes()).graph.all), FACTOR_STORE - left);
    job
}

fn factor_store(cases: &mut Cases) {
    let full = || filled(&[3, 2], 0);
    cases.add("factor-store-full", full());
    cases.add("factor-store-over-by-a-prior", full().plain_prior(0, 1.0));
    cases.add("factor-store-over-not-finite", full().prior(0, &[f64::NAN], &[1.0]));
    cases.add("factor-store-over-numbers-cut", full().plain_prior(0, 1.0).cut(8));
    let two_left = || filled(&[3, 1, 1], 2);
    cases.add("factor-store-full-by-a-prior", two_left().plain_prior(0, 1.0));
    cases.add("factor-store-one-over", two_left().unit_observation(&[0], &[1.0], &[1.0]));
    cases.add("factor-store-one-over-refused-pivot", two_left().observation(&[0], &[1.0], &[1.0], &[-1.0]));
    let four_left = || filled(&[3, 1], 4);
    cases.add(
        "factor-store-full-by-an-observation",
        four_left().variable(1).unit_observation(&[0, 1], &[1.0, 1.0], &[1.0]),
    );
    cases.add("factor-store-full-of-64-factors", full_of_64());
    cases.add("factor-store-full-of-64-factors-and-one", keyless(full_of_64(), 1));
}

fn full_of_64() -> Job {
    let rows = [vec![MOST_ROWS; 47], vec![2; 10], vec![1; 7]].concat();
    let job = rows.iter().fold(Job::new(), |job, &rows| keyless(job, rows));
    assert_eq!(job::stored(&job::read(&job.bytes()).graph.all), FACTOR_STORE);
    job
}

/// The first seeds whose tangle needs the message store exactly, and one number more.
pub const FULL: u64 = 4399;
pub const ONE_OVER: u64 = 3453;

fn message_store(cases: &mut Cases) {
    cases.add("message-store-full", needing(MESSAGE_STORE, FULL));
    cases.add("message-store-one-over", needing(MESSAGE_STORE + 1, ONE_OVER));
    cases.add("message-store-one-over-before-a-free-key", needing(MESSAGE_STORE + 1, ONE_OVER).variable(1));
}

pub fn needing(need: usize, seed: u64) -> Job {
    let job = tangle(&mut Random::new(seed));
    assert_eq!(figure(&job), need);
    job
}

fn plan(job: &Job) -> Plan {
    let shapes = Shapes::of(&job::read(&job.bytes()).graph);
    let order: Vec<usize> = (0..shapes.sizes.len()).collect();
    Plan::new(&shapes, &order)
}

/// Numbers of the message store that a job needs.
fn figure(job: &Job) -> usize {
    plan(job).figure()
}

/// Keys of size 1 with a prior each, and observations across many of them.
pub fn tangle(random: &mut Random) -> Job {
    let count = 28;
    let mut job = priors(Job::with(&vec![1; count]));
    for _ in 0..28 + random.below(8) {
        let keys = some_keys(random, count);
        let rows = 1 + random.below(3);
        let (a, means) = (random.numbers(rows * keys.len()), random.numbers(rows));
        job = job.unit_observation(&keys, &a, &means);
    }
    job
}

fn some_keys(random: &mut Random, count: usize) -> Vec<usize> {
    let mut keys: Vec<usize> = (0..2 + random.below(KEYS - 1)).map(|_| random.below(count)).collect();
    keys.sort();
    keys.dedup();
    keys
}
