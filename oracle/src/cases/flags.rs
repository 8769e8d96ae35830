//! What an observation's flag says of its variance (C-14): every flag, every number of rows, and each place where the record can be cut.
use super::limits::filled;
use super::{Cases, Job, identity, two_to};
use crate::job::{FACTORS, GIVEN, IDENTITY, KEYS, MOST_ROWS, QUARTER};

/// Two keys of size 1, each with a prior: records 0 to 3.
fn start() -> Job {
    Job::with(&[1, 1]).plain_prior(0, 1.0).plain_prior(1, 2.0)
}

/// A and the means of an observation of both keys.
fn numbers(rows: usize) -> Vec<f64> {
    let a = (0..2 * rows).map(|at| 0.5 + at as f64);
    a.chain((0..rows).map(|row| 1.5 - row as f64)).collect()
}

fn observed(rows: usize, flag: u8) -> Job {
    start().observed(&[0, 1], rows, flag, &numbers(rows))
}

pub fn add(cases: &mut Cases) {
    made(cases);
    cut(cases);
    sizes(cases);
    order(cases);
}

/// Both variances that are made, with every number of rows, beside the same ones given.
fn made(cases: &mut Cases) {
    for (flag, x) in [(QUARTER, 0.25), (IDENTITY, 1.0)] {
        for rows in 1..=MOST_ROWS {
            let variance: Vec<f64> = identity(rows).iter().map(|unit| x * unit).collect();
            let given = start().observed(&[0, 1], rows, GIVEN, &[numbers(rows), variance].concat());
            cases.add(format!("flag-{flag}-of-{rows}-rows"), observed(rows, flag));
            cases.add(format!("flag-{flag}-of-{rows}-rows-given"), given);
            cases.last_two_print_alike();
        }
        let alone = Job::with(&[1]).observed(&[0], 1, flag, &[1.0, 3.0]);
        cases.add(format!("flag-{flag}-alone"), alone);
        cases.add(format!("flag-{flag}-without-keys"), start().observed(&[], 2, flag, &[1.0, -1.0]));
        // What follows the means is the next record.
        cases.add(format!("flag-{flag}-then-a-prior"), observed(2, flag).plain_prior(1, 4.0));
        cases.add(format!("flag-{flag}-then-a-variance"), observed(1, flag).raw(&x.to_le_bytes()));
    }
    cases.add("flags-0-1-and-2", every_flag());
}

/// One observation of each flag.
fn every_flag() -> Job {
    let given = observed(2, QUARTER).observation(&[0], &[1.0], &[2.0], &[0.75]);
    given.unit_observation(&[0, 1], &[1.0, -1.0], &[0.5])
}

/// A record cut before each of its parts, inside each and before its last byte. Only the flag comes before the counts and the keys.
fn cut(cases: &mut Cases) {
    let most = (1..=MOST_ROWS).map(|rows| (rows, QUARTER));
    for (rows, flag) in most.chain([(2, IDENTITY), (2, 3), (2, 255)]) {
        let (a, means) = (7, 7 + 16 * rows);
        let whole = observed(rows, flag);
        let length = whole.records.last().unwrap().len();
        for (name, left) in [
            ("mark", 1),
            ("count", 2),
            ("rows", 3),
            ("flag", 4),
            ("keys", 5),
            ("last-key", 6),
            ("a", a),
            ("a-inside", a + 3),
            ("means", means),
            ("means-inside", means + 5),
            ("last-byte", length - 1),
        ] {
            cases.add(format!("flag-{flag}-of-{rows}-rows-cut-{name}"), whole.clone().cut(length - left));
        }
    }
    for flag in [3, 4, 128, 255] {
        cases.add(format!("flag-{flag}-is-none"), observed(2, flag));
    }
}

/// Numbers near the ends: with a quarter xi is four times the mean, and no longer finite where that isn't.
fn sizes(cases: &mut Cases) {
    for (name, mean) in
        [("largest", two_to(1022)), ("largest-for-a-quarter", f64::MAX / 4.0), ("least", f64::from_bits(1))]
    {
        for flag in [QUARTER, IDENTITY] {
            let job = Job::with(&[1]).observed(&[0], 1, flag, &[1.0, mean]);
            cases.add(format!("flag-{flag}-mean-{name}"), job);
        }
    }
}

/// A flag that isn't one comes before all else but a cut header; one that is takes its turn.
fn order(cases: &mut Cases) {
    let many: Vec<usize> = (0..=KEYS).collect();
    for flag in [QUARTER, IDENTITY, 3] {
        let bad = |keys: &[usize], rows: usize, numbers: &[f64]| start().observed(keys, rows, flag, numbers);
        cases.add(format!("flag-{flag}-and-5-keys"), bad(&many, 1, &[]));
        cases.add(format!("flag-{flag}-and-0-rows"), bad(&[0], 0, &[]));
        cases.add(format!("flag-{flag}-and-7-rows"), bad(&[0], MOST_ROWS + 1, &[]));
        cases.add(format!("flag-{flag}-and-keys-not-rising"), bad(&[1, 0], 1, &[]));
        cases.add(format!("flag-{flag}-and-a-key-unregistered"), bad(&[2], 1, &[]));
        cases.add(format!("flag-{flag}-and-a-nan"), bad(&[0], 1, &[1.0, f64::NAN]));
        let full = (0..FACTORS).fold(Job::with(&[1]), |job, _| job.plain_prior(0, 1.0));
        cases.add(format!("flag-{flag}-and-65-factors"), full.observed(&[0], 1, flag, &[1.0, 1.0]));
    }
    cases
        .add("flag-0-fills-the-factor-store", filled(&[3, 1], 4).observed(&[], 1, QUARTER, &[1.0]).plain_prior(0, 1.0));
    cases.add("flag-0-one-over-the-factor-store", filled(&[3, 1, 1], 2).quarter_observation(&[0], &[1.0], &[1.0]));
}
