//! Variances whose triangles differ (C-12, refusal 20), and which check comes first.
use std::cmp::Ordering;

use super::limits::filled;
use super::{Cases, Job, Random, graphs};
use crate::job::{FACTORS, GIVEN, KEYS, MOST_ROWS};

/// A variance in which no two entries on one side of the diagonal are equal, and whose pivots are all far above 0.
fn uneven(size: usize) -> Vec<f64> {
    let entry = |i: usize, j: usize| if i == j { 8.0 } else { 1.0 + (i.min(j) + 16 * i.max(j)) as f64 / 256.0 };
    (0..size * size).map(|at| entry(at % size, at / size)).collect()
}

/// With another number at (i, j).
fn with(mut variance: Vec<f64>, size: usize, i: usize, j: usize, x: f64) -> Vec<f64> {
    variance[i + j * size] = x;
    variance
}

/// With its last bit the other way.
fn last_bit(x: f64) -> f64 {
    f64::from_bits(x.to_bits() ^ 1)
}

/// With another last bit at (i, j).
fn nudged(variance: Vec<f64>, size: usize, i: usize, j: usize) -> Vec<f64> {
    let x = last_bit(variance[i + j * size]);
    with(variance, size, i, j, x)
}

fn prior(variance: &[f64], size: usize) -> Job {
    Job::with(&[size]).prior(0, &vec![1.0; size], variance)
}

/// On a key of size 1 with a prior.
fn observation(variance: &[f64], rows: usize) -> Job {
    Job::with(&[1]).plain_prior(0, 1.0).observation(&[0], &vec![1.0; rows], &vec![1.0; rows], variance)
}

pub fn add(cases: &mut Cases) {
    pairs(cases);
    zeros(cases);
    order(cases);
}

/// In every pair of a variance in turn the last bit of one entry: above the diagonal in a prior, below it in an observation.
fn pairs(cases: &mut Cases) {
    let size = MOST_ROWS;
    cases.add("symmetry-prior-of-size-6", prior(&uneven(size), size));
    cases.add("symmetry-observation-of-6-rows", observation(&uneven(size), size));
    for j in 0..size {
        for i in 0..j {
            cases.add(format!("symmetry-prior-last-bit-{i}-{j}"), prior(&nudged(uneven(size), size, i, j), size));
            let below = observation(&nudged(uneven(size), size, j, i), size);
            cases.add(format!("symmetry-observation-last-bit-{j}-{i}"), below);
        }
    }
    let last = nudged(uneven(size), size, size - 2, size - 1);
    cases.add("symmetry-observation-of-most-rows-last-pair", observation(&last, MOST_ROWS));
    let diagonal = nudged(uneven(size), size, 5, 5);
    cases.add("symmetry-last-bit-on-the-diagonal", prior(&diagonal, size));
}

/// +0 and -0 agree; the least number and 0 don't, nor do numbers of opposite sign.
fn zeros(cases: &mut Cases) {
    for (name, below, above) in [
        ("plus-zero-above", -0.0, 0.0),
        ("minus-zero-above", 0.0, -0.0),
        ("minus-zeros", -0.0, -0.0),
        ("least-above-a-zero", 0.0, 5e-324),
        ("least-below-a-minus-zero", -5e-324, -0.0),
        ("opposite", 0.5, -0.5),
    ] {
        let variance = [1.0, below, above, 1.0];
        cases.add(format!("symmetry-{name}"), prior(&variance, 2));
        cases.add(format!("symmetry-{name}-in-an-observation"), observation(&variance, 2));
    }
    let entry = |at: usize| match (at % 6).cmp(&(at / 6)) {
        Ordering::Less => -0.0,
        Ordering::Equal => 2.0,
        Ordering::Greater => 0.0,
    };
    let mixed: Vec<f64> = (0..36).map(entry).collect();
    cases.add("symmetry-zeros-of-size-6", prior(&mixed, 6));
    let last = with(mixed, 6, 4, 5, -5e-324);
    cases.add("symmetry-zeros-of-size-6-but-one", prior(&last, 6));
}

/// A variance whose triangles differ, in a record that another check refuses too.
fn order(cases: &mut Cases) {
    let (ones, lopsided) = ([1.0; 2], [2.0, 1.0, 0.5, 2.0]);
    let two = || Job::with(&[2, 1]);
    // Before it: the record (8), the counts (4), the keys (3, 11), the limits (12, 13) and the numbers given (6).
    cases.add("symmetry-after-cut", two().prior(0, &ones, &lopsided).cut(1));
    cases.add("symmetry-after-flag", two().observed(&[1], 2, 3, &[&ones[..], &ones, &lopsided].concat()));
    let many: Vec<usize> = (0..=KEYS).collect();
    cases.add("symmetry-after-count", two().observation(&many, &ones, &ones, &lopsided));
    cases.add("symmetry-after-rising", two().observation(&[1, 1], &[1.0; 4], &ones, &lopsided));
    cases.add("symmetry-after-key-of-a-prior", two().prior(2, &ones, &lopsided));
    cases.add("symmetry-after-key-of-an-observation", two().observation(&[2], &ones, &ones, &lopsided));
    let most = (0..FACTORS).fold(two(), |job, _| job.plain_prior(1, 1.0));
    cases.add("symmetry-after-factors", most.prior(0, &ones, &lopsided));
    let one_left = (1..FACTORS).fold(two(), |job, _| job.plain_prior(1, 1.0));
    cases.add("symmetry-as-the-last-factor", one_left.prior(0, &ones, &lopsided));
    cases.add("symmetry-after-store", filled(&[3, 1], 4).observation(&[], &[], &ones, &lopsided));
    cases.add("symmetry-in-a-store-just-filled", filled(&[3], 6).observation(&[], &[], &ones, &lopsided));
    for (name, x) in [("nan", f64::NAN), ("infinite", f64::INFINITY)] {
        cases.add(format!("symmetry-after-mean-{name}"), two().prior(0, &[1.0, x], &lopsided));
        cases.add(format!("symmetry-after-a-{name}"), two().observation(&[1], &[1.0, x], &ones, &lopsided));
        for (side, i, j) in [("above", 0, 1), ("below", 1, 0)] {
            let variance = with(lopsided.to_vec(), 2, i, j, x);
            cases.add(format!("symmetry-after-variance-{name}-{side}"), two().prior(0, &ones, &variance));
        }
        let both = [2.0, x, x, 2.0];
        cases.add(format!("symmetry-after-variance-{name}-both"), two().observation(&[1], &ones, &ones, &both));
    }
    // After it: the pivots (7), the numbers computed (6), and all that comes later.
    let (stops, small) = ([1.0, 2.0, 0.0, 1.0], f64::from_bits(1 << 14));
    cases.add("symmetry-before-pivot", two().observation(&[1], &ones, &ones, &stops));
    cases.add("symmetry-before-first-pivot", two().prior(0, &ones, &with(lopsided.to_vec(), 2, 0, 0, -1.0)));
    let overflows = [small, 0.0, f64::from_bits(1), small];
    cases.add("symmetry-before-computed", two().prior(0, &ones, &overflows));
    cases.add("symmetry-before-computed-twin", two().prior(0, &ones, &[small, 0.0, 0.0, small]));
    cases.add("symmetry-before-the-next-record", two().prior(0, &ones, &lopsided).raw(b"XX"));
    cases.add("symmetry-before-the-run", two().plain_prior(1, 1.0).observation(&[], &[], &ones, &lopsided));
}

/// A graph in which one pair of one variance was touched, mostly so that its entries then differ.
pub fn beside(random: &mut Random) -> Job {
    let keys = 1 + random.below(4);
    let sizes = graphs::some_sizes(random, keys, 6);
    let style = graphs::Style { most_rows: 6, priors: 100, scale: [0, 3, 50][random.below(3)] };
    let mut job = graphs::graph(random, &sizes, &graphs::chain(keys), style);
    let able: Vec<usize> = (0..job.records.len()).filter(|&at| rows_of(&job.records[at]) > 1).collect();
    if able.is_empty() {
        return job;
    }
    let at = able[random.below(able.len())];
    touch(random, &mut job.records[at]);
    job
}

/// Rows of the variance that a record holds.
fn rows_of(record: &[u8]) -> usize {
    match &record[..2] {
        b"PR" => (1..=6).find(|size| 3 + 8 * size * (size + 1) == record.len()).unwrap_or(0),
        b"OB" if record[4] == GIVEN => record[3] as usize,
        _ => 0,
    }
}

/// One entry of a pair, or both, or an entry and a pivot.
fn touch(random: &mut Random, record: &mut [u8]) {
    let rows = rows_of(record);
    let start = record.len() - 8 * rows * rows;
    let i = random.below(rows);
    let j = (i + 1 + random.below(rows - 1)) % rows;
    let place = |i: usize, j: usize| start + 8 * (i + j * rows);
    let (here, there, pivot) = (place(i, j), place(j, i), place(i, i));
    let x = f64::from_le_bytes(record[here..here + 8].try_into().unwrap());
    let (least, sign) = (f64::from_bits(1), if random.chance(50) { 1.0 } else { -1.0 });
    let made = match random.below(9) {
        0 | 1 => vec![(here, last_bit(x))],
        2 => vec![(here, -x)],
        3 => vec![(here, 0.0 * sign), (there, -0.0 * sign)],
        4 => vec![(here, 0.0 * sign), (there, least)],
        5 => vec![(here, last_bit(x)), (there, last_bit(x))],
        6 => vec![(here, [f64::NAN, f64::INFINITY][random.below(2)] * sign)],
        7 => vec![(here, last_bit(x)), (pivot, -0.0)],
        _ => vec![(pivot, x * 2.0)],
    };
    made.iter().for_each(|(p, x)| record[*p..*p + 8].copy_from_slice(&x.to_le_bytes()));
}
