//! The flags of observations: both variances that are made, one that is given, and flags that there aren't.
use super::sizes;
use oracle::cases::{Job, Random};
use oracle::job::{GIVEN, IDENTITY, KEYS, MOST_ROWS, QUARTER};

/// Of the observations with the identity about half get a quarter.
pub fn some_quarters(random: &mut Random, mut job: Job) -> Job {
    for record in &mut job.records {
        if record.starts_with(b"OB") && record.get(4) == Some(&IDENTITY) && random.chance(50) {
            record[4] = QUARTER;
        }
    }
    job
}

/// A few observations, each with any flag and any number of rows. Mostly they are whole and have the numbers that the flag wants;
/// the last may be cut.
pub fn any(random: &mut Random) -> Job {
    let count = 1 + random.below(KEYS);
    let sizes = sizes(random, count);
    let job = (0..count).fold(Job::with(&sizes), |job, key| job.plain_prior(key, 1.0 + key as f64));
    let job = (0..1 + random.below(3)).fold(job, |job, _| one(random, job));
    let length = job.records.last().unwrap().len();
    match random.below(6) {
        0 => job.cut(1 + random.below(length)),
        1 => job.cut(length.saturating_sub(1 + random.below(8))),
        _ => job,
    }
}

fn one(random: &mut Random, job: Job) -> Job {
    let keys: Vec<usize> = (0..job.keys()).filter(|_| random.chance(60)).collect();
    let rows = if random.chance(5) { MOST_ROWS + 1 } else { 1 + random.below(MOST_ROWS) };
    let flag = match random.below(12) {
        0..4 => QUARTER,
        4..6 => GIVEN,
        6..9 => IDENTITY,
        9..11 => 3,
        _ => random.below(256) as u8,
    };
    let mut numbers = random.numbers(rows * job.width(&keys) + rows);
    if (flag == GIVEN) != random.chance(5) {
        numbers.extend(random.variance(rows));
    }
    job.observed(&keys, rows, flag, &numbers)
}
