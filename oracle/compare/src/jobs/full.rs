//! Jobs that take a store whole, or one number more.
use super::{chain, count, sizes};
use oracle::cases::graphs::{Style, graph};
use oracle::cases::limits::{FULL, ONE_OVER, needing, tangle};
use oracle::cases::{Job, Random};
use oracle::job::{self, FACTOR_STORE, IDENTITY, MESSAGE_STORE, ROWS};

/// The factor store filled by observations without keys, at the end of which 2 numbers are left; then a prior, which takes
/// 2, an observation of one key and one row, which takes 3, or both.
pub fn factor_store(random: &mut Random) -> Job {
    // So few keys that the store is full before there are too many factors.
    let keys = count(random, 5);
    let mut all = sizes(random, keys);
    all[0] = 1;
    let job = graph(random, &all, &chain(keys), Style { most_rows: 3, priors: 100, scale: 0 });
    let job = filled(job);
    match random.below(3) {
        0 => job.plain_prior(0, 2.0),
        1 => job.unit_observation(&[0], &[3.0], &[1.0]),
        _ => job.plain_prior(0, 2.0).plain_prior(0, 4.0),
    }
}

fn filled(mut job: Job) -> Job {
    let mut left = FACTOR_STORE - 2 - job::stored(&job::read(&job.bytes()).graph.all);
    if left % 2 == 1 {
        job = job.unit_observation(&[0], &[0.5], &[1.0]);
        left -= 3;
    }
    while left > 0 {
        let rows = ROWS.rev().find(|rows| rows + rows * rows <= left).unwrap();
        job = job.unit_observation(&[], &[], &vec![1.0; rows]);
        left -= rows + rows * rows;
    }
    job
}

/// A tangle that needs the message store whole, one number more, or about as much, with numbers of its own.
pub fn message_store(random: &mut Random) -> Job {
    let job = match random.below(3) {
        0 => needing(MESSAGE_STORE, FULL),
        1 => needing(MESSAGE_STORE + 1, ONE_OVER),
        _ => tangle(random),
    };
    renumbered(random, job)
}

/// Other numbers in every observation whose variance is made: its header takes 5 bytes, its keys one each.
fn renumbered(random: &mut Random, mut job: Job) -> Job {
    for record in job.records.iter_mut().filter(|record| record.starts_with(b"OB") && record[4] == IDENTITY) {
        let from = 5 + record[2] as usize;
        record[from..].chunks_exact_mut(8).for_each(|number| number.copy_from_slice(&random.number().to_le_bytes()));
    }
    job
}
