//! Factors in the place of others (C-11), in jobs of every kind and in jobs made for it.
use super::{Kind, chain, count, damage, sizes, some_keys};
use oracle::cases::graphs::{self, Style, any_graph, graph};
use oracle::cases::{Job, Random};
use oracle::job::{FACTORS, GIVEN};

const MARK: &[u8; 2] = b"SU";

/// Its mark and the number named; behind them stands a factor's record.
pub const HEADER: usize = 3;

pub fn is_superseding(record: &[u8]) -> bool {
    record.starts_with(MARK)
}

/// The record of the factor, where it supersedes one too.
pub fn within(record: &[u8]) -> &[u8] {
    if is_superseding(record) { record.get(HEADER..).unwrap_or(&[]) } else { record }
}

fn is_factor(record: &[u8]) -> bool {
    is_superseding(record) || record.starts_with(b"PR") || record.starts_with(b"OB")
}

fn factors(records: &[Vec<u8>]) -> usize {
    records.iter().filter(|record| is_factor(record)).count()
}

/// The numbers of the factors that are live after these records, if all are accepted.
fn live(records: &[Vec<u8>]) -> Vec<usize> {
    let mut live = Vec::new();
    for (number, record) in records.iter().filter(|record| is_factor(record)).enumerate() {
        if is_superseding(record) {
            live.retain(|&other| Some(other) != record.get(2).map(|&named| named as usize));
        }
        live.push(number);
    }
    live
}

/// The last record, in the place of this factor.
fn supersede(job: Job, number: usize) -> Job {
    job.superseding(number, |job| job)
}

/// One of them, taken out.
fn taken(random: &mut Random, numbers: &mut Vec<usize>) -> usize {
    numbers.swap_remove(random.below(numbers.len()))
}

/// Percent of the drawn jobs that get superseding records; of these so many get one that is refused.
const SHARE: usize = 75;
const BAD: usize = 7;

/// Mostly the live factors stay as they were drawn, so that a job still shows what its kind is for.
pub fn some(random: &mut Random, kind: Kind, job: Job) -> Job {
    if !random.chance(SHARE) {
        return job;
    }
    let job = match kind {
        // With one factor more the limit would be passed before it is reached.
        Kind::Limits | Kind::FactorStore => among(random, job),
        _ if random.chance(85) => beside(random, job),
        _ => behind(random, job),
    };
    if random.chance(BAD) { bad(random, job) } else { job }
}

/// The same live factors in the same order: old ones are registered among them, and later ones take their places. An old one may
/// take the place of another, so that there are chains. The job has no superseding record yet.
pub fn beside(random: &mut Random, mut job: Job) -> Job {
    let records = std::mem::take(&mut job.records);
    let mut left = factors(&records);
    let mut room = FACTORS.saturating_sub(left);
    let (mut old, mut number) = (Vec::new(), 0);
    for record in records {
        let in_turn = is_factor(&record);
        // No more old ones than there are records left to take their places.
        while in_turn && room > 0 && old.len() < left && random.chance(35) {
            job = any_factor(random, job);
            if !old.is_empty() && random.chance(50) {
                job = supersede(job, taken(random, &mut old));
            }
            old.push(number);
            (number, room) = (number + 1, room - 1);
        }
        job.records.push(record);
        if in_turn {
            if !old.is_empty() && (old.len() == left || random.chance(50)) {
                job = supersede(job, taken(random, &mut old));
            }
            (number, left) = (number + 1, left - 1);
        }
    }
    job
}

/// Records that were there name earlier factors, so that there are as many factors as before and fewer live ones.
fn among(random: &mut Random, mut job: Job) -> Job {
    let records = std::mem::take(&mut job.records);
    let percent = [5, 20, 50, 100][random.below(4)];
    for record in records {
        let mut named = if is_factor(&record) { live(&job.records) } else { Vec::new() };
        job.records.push(record);
        if !named.is_empty() && random.chance(percent) {
            job = supersede(job, taken(random, &mut named));
        }
    }
    job
}

/// A few records more, each in the place of a live factor: mostly on the same keys, else on any.
fn behind(random: &mut Random, job: Job) -> Job {
    (0..1 + random.below(4)).fold(job, |job, _| {
        let mut named = live(&job.records);
        if named.is_empty() {
            return job;
        }
        // The last one often, so that there are chains.
        let number = if random.chance(30) { named[named.len() - 1] } else { taken(random, &mut named) };
        let job = if random.chance(70) { again(random, job, number) } else { any_factor(random, job) };
        supersede(job, number)
    })
}

/// A factor of the same kind, on the same keys as far as there are such.
fn again(random: &mut Random, job: Job, number: usize) -> Job {
    let record = within(job.records.iter().filter(|record| is_factor(record)).nth(number).unwrap());
    let touched = match record {
        [b'P', _, key, ..] => std::slice::from_ref(key),
        [_, _, count, _, _, rest @ ..] => &rest[..rest.len().min(*count as usize)],
        _ => &[],
    };
    let is_prior = record.starts_with(b"PR");
    let keys: Vec<usize> = touched.iter().map(|&key| key as usize).filter(|&key| key < job.keys()).collect();
    match keys[..] {
        [key] if is_prior => graphs::prior(random, job, key, 0),
        _ => observation(random, job, &keys),
    }
}

/// A prior or an observation of few keys.
fn any_factor(random: &mut Random, job: Job) -> Job {
    let keys = job.keys();
    if keys > 0 && random.chance(50) {
        let key = random.below(keys);
        return graphs::prior(random, job, key, 0);
    }
    let touched = if keys == 0 || random.chance(15) { Vec::new() } else { some_keys(random, keys, 3) };
    observation(random, job, &touched)
}

/// With any flag that there is.
pub fn observation(random: &mut Random, job: Job, keys: &[usize]) -> Job {
    let (rows, flag) = (1 + random.below(3), random.below(3) as u8);
    let mut numbers = random.numbers(rows * job.width(keys) + rows);
    if flag == GIVEN {
        numbers.extend(random.variance(rows));
    }
    job.observed(keys, rows, flag, &numbers)
}

/// With a superseding record, at the end or before any other, that has something wrong in it.
fn bad(random: &mut Random, mut job: Job) -> Job {
    let at = if random.chance(50) { job.records.len() } else { random.below(job.records.len() + 1) };
    let later = job.records.split_off(at);
    let mut job = faulty(random, job);
    job.records.extend(later);
    job
}

/// The number named, the mark within or the factor within may be wrong, or two of them.
fn faulty(random: &mut Random, job: Job) -> Job {
    let number = if random.chance(50) { not_live(random, &job) } else { any_live(random, &job) };
    let inner = any_live(random, &job);
    let job = match random.below(8) {
        // Whole records of the other marks.
        0 => job.raw(&Job::new().named('v' as u32, 0, 1).bytes()),
        1 => supersede(any_factor(random, job), inner),
        _ => any_factor(random, job),
    };
    let mut job = supersede(job, number);
    spoil(random, job.records.last_mut().unwrap());
    job
}

/// Often nothing, else its mark within, a cut inside what comes before the factor's own header or anywhere, or the factor.
fn spoil(random: &mut Random, record: &mut Vec<u8>) {
    let length = record.len();
    match random.below(6) {
        0 => record[HEADER..HEADER + 2].copy_from_slice(MARKS[random.below(MARKS.len())]),
        1 => record.truncate(1 + random.below(HEADER + 2)),
        2 => record.truncate(1 + random.below(length)),
        3 => {
            let mut factor = record.split_off(HEADER);
            damage::spoil(random, &mut factor);
            record.extend(factor);
        }
        _ => {}
    }
}

/// Marks that aren't those of a factor.
const MARKS: [&[u8; 2]; 5] = [b"VA", b"SU", b"XX", b"pr", b"PB"];

/// A factor that was superseded, or a number that none has.
fn not_live(random: &mut Random, job: &Job) -> usize {
    let (count, live) = (factors(&job.records), live(&job.records));
    let gone: Vec<usize> = (0..count).filter(|number| !live.contains(number)).collect();
    if !gone.is_empty() && random.chance(60) {
        return gone[random.below(gone.len())];
    }
    [count, count, count + 1, FACTORS - 1, FACTORS, 128, 255][random.below(7)]
}

fn any_live(random: &mut Random, job: &Job) -> usize {
    let live = live(&job.records);
    if live.is_empty() { 0 } else { live[random.below(live.len())] }
}

/// A job made for it: few keys, many superseding records.
pub fn any(random: &mut Random) -> Job {
    if random.chance(25) {
        return nearly_full(random);
    }
    let job = match random.below(2) {
        0 => any_graph(random, 0),
        _ => {
            let keys = count(random, 6);
            let sizes = sizes(random, keys);
            graph(random, &sizes, &chain(keys), Style { most_rows: 3, priors: 80, scale: 0 })
        }
    };
    let job = match random.below(3) {
        0 => among(random, job),
        1 => behind(random, job),
        _ => beside(random, job),
    };
    let job = behind(random, job);
    if random.chance(30) { bad(random, job) } else { job }
}

/// About as many factors as there may be, and then a superseding record.
fn nearly_full(random: &mut Random) -> Job {
    let keys = 1 + random.below(3);
    let all = FACTORS + 1 - random.below(4);
    let job = (0..all - 1).fold(Job::with(&vec![1; keys]), |job, _| any_factor(random, job));
    let job = if random.chance(70) { among(random, job) } else { job };
    if random.chance(50) { behind(random, job) } else { faulty(random, job) }
}

/// The job without a record. If that is a factor's, the numbers named above its own go down by one, and the record that took its
/// place takes the place of the one before it in the chain, or none's.
pub fn without(mut job: Job, at: usize) -> Job {
    let number = factors(&job.records[..at]);
    let dropped = job.records.remove(at);
    if !is_factor(&dropped) {
        return job;
    }
    for record in job.records[at..].iter_mut().filter(|record| is_superseding(record) && record.len() >= HEADER) {
        let named = record[2] as usize;
        if named > number {
            record[2] -= 1;
        } else if named == number && is_superseding(&dropped) {
            record[2] = dropped.get(2).copied().unwrap_or(0);
        } else if named == number {
            record.drain(..HEADER);
        }
    }
    job
}
