//! Random jobs of every kind that document 01 speaks of, each from its own number.
mod damage;
mod flags;
mod full;
pub mod superseding;

use oracle::cases::graphs::{
    Style, any_graph, any_links, chain, close_columns, full_rank_chain, graph, ladder, ring, some_sizes, star, tree,
};
use oracle::cases::{Job, Random, symmetry, tolerance, two_to};
use oracle::job::{FACTORS, GIVEN, KEYS, MOST_ROWS, TOTAL_SIZE, VARIABLES};

/// How a job was drawn, for the counts.
#[derive(Debug, Clone, Copy, PartialEq, Eq, PartialOrd, Ord)]
pub enum Kind {
    Chain,
    Tree,
    Loop,
    Star,
    Ladder,
    Apart,
    Wide,
    ManyPriors,
    Any,
    Keyless,
    NearlySingular,
    BesideTolerance,
    BesideSymmetry,
    WholeNumbers,
    Uneven,
    Widest,
    Flags,
    Superseding,
    Limits,
    FactorStore,
    MessageStore,
    Damaged,
}

/// Of 100 draws so many are of each kind; the rest are damaged jobs.
const SHARES: [(Kind, usize); 21] = [
    (Kind::Chain, 5),
    (Kind::Tree, 5),
    (Kind::Loop, 5),
    (Kind::Star, 5),
    (Kind::Ladder, 5),
    (Kind::Apart, 6),
    (Kind::Wide, 6),
    (Kind::ManyPriors, 5),
    (Kind::Any, 7),
    (Kind::Keyless, 4),
    (Kind::NearlySingular, 5),
    (Kind::BesideTolerance, 4),
    (Kind::BesideSymmetry, 4),
    (Kind::WholeNumbers, 5),
    (Kind::Uneven, 4),
    (Kind::Widest, 3),
    (Kind::Flags, 4),
    (Kind::Superseding, 4),
    (Kind::Limits, 2),
    (Kind::FactorStore, 1),
    (Kind::MessageStore, 1),
];

/// Which of the flags 0, 1, 2, 3 and any other its observations have.
pub fn flags_in(job: &Job) -> [bool; 5] {
    let factors = job.records.iter().map(|record| superseding::within(record));
    let flags = factors.filter(|record| record.starts_with(b"OB") && record.len() > 4).map(|record| record[4]);
    flags.fold([false; 5], |mut met, flag| {
        met[flag.min(4) as usize] = true;
        met
    })
}

/// The job of this number under this seed.
pub fn draw(seed: u64, number: u64) -> (Kind, Job) {
    let random =
        &mut Random::new(seed.wrapping_mul(0x9E37_79B9_7F4A_7C15) ^ number.wrapping_mul(0xD1B5_4A32_D192_ED03));
    let mut at = random.below(100);
    for (kind, share) in SHARES {
        if at < share {
            return (kind, of_kind(random, kind));
        }
        at -= share;
    }
    (Kind::Damaged, damage::damaged(random))
}

fn of_kind(random: &mut Random, kind: Kind) -> Job {
    let job = made(random, kind);
    // A pivot beside the tolerance was reckoned with the identity.
    let job = if kind == Kind::BesideTolerance { job } else { flags::some_quarters(random, job) };
    if kind == Kind::Superseding { job } else { superseding::some(random, kind, job) }
}

fn made(random: &mut Random, kind: Kind) -> Job {
    match kind {
        Kind::Widest => widest(random),
        Kind::Flags => flags::any(random),
        Kind::Superseding => superseding::any(random),
        Kind::Limits => limits(random),
        Kind::FactorStore => full::factor_store(random),
        Kind::MessageStore => full::message_store(random),
        Kind::NearlySingular => nearly_singular(random),
        Kind::BesideTolerance => tolerance::beside(random),
        Kind::BesideSymmetry => symmetry::beside(random),
        Kind::WholeNumbers => whole_numbers(random),
        Kind::Uneven => uneven(random),
        Kind::ManyPriors => many_priors(random),
        Kind::Keyless => keyless(random),
        Kind::Any => {
            let scale = scale(random);
            any_graph(random, scale)
        }
        _ => formed(random, kind),
    }
}

/// Mostly none, else up to 2^300.
fn scale(random: &mut Random) -> i64 {
    [0, 0, 0, 0, 0, 3, 10, 50, 100, 300][random.below(10)]
}

fn style(random: &mut Random) -> Style {
    let most_rows = [1, 1, 2, 3, 3, 4, MOST_ROWS, MOST_ROWS][random.below(8)];
    Style { most_rows, priors: [0, 50, 80, 100, 100, 100][random.below(6)], scale: scale(random) }
}

/// Mostly few keys, sometimes as many as there may be.
fn count(random: &mut Random, most: usize) -> usize {
    let top = if random.chance(90) { most.min(7) } else { most };
    1 + random.below(top)
}

/// Sizes of at most the total size. A link of unequal sizes often leaves the domain, so half have size 1.
fn sizes(random: &mut Random, count: usize) -> Vec<usize> {
    let most = (TOTAL_SIZE / count).min(6);
    match random.below(4) {
        0 | 1 => vec![1; count],
        2 => vec![1 + random.below(most); count],
        _ => some_sizes(random, count, most),
    }
}

fn links(random: &mut Random, kind: Kind, count: usize) -> Vec<Vec<usize>> {
    match kind {
        Kind::Chain => chain(count),
        Kind::Tree => tree(random, count),
        Kind::Loop => ring(count.max(2)),
        Kind::Star => {
            let centre = random.below(count);
            star(count, centre)
        }
        Kind::Ladder => ladder(count.div_ceil(2)),
        Kind::Apart => pieces(random, count),
        Kind::Wide => wide(random, count),
        _ => any_links(random, count),
    }
}

fn formed(random: &mut Random, kind: Kind) -> Job {
    let least = if kind == Kind::Loop { 2 } else { 1 };
    let drawn = count(random, VARIABLES).max(least);
    let keys = if kind == Kind::Ladder { 2 * drawn.div_ceil(2) } else { drawn };
    let sizes = sizes(random, keys);
    if kind == Kind::Chain && random.chance(20) {
        return full_rank_chain(random, &sizes);
    }
    let (links, style) = (links(random, kind, keys), style(random));
    graph(random, &sizes, &links, style)
}

/// Links within parts that nothing joins: a key belongs to the part of its number's remainder.
fn pieces(random: &mut Random, count: usize) -> Vec<Vec<usize>> {
    let parts = 1 + random.below(4);
    (parts..count).filter(|_| random.chance(80)).map(|key| vec![key - parts, key]).collect()
}

/// Observations of up to as many keys as there may be.
fn wide(random: &mut Random, count: usize) -> Vec<Vec<usize>> {
    (0..1 + random.below(4)).map(|_| some_keys(random, count, KEYS)).collect()
}

/// At most so many of the first keys, rising.
pub fn some_keys(random: &mut Random, count: usize, most: usize) -> Vec<usize> {
    let mut keys: Vec<usize> = (0..1 + random.below(most)).map(|_| random.below(count)).collect();
    keys.sort();
    keys.dedup();
    keys
}

fn many_priors(random: &mut Random) -> Job {
    let keys = count(random, 12);
    let sizes = sizes(random, keys);
    let scale = scale(random);
    let job = graph(random, &sizes, &chain(keys), Style { most_rows: 3, priors: 100, scale });
    (0..random.below(FACTORS - 2 * keys)).fold(job, |job, _| {
        let key = random.below(keys);
        oracle::cases::graphs::prior(random, job, key, scale)
    })
}

/// A graph of no form with observations without keys before, between and behind its records.
fn keyless(random: &mut Random) -> Job {
    let keys = count(random, 10);
    let (sizes, mut all, style) = (sizes(random, keys), any_links(random, keys), style(random));
    (0..1 + random.below(3)).for_each(|_| all.insert(random.below(all.len() + 1), Vec::new()));
    graph(random, &sizes, &all, style)
}

/// Columns of A that nearly depend on each other, or a variance that is nearly singular.
fn nearly_singular(random: &mut Random) -> Job {
    if random.chance(60) {
        return close_columns(random);
    }
    let off = 1.0 - two_to(random.between(-54, -30));
    let variance = [1.0, off, off, 1.0];
    let job =
        Job::with(&[2, 1]).prior(0, &random.numbers(2), &variance).plain_prior(1, two_to(random.between(-30, 30)));
    let (a, mean) = (random.numbers(6), random.numbers(2));
    job.observation(&[0, 1], &a, &mean, &variance)
}

/// Small whole numbers, so that sums cancel and pivots are exactly 0.
fn whole_numbers(random: &mut Random) -> Job {
    let keys = count(random, 8);
    let sizes = sizes(random, keys);
    let mut job = Job::with(&sizes);
    for key in 0..keys {
        if random.chance(70) {
            job = job.plain_prior(key, [1.0, 2.0, 4.0, 0.5][random.below(4)]);
        }
    }
    (0..random.below(2 * keys)).fold(job, |job, _| {
        let (touched, rows) = (some_keys(random, keys, 3), 1 + random.below(3));
        let a: Vec<f64> = (0..rows * job.width(&touched)).map(|_| random.between(-2, 2) as f64).collect();
        let mean: Vec<f64> = (0..rows).map(|_| random.between(-3, 3) as f64).collect();
        job.unit_observation(&touched, &a, &mean)
    })
}

/// A few numbers of A or of a mean far larger or smaller than the rest, so that messages and marginals overflow.
fn uneven(random: &mut Random) -> Job {
    let keys = 1 + random.below(5);
    let (sizes, links) = (vec![1; keys], any_links(random, keys));
    let mut job = graph(random, &sizes, &links, Style { most_rows: 3, priors: 100, scale: 0 });
    for _ in 0..1 + random.below(3) {
        let at = keys + random.below(job.records.len() - keys);
        let record = &mut job.records[at];
        let from = if record.starts_with(b"PR") { 3 } else { 5 + record[2] as usize };
        // A variance that is given stays as it is; so does that of a prior.
        let spare = match &record[..] {
            [b'P', ..] => 1,
            [_, _, _, rows, flag, ..] if *flag == GIVEN => *rows as usize * *rows as usize,
            _ => 0,
        };
        let place = from + 8 * random.below((record.len() - from) / 8 - spare);
        let number = f64::from_le_bytes(record[place..place + 8].try_into().unwrap());
        let far = number * two_to(random.between(300, 1000)) * if random.chance(50) { 1.0 } else { two_to(-1022) };
        record[place..place + 8].copy_from_slice(&far.to_le_bytes());
    }
    job
}

/// Each limit of a graph, at it and one past it, with a job around it.
fn limits(random: &mut Random) -> Job {
    let past = random.below(2);
    match random.below(3) {
        0 => graph_after(random, &vec![1; VARIABLES + past]),
        1 => graph_after(random, &[6, 6, 6, 6, 6, 2 + past]),
        _ => {
            let keys = 1 + random.below(3);
            (0..FACTORS + past)
                .fold(Job::with(&vec![1; keys]), |job, at| oracle::cases::graphs::prior(random, job, at % keys, 0))
        }
    }
}

/// As many keys or rows as an observation may have, or more; also of keys that don't rise or aren't there, and cut.
fn widest(random: &mut Random) -> Job {
    let past = |random: &mut Random| [0, 0, 0, 1, 1, 2, 4, 6][random.below(8)];
    let (count, rows) = match random.below(3) {
        0 => (KEYS + past(random), 1 + random.below(MOST_ROWS)),
        1 => (random.below(KEYS + 1), MOST_ROWS + past(random)),
        _ => (KEYS + past(random), MOST_ROWS + past(random)),
    };
    let sizes = sizes(random, count.max(1));
    let job = (0..sizes.len()).fold(Job::with(&sizes), |job, key| job.plain_prior(key, 1.0 + key as f64));
    let keys: Vec<usize> = match random.below(12) {
        0 => vec![0; count],
        1 => (1..=count).collect(),
        _ => (0..count).collect(),
    };
    let (a, mean) = (random.numbers(rows * job.width(&(0..count).collect::<Vec<_>>())), random.numbers(rows));
    let job = match random.below(2) {
        0 => job.unit_observation(&keys, &a, &mean),
        _ => job.observation(&keys, &a, &mean, &random.variance(rows)),
    };
    let length = job.records.last().unwrap().len();
    match random.below(10) {
        0 => job.cut(1 + random.below(length - 5)),
        // Behind the header at most all keys but one are left.
        1 if count > 0 => job.cut(length - 5 - random.below(count)),
        _ => job,
    }
}

fn graph_after(random: &mut Random, sizes: &[usize]) -> Job {
    let links = if random.chance(50) { chain(sizes.len()) } else { tree(random, sizes.len()) };
    graph(random, sizes, &links, Style { most_rows: 1, priors: 100, scale: 0 })
}
