//! Graphs of every form, with numbers of every scale.
use super::{Cases, Job, Random, identity, succeeds, two_to};
use crate::job::{KEYS, MOST_ROWS};

pub fn add(cases: &mut Cases) {
    chains(cases);
    forms(cases);
    wide(cases);
    sizes(cases);
    from_both_sides(cases);
    apart(cases);
    many_priors(cases);
    mixed(cases);
    scales(cases);
    nearly_singular(cases);
}

/// How the numbers of a graph are drawn.
#[derive(Clone, Copy)]
pub struct Style {
    pub most_rows: usize,
    /// Percent of the keys with a prior, besides key 0.
    pub priors: usize,
    /// Numbers are scaled by a power of two up to this.
    pub scale: i64,
}

const PLAIN: Style = Style { most_rows: 3, priors: 70, scale: 0 };

fn scaled(random: &mut Random, numbers: Vec<f64>, scale: i64) -> Vec<f64> {
    let factor = two_to(random.between(-scale, scale));
    numbers.iter().map(|x| x * factor).collect()
}

pub fn prior(random: &mut Random, job: Job, key: usize, scale: i64) -> Job {
    let size = job.size(key);
    let (mean, variance) = (random.numbers(size), random.variance(size));
    let variance = scaled(random, variance, scale);
    job.prior(key, &mean, &variance)
}

fn observation(random: &mut Random, job: Job, keys: &[usize], rows: usize, scale: i64) -> Job {
    let (a, mean) = (random.numbers(rows * job.width(keys)), random.numbers(rows));
    let a = scaled(random, a, scale);
    if scale == 0 && random.chance(60) {
        return job.unit_observation(keys, &a, &mean);
    }
    let variance = random.variance(rows);
    let variance = scaled(random, variance, scale);
    job.observation(keys, &a, &mean, &variance)
}

/// A graph with these links, its priors among the observations in no order.
pub fn graph(random: &mut Random, sizes: &[usize], links: &[Vec<usize>], style: Style) -> Job {
    let mut pieces: Vec<Option<&Vec<usize>>> = links.iter().map(Some).collect();
    let with_prior: Vec<usize> = (0..sizes.len()).filter(|&key| key == 0 || random.chance(style.priors)).collect();
    with_prior.iter().for_each(|_| pieces.insert(random.below(pieces.len() + 1), None));
    let mut keys = with_prior.into_iter();
    pieces.into_iter().fold(Job::with(sizes), |job, piece| match piece {
        None => prior(random, job, keys.next().unwrap(), style.scale),
        Some(link) => {
            let rows = 1 + random.below(style.most_rows);
            observation(random, job, link, rows, style.scale)
        }
    })
}

pub fn chain(count: usize) -> Vec<Vec<usize>> {
    (1..count).map(|key| vec![key - 1, key]).collect()
}

pub fn ring(count: usize) -> Vec<Vec<usize>> {
    [chain(count), vec![vec![0, count - 1]]].concat()
}

pub fn star(count: usize, centre: usize) -> Vec<Vec<usize>> {
    let others = (0..count).filter(|&key| key != centre);
    others.map(|key| vec![key.min(centre), key.max(centre)]).collect()
}

pub fn tree(random: &mut Random, count: usize) -> Vec<Vec<usize>> {
    (1..count).map(|key| vec![random.below(key), key]).collect()
}

pub fn ladder(steps: usize) -> Vec<Vec<usize>> {
    let rungs = (0..steps).map(|at| vec![2 * at, 2 * at + 1]);
    rungs.chain((2..2 * steps).map(|key| vec![key - 2, key])).collect()
}

pub fn some_sizes(random: &mut Random, count: usize, most: usize) -> Vec<usize> {
    (0..count).map(|_| 1 + random.below(most)).collect()
}

fn chains(cases: &mut Cases) {
    for count in [2, 3, 5, 8] {
        cases.draw(format!("chain-{count}"), |r| graph(r, &vec![1; count], &chain(count), PLAIN), succeeds);
    }
    for (count, most) in [(2, 2), (3, 2), (3, 3), (4, 3), (5, 2), (3, 4)] {
        let make = |r: &mut Random| {
            let sizes = some_sizes(r, count, most);
            graph(r, &sizes, &chain(count), PLAIN)
        };
        cases.draw(format!("chain-{count}-sizes-to-{most}"), make, succeeds);
    }
    cases.draw("chain-32", |r| graph(r, &[1; 32], &chain(32), Style { most_rows: 1, ..PLAIN }), succeeds);
    let one_prior = Style { most_rows: 1, priors: 0, scale: 0 };
    cases.draw("chain-6-one-prior", |r| graph(r, &[1; 6], &chain(6), one_prior), succeeds);
    cases.draw("chain-4-sizes-2-one-prior", |r| full_rank_chain(r, &[2; 4]), succeeds);
}

/// Every link has as many rows as its keys have components, so one prior serves all.
pub fn full_rank_chain(random: &mut Random, sizes: &[usize]) -> Job {
    let job = prior(random, Job::with(sizes), 0, 0);
    (1..sizes.len()).fold(job, |job, key| observation(random, job, &[key - 1, key], sizes[key], 0))
}

fn forms(cases: &mut Cases) {
    let formed: Vec<(&str, usize, Vec<Vec<usize>>)> = vec![
        ("ring-3", 3, ring(3)),
        ("ring-5", 5, ring(5)),
        ("ring-8", 8, ring(8)),
        ("star-5-first", 5, star(5, 0)),
        ("star-5-last", 5, star(5, 4)),
        ("star-5-middle", 5, star(5, 2)),
        ("star-9-last", 9, star(9, 8)),
        ("ladder-3", 6, ladder(3)),
        ("ladder-5", 10, ladder(5)),
        ("complete-5", 5, (0..5).flat_map(|a| (a + 1..5).map(move |b| vec![a, b])).collect()),
        ("two-observations-on-one-pair", 2, vec![vec![0, 1], vec![0, 1]]),
        ("across-a-key-without-links", 3, vec![vec![0, 2]]),
    ];
    for (name, count, links) in formed {
        cases.draw(name, |r| graph(r, &vec![1; count], &links, PLAIN), succeeds);
        if count <= 5 {
            let make = |r: &mut Random| {
                let sizes = some_sizes(r, count, 3);
                graph(r, &sizes, &links, Style { priors: 100, ..PLAIN })
            };
            cases.draw(format!("{name}-sizes-to-3"), make, succeeds);
        }
    }
    for count in [4, 6, 9, 12] {
        let make = |r: &mut Random| {
            let links = tree(r, count);
            graph(r, &vec![1; count], &links, PLAIN)
        };
        cases.draw(format!("tree-{count}"), make, succeeds);
    }
}

fn wide(cases: &mut Cases) {
    let all = |count: usize| vec![(0..count).collect::<Vec<usize>>()];
    for count in [3, KEYS] {
        let style = Style { priors: 100, most_rows: 2, scale: 0 };
        cases.draw(format!("wide-{count}"), |r| graph(r, &vec![1; count], &all(count), style), succeeds);
    }
    let tall = Style { priors: 100, most_rows: MOST_ROWS, scale: 0 };
    cases.draw("wide-3-sizes-2-many-rows", |r| graph(r, &[2; 3], &all(3), tall), succeeds);
    cases.draw("wide-4-sizes-mixed-many-rows", |r| graph(r, &[1, 3, 2, 1], &all(4), tall), succeeds);
    let links = vec![vec![0, 2, 4, 6], vec![1, 2, 3], vec![3, 5, 6, 7]];
    cases.draw("wide-overlapping", |r| graph(r, &[1; 8], &links, PLAIN), succeeds);
    let without_priors = Style { priors: 0, most_rows: MOST_ROWS, scale: 0 };
    cases.draw("wide-4-one-prior-many-rows", |r| graph(r, &[1; 4], &all(4), without_priors), succeeds);
    let skipping = vec![vec![0, 3], vec![1, 3], vec![2, 3], vec![0, 4], vec![2, 4]];
    cases.draw("many-keys-kept", |r| graph(r, &[1; 5], &skipping, PLAIN), succeeds);
    cases.draw("many-keys-kept-sizes-2", |r| graph(r, &[2; 5], &skipping, Style { priors: 100, ..PLAIN }), succeeds);
}

fn sizes(cases: &mut Cases) {
    for size in 1..=6 {
        cases.draw(format!("size-{size}-prior"), |r| prior(r, Job::with(&[size]), 0, 0), succeeds);
        let as_many = |r: &mut Random| observation(r, Job::with(&[size]), &[0], size, 0);
        cases.draw(format!("size-{size}-rows-as-many"), as_many, succeeds);
        if size < MOST_ROWS {
            let one_more = |r: &mut Random| observation(r, Job::with(&[size]), &[0], size + 1, 0);
            cases.draw(format!("size-{size}-rows-one-more"), one_more, succeeds);
        }
        let one_beside = |r: &mut Random| {
            let job = as_many(r);
            observation(r, job, &[0], 1, 0)
        };
        cases.draw(format!("size-{size}-rows-one-more-in-two"), one_beside, succeeds);
    }
    for rows in 1..=4 {
        let make = |r: &mut Random| {
            let job = prior(r, Job::with(&[2, 3]), 0, 0);
            let job = prior(r, job, 1, 0);
            observation(r, job, &[0, 1], rows, 0)
        };
        cases.draw(format!("sizes-2-and-3-linked-by-{rows}-rows"), make, succeeds);
    }
    cases.draw("sizes-6-and-6", |r| graph(r, &[6, 6], &chain(2), Style { most_rows: MOST_ROWS, ..PLAIN }), succeeds);
}

/// A key that gathers a message from each side, and no more rows than it has components.
fn from_both_sides(cases: &mut Cases) {
    for (size, ahead, behind, own) in
        [(3, 2, 1, 0), (3, 1, 2, 0), (4, 2, 1, 1), (5, 2, 2, 1), (6, 3, 3, 0), (3, 2, 2, 0)]
    {
        let make = |r: &mut Random| {
            let job = prior(r, Job::with(&[1, size, 2]), 0, 0);
            let job = observation(r, job, &[0, 1], ahead, 0);
            let job = observation(r, job, &[1, 2], behind, 0);
            let job = if own == 0 { job } else { observation(r, job, &[1], own, 0) };
            prior(r, job, 2, 0)
        };
        cases.draw(format!("size-{size}-rows-{ahead}-and-{behind}-and-{own}"), make, succeeds);
    }
}

/// Parts that no link joins, and messages that keep no key.
fn apart(cases: &mut Cases) {
    let all = Style { priors: 100, ..PLAIN };
    for count in [2, 3, 5] {
        cases.draw(format!("apart-{count}"), |r| graph(r, &vec![1; count], &[], all), succeeds);
    }
    cases.draw("apart-sizes-mixed", |r| graph(r, &[2, 1, 3], &[], all), succeeds);
    let interleaved = vec![vec![0, 2], vec![2, 4], vec![1, 3], vec![3, 5]];
    cases.draw("apart-interleaved", |r| graph(r, &[1; 6], &interleaved, all), succeeds);
    let pairs = vec![vec![0, 1], vec![2, 3], vec![4, 5]];
    cases.draw("apart-pairs", |r| graph(r, &[1; 6], &pairs, all), succeeds);
    let empty_after_full = Job::with(&[1; 3]).prior(0, &[1.0], &[1.0]).prior(2, &[1.0], &[1.0]);
    cases.add("a-message-without-rows-gathered-last", empty_after_full.unit_observation(&[0, 1], &[-1.0, 1.0], &[4.0]));
    let own = vec![vec![0], vec![1], vec![1], vec![0, 1]];
    cases.draw("observations-of-one-key", |r| graph(r, &[1, 2], &own, all), succeeds);
    let keyless = vec![vec![], vec![0, 1], vec![], vec![1, 2]];
    cases.draw("observations-without-keys-between", |r| graph(r, &[1; 3], &keyless, all), succeeds);
    for size in 2..=4 {
        cases.draw(format!("an-observation-without-keys-turns-z-to-x-at-size-{size}"), |r| turned(r, size), succeeds);
    }
}

/// As many rows as components would be z, but the row of the observation without keys counts, too.
fn turned(random: &mut Random, size: usize) -> Job {
    let (a, mean, variance) = (random.numbers(size * size), random.numbers(size), random.variance(size));
    Job::with(&[size]).observation(&[0], &a, &mean, &variance).unit_observation(&[], &[], &[1.0])
}

fn many_priors(cases: &mut Cases) {
    for (count, each) in [(1, 5), (2, 4), (3, 3)] {
        let make = |r: &mut Random| {
            let job = (0..count * each).fold(Job::with(&vec![1; count]), |job, at| prior(r, job, at % count, 0));
            (1..count).fold(job, |job, key| observation(r, job, &[key - 1, key], 1, 0))
        };
        cases.draw(format!("priors-{each}-on-each-of-{count}"), make, succeeds);
    }
    let make = |r: &mut Random| {
        let job = (0..4).fold(Job::with(&[3, 2]), |job, at| prior(r, job, at % 2, 0));
        let job = observation(r, job, &[0, 1], 2, 0);
        prior(r, job, 0, 0)
    };
    cases.draw("priors-around-an-observation", make, succeeds);
}

pub fn any_links(random: &mut Random, count: usize) -> Vec<Vec<usize>> {
    let link = |random: &mut Random| {
        let mut keys: Vec<usize> = (0..1 + random.below(4)).map(|_| random.below(count)).collect();
        keys.sort();
        keys.dedup();
        keys
    };
    (0..count + random.below(3)).map(|_| link(random)).collect()
}

/// A few keys under links of no form, numbers scaled by a power of two up to this.
pub fn any_graph(random: &mut Random, scale: i64) -> Job {
    let count = 2 + random.below(5);
    let most = if random.chance(50) { 1 } else { 3 };
    let (sizes, links) = (some_sizes(random, count, most), any_links(random, count));
    graph(random, &sizes, &links, Style { most_rows: 3, priors: 80, scale })
}

fn mixed(cases: &mut Cases) {
    for at in 0..30 {
        cases.draw(format!("mixed-{at:02}"), |r| any_graph(r, 0), |prints| !prints.is_empty());
    }
}

fn scales(cases: &mut Cases) {
    for scale in [10, 50, 100, 200, 300] {
        for at in 0..3 {
            cases.draw(format!("scale-{scale}-{at}"), |r| any_graph(r, scale), succeeds);
        }
        cases.draw(format!("scale-{scale}-any"), |r| any_graph(r, scale), |prints| !prints.is_empty());
    }
    for exponent in [-1022, -600, -300, -1, 1, 300, 600, 1000] {
        let variance = two_to(exponent);
        cases.add(format!("prior-variance-2-to-{exponent}"), Job::with(&[1]).prior(0, &[0.75], &[variance]));
    }
}

/// Three columns of A of which the last is nearly made of the first, or of the first two.
pub fn close_columns(random: &mut Random) -> Job {
    let rows = 2 + random.below(3);
    let (first, second) = (random.numbers(rows), random.numbers(rows));
    let (ratio, share) = (random.number(), if random.chance(50) { 0.0 } else { random.number() });
    let off = two_to(random.between(-54, -44));
    let made = first.iter().zip(&second).map(|(x, y)| x * ratio + y * share);
    let third: Vec<f64> = made.map(|z| z * (1.0 + off * random.number())).collect();
    let mean = random.numbers(rows);
    let job = Job::with(&[1; 3]).unit_observation(&[0, 1, 2], &[first, second, third].concat(), &mean);
    if random.chance(50) { job } else { job.plain_prior(random.below(3), two_to(random.between(0, 60))) }
}

fn nearly_singular(cases: &mut Cases) {
    for at in 0..4 {
        cases.draw(format!("nearly-singular-columns-{at}"), close_columns, succeeds);
    }
    for at in 0..3 {
        cases.draw(format!("nearly-singular-any-{at}"), close_columns, |prints| !prints.is_empty());
    }
    let almost = 1.0 - two_to(-52);
    let variance = [1.0, almost, almost, 1.0];
    cases.add("nearly-singular-variance", Job::with(&[2]).prior(0, &[1.0, 2.0], &variance));
    let weak = Job::with(&[1, 1]).plain_prior(0, two_to(60)).plain_prior(1, two_to(60));
    cases.add("nearly-free-keys-tied-fast", weak.observation(&[0, 1], &[1.0, -1.0], &[0.5], &[two_to(-40)]));
    let steep =
        identity(3).iter().enumerate().map(|(at, unit)| unit * two_to(-40 * (at as i64 / 4))).collect::<Vec<_>>();
    cases.add("variance-of-uneven-scale", Job::with(&[3]).prior(0, &[1.0, 2.0, 3.0], &steep));
}
