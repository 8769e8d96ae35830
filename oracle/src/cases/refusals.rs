//! Each refusal of the run, at each stage that a job can reach.
use super::graphs::close_columns;
use super::{Cases, Job, Random, two_to};

pub fn add(cases: &mut Cases) {
    free_keys(cases);
    cleared_pivots(cases);
    messages_not_finite(cases);
    marginals(cases);
    by_rounding(cases);
    overflowing(cases);
}

/// Keys of size 1, each but these with a prior.
pub(super) fn free(count: usize, without: &[usize]) -> Job {
    let held = (0..count).filter(|key| !without.contains(key));
    held.fold(Job::with(&vec![1; count]), |job, key| job.plain_prior(key, 1.0))
}

fn free_keys(cases: &mut Cases) {
    for key in 0..4 {
        cases.add(format!("free-key-{key}-of-4"), free(4, &[key]));
    }
    cases.add("free-keys-1-and-3-of-4", free(4, &[1, 3]));
    cases.add("free-keys-all-of-3", free(3, &[0, 1, 2]));
    cases.add("free-key-of-size-6", Job::with(&[6, 1]).plain_prior(1, 1.0));
    cases.add("free-key-alone-of-size-6", Job::with(&[6]));
    cases.add("free-key-beside-an-observation-without-keys", free(2, &[0]).unit_observation(&[], &[], &[1.0]));
    cases.add("free-key-alone-beside-an-observation-without-keys", Job::with(&[1]).unit_observation(&[], &[], &[1.0]));
}

fn cleared_pivots(cases: &mut Cases) {
    let short = Job::with(&[2, 1]).plain_prior(1, 1.0).unit_observation(&[0, 1], &[1.0, 2.0, 3.0], &[1.0]);
    cases.add("cleared-block-short-of-rows-forward", short);
    let short = Job::with(&[1, 2]).plain_prior(0, 1.0).unit_observation(&[0, 1], &[1.0, 2.0, 3.0], &[1.0]);
    cases.add("cleared-block-short-of-rows-backward", short);
    let zeros = free(2, &[0]).unit_observation(&[0, 1], &[0.0, 1.0], &[1.0]);
    cases.add("cleared-block-of-zeros", zeros);
    let huge = free(2, &[]).unit_observation(&[0, 1], &[two_to(600), 1.0], &[1.0]);
    cases.add("cleared-block-infinite-forward", huge);
    let huge = free(2, &[]).unit_observation(&[0, 1], &[1.0, two_to(600)], &[1.0]);
    cases.add("cleared-block-infinite-backward", huge);
    let both = free(2, &[]).unit_observation(&[0, 1], &[two_to(600); 4], &[1.0; 2]);
    cases.add("cleared-block-before-not-finite", both);
    let small = free(3, &[1]).unit_observation(&[1, 2], &[two_to(-600), 1.0], &[1.0]);
    cases.add("cleared-block-underflows", small);
    let loose = Job::with(&[1; 4]).unit_observation(&[0, 1], &[1.0, -1.0], &[1.0]);
    cases.add("two-pairs-without-priors", loose.unit_observation(&[2, 3], &[1.0, -1.0], &[1.0]));
}

fn messages_not_finite(cases: &mut Cases) {
    let (small, narrow) = (two_to(-300), [two_to(-600)]);
    let far = |key| Job::with(&[1, 1]).prior(key, &[two_to(1000)], &[1.0]).plain_prior(1 - key, 1.0);
    cases.add("message-not-finite-forward-z", far(0).observation(&[0, 1], &[small, 1.0], &[0.0], &narrow));
    cases.add("message-not-finite-backward-z", far(1).observation(&[0, 1], &[1.0, small], &[0.0], &narrow));
    let narrow = [narrow[0], 0.0, 0.0, narrow[0]];
    let (ahead, behind) = ([small, small, 1.0, 1.0], [1.0, 1.0, small, small]);
    cases.add("message-not-finite-forward-x", far(0).observation(&[0, 1], &ahead, &[0.0; 2], &narrow));
    cases.add("message-not-finite-backward-x", far(1).observation(&[0, 1], &behind, &[0.0; 2], &narrow));
    let kept = free(2, &[]).unit_observation(&[0, 1], &[1.0, 1.0, two_to(600), two_to(600)], &[1.0; 2]);
    cases.add("message-w-not-finite-forward-x", kept);
    let heavy = || Job::with(&[1]).prior(0, &[two_to(1023)], &[1.0]).prior(0, &[two_to(1023)], &[1.0]);
    cases.add("message-without-rows-is-never-not-finite", heavy().variable(1).plain_prior(1, 1.0));
    let later = free(3, &[]).unit_observation(&[1, 2], &[1.0, 1.0, two_to(600), two_to(600)], &[1.0; 2]);
    cases.add("message-not-finite-at-step-2", later);
}

fn marginals(cases: &mut Cases) {
    cases.add("marginal-short-of-rows", Job::with(&[2]).unit_observation(&[0], &[1.0, 2.0], &[1.0]));
    cases.add("marginal-infinite-pivot-z", Job::with(&[1]).unit_observation(&[0], &[two_to(600)], &[1.0]));
    cases.add("marginal-of-zeros", Job::with(&[1]).unit_observation(&[0], &[0.0], &[1.0]));
    cases.add("marginal-underflows", Job::with(&[1]).unit_observation(&[0], &[two_to(-600)], &[1.0]));
    cases.add("marginal-tied-but-free", Job::with(&[1, 1]).unit_observation(&[0, 1], &[1.0, -1.0], &[1.0]));
    let covariance = Job::with(&[1]).unit_observation(&[0], &[two_to(-520)], &[1.0]);
    cases.add("marginal-covariance-not-finite", covariance);
    let mean = Job::with(&[1]).observation(&[0], &[two_to(-300)], &[two_to(900)], &[1.0]);
    cases.add("marginal-mean-not-finite", mean);
    let last = Job::with(&[1]).unit_observation(&[0], &[two_to(600); 2], &[1.0; 2]);
    cases.add("last-elimination-not-finite-x", last);
    let second = free(2, &[1]).unit_observation(&[1], &[two_to(-520)], &[1.0]);
    cases.add("marginal-covariance-not-finite-at-key-1", second);
    let second = free(2, &[1]).observation(&[1], &[two_to(-300)], &[two_to(900)], &[1.0]);
    cases.add("marginal-mean-not-finite-at-key-1", second);
    let twice = Job::with(&[1]).prior(0, &[two_to(1023)], &[1.0]).prior(0, &[two_to(1023)], &[1.0]);
    cases.add("last-elimination-xi-not-finite-x", twice);
}

/// A printed refusal of this number and stage at a key above the first.
fn later_key(prints: &str, start: &str) -> bool {
    prints.strip_prefix(start).is_some_and(|key| key != "0\n")
}

/// Refusals that exact numbers would have shown earlier.
fn by_rounding(cases: &mut Cases) {
    for at in 0..3 {
        let cleared = |prints: &str| prints.starts_with("refused 15 3 ");
        cases.draw(format!("rounding-cleared-block-in-the-last-{at}"), close_columns, cleared);
        let marginal = |prints: &str| later_key(prints, "refused 16 3 ");
        cases.draw(format!("rounding-marginal-of-a-later-key-{at}"), close_columns, marginal);
        cases.draw(format!("rounding-marginal-{at}"), close_columns, |prints| prints == "refused 16 3 0\n");
        cases.draw(format!("rounding-forward-{at}"), close_columns, |prints| prints.starts_with("refused 15 1"));
        cases.draw(format!("rounding-backward-{at}"), close_columns, |prints| prints.starts_with("refused 15 2"));
    }
}

/// Three keys on one observation and on pairs, with exponents near the ends.
fn extreme(random: &mut Random) -> Job {
    let huge = |random: &mut Random| random.number() * two_to(random.between(-500, 500));
    let mut job = Job::with(&[1; 3]);
    for keys in [&[0][..], &[1], &[2], &[0, 1], &[1, 2], &[0, 1, 2]] {
        let rows = 1 + random.below(2);
        if random.chance(60) {
            let a: Vec<f64> = (0..rows * keys.len()).map(|_| huge(random)).collect();
            let mean: Vec<f64> = (0..rows).map(|_| huge(random)).collect();
            job = job.unit_observation(keys, &a, &mean);
        }
    }
    job
}

fn overflowing(cases: &mut Cases) {
    for (number, stage) in [(15, 1), (15, 2), (15, 3), (16, 3), (17, 1), (17, 2), (17, 3)] {
        let start = format!("refused {number} {stage} ");
        for at in 0..2 {
            cases.draw(format!("extreme-{number}-{stage}-{at}"), extreme, |prints| prints.starts_with(&start));
        }
        if stage == 3 {
            cases.draw(format!("extreme-{number}-{stage}-later-key"), extreme, |prints| later_key(prints, &start));
        }
    }
    for at in 0..4 {
        cases.draw(format!("extreme-marginals-{at}"), extreme, super::succeeds);
    }
}
