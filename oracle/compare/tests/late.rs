//! Plans of a job and of the job with one observation more (C-23).
use compare::late::{Met, compare, forward, pair};
use oracle::cases::Job;

/// Three priors on key 0 of three keys.
fn priors() -> Job {
    (0..3).fold(Job::with(&[1, 1, 1]), |job, _| job.prior(0, &[0.0], &[1.0]))
}

fn observed(job: Job, keys: &[usize]) -> Job {
    job.unit_observation(keys, &vec![1.0; keys.len()], &[1.0])
}

/// Key 0 is cleared at step 1; taking a slot out moves the last one, which with the observation is another.
#[test]
fn contents_stand_in_another_order() {
    let met = Met { some: true, reordered: true, next_differs: true, ..Met::default() };
    assert_eq!(pair(&priors(), &observed(priors(), &[1]), 1), Some(Ok(met)));
}

/// The step of the first key agrees; the next one, where that key may be cleared, does not.
#[test]
fn the_step_of_the_first_key_is_the_last() {
    for keys in [&[1][..], &[1, 2]] {
        assert!(pair(&priors(), &observed(priors(), keys), 1).unwrap().is_ok());
        assert!(pair(&priors(), &observed(priors(), keys), 2).unwrap().is_err());
    }
}

#[test]
fn without_keys_every_step_agrees() {
    let met = Met { some: true, reordered: true, keyless: true, ..Met::default() };
    assert_eq!(pair(&priors(), &observed(priors(), &[]), 3), Some(Ok(met)));
}

#[test]
fn an_observation_that_is_refused_makes_no_pair() {
    assert_eq!(pair(&priors(), &observed(priors(), &[1, 1]), 1), None);
}

const PLAN: &str = "\
forward 0 step 1 content 0 2 1 kept 1 cleared 0
forward 1 step 2 content m0 kept 2 cleared 1
backward 0 step 1 content 3 kept 0 cleared 1
";

/// Each part of a message counts, and so do its place and how often it holds a slot.
#[test]
fn every_part_is_compared() {
    let same = |text: &str| compare(&forward(PLAN), &forward(text), 2).is_ok();
    assert!(same(PLAN));
    assert!(same(&PLAN.replace("0 2 1", "2 1 0")));
    for (part, other) in [
        ("0 2 1", "0 2"),
        ("0 2 1", "0 2 2"),
        ("m0", "0"),
        ("kept 1", "kept 2"),
        ("cleared 0", "cleared 0 1"),
        ("step 1", "step 0"),
        ("forward 1", "forward 2"),
    ] {
        assert!(!same(&PLAN.replacen(part, other, 1)), "{part} as {other}");
    }
    assert!(!same(PLAN.split_once('\n').unwrap().1));
}
