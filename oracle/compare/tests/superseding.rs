//! How superseding records are put into jobs, and what becomes of them where a record is left out.
use compare::jobs::superseding::{beside, is_superseding, without};
use oracle::cases::{Job, Random, any_graph};
use oracle::run::expected;

#[test]
fn the_live_factors_stay_as_drawn() {
    let random = &mut Random::new(3);
    let mut superseding = 0;
    for _ in 0..300 {
        let drawn = any_graph(random, 0);
        let job = beside(random, drawn.clone());
        superseding += job.records.iter().filter(|record| is_superseding(record)).count();
        assert_eq!(expected(&job.bytes()), expected(&drawn.bytes()));
    }
    assert!(superseding > 300);
}

fn prior(job: Job, variance: f64) -> Job {
    job.plain_prior(0, variance)
}

/// Factor 2 takes the place of 0, factor 4 that of 2, and factor 5 that of 3. The records are those of a variable and of factors 0 to 5.
fn chained() -> Job {
    let two = prior(prior(Job::with(&[1]), 1.0), 2.0).superseding(0, |job| prior(job, 3.0));
    prior(two, 4.0).superseding(2, |job| prior(job, 5.0)).superseding(3, |job| prior(job, 6.0))
}

/// The numbers that the superseding records name.
fn named(job: &Job) -> Vec<u8> {
    job.records.iter().filter(|record| is_superseding(record)).map(|record| record[2]).collect()
}

#[test]
fn numbers_follow_a_record_that_is_left_out() {
    assert_eq!(named(&chained()), [0, 2, 3]);
    // The variable: no factor's number changes.
    assert_eq!(named(&without(chained(), 0)), [0, 2, 3]);
    // Factor 0: the record that took its place is a plain one.
    assert_eq!(named(&without(chained(), 1)), [1, 2]);
    assert_eq!(named(&without(chained(), 2)), [0, 1, 2]);
    // Factor 2, inside a chain: what took its place takes that of 0.
    assert_eq!(named(&without(chained(), 3)), [0, 2]);
    assert_eq!(named(&without(chained(), 4)), [0, 2]);
    // The last: nothing names it.
    assert_eq!(named(&without(chained(), 6)), [0, 2]);
    for at in 1..7 {
        let printed = expected(&without(chained(), at).bytes()).unwrap();
        assert!(printed.starts_with("0 "), "{at}: {printed}");
    }
}
