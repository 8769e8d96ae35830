//! Document 01's pairs, and jobs on which each slip that it rules out would print something else.
use super::{Cases, Job};

pub fn add(cases: &mut Cases) {
    cases.add("p1-no-variables", Job::new());
    cases.add("p1-only-an-observation-without-keys", Job::new().unit_observation(&[], &[], &[1.0]));
    cases.add("p2-one-variable-no-factor", Job::with(&[1]));
    cases.add("p3-one-prior", Job::with(&[1]).prior(0, &[2.0], &[4.0]));
    cases.add("p4-p5-p6-three-priors-and-a-link", three_priors());
    cases.add("p8-keys-repeated", Job::with(&[1, 1]).unit_observation(&[1, 1], &[1.0, 1.0], &[0.0]));
    let keyless = three_priors().unit_observation(&[], &[], &[7.0, -7.0]);
    cases.add("p9-an-observation-without-keys-last", keyless);
    cases.add("p9-an-observation-without-keys-first", keyless_first());
    slips(cases);
}

pub(super) fn three_priors() -> Job {
    let priors = (0..3).fold(Job::with(&[1, 1]), |job, _| job.prior(0, &[0.0], &[1.0]));
    priors.observation(&[0, 1], &[-1.0, 1.0], &[4.0], &[1.0])
}

pub(super) fn keyless_first() -> Job {
    let job = Job::with(&[1]).unit_observation(&[], &[], &[3.0]);
    job.variable(1).prior(0, &[1.0], &[0.5]).unit_observation(&[0, 1], &[0.5, 0.25], &[4.0])
}

/// Variances whose inverses add up to other bits in another order.
const UNEVEN: [f64; 4] = [3.0, 7.0, 0.9, 5.0];

fn slips(cases: &mut Cases) {
    let priors = UNEVEN.iter().fold(Job::with(&[1, 1]), |job, &v| job.prior(0, &[0.1 + v], &[v]));
    let linked = priors.unit_observation(&[0, 1], &[-1.7, 1.1], &[4.0]);
    cases.add("slip-slots-not-in-rising-order", linked);
    let equal = Job::with(&[1, 2]).prior(0, &[0.1], &[0.7]).unit_observation(
        &[0, 1],
        &[0.1, 0.2, 0.3, 0.4, 0.5, 0.7],
        &[0.1, 0.3],
    );
    cases.add("slip-rows-equal-to-the-kept-dimension", equal);
    let chain = (0..3).fold(Job::with(&[1, 1, 1, 1]).prior(0, &[0.1], &[0.3]), |job, key| {
        job.unit_observation(&[key, key + 1], &[0.3, 0.7], &[key as f64])
    });
    cases.add("slip-step-at-most-the-key", chain);
    let cleared = Job::with(&[2, 1]).prior(0, &[0.1, 0.2], &[0.7, 0.1, 0.1, 0.9]);
    cases.add("slip-a-cleared-prior-brings-no-rows", cleared.unit_observation(&[0, 1], &[0.1, 0.3, 0.7], &[0.9]));
}
