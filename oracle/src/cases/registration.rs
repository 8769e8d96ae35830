//! What registration refuses, and in which order.
use super::{Cases, Job, two_to};

pub fn add(cases: &mut Cases) {
    letters(cases);
    names_and_sizes(cases);
    given(cases);
    pivots(cases);
    computed(cases);
    lopsided(cases);
    accepted(cases);
}

/// A variable under this letter with a prior.
fn lettered(letter: u32) -> Job {
    Job::new().named(letter, 0, 1).plain_prior(0, 1.0)
}

fn letters(cases: &mut Cases) {
    for letter in [0, 0xD7FF, 0xE000, 0x10FFFF] {
        cases.add(format!("letter-{letter:x}"), lettered(letter));
    }
    for letter in [0xD800, 0xDFFF, 0x110000, u32::MAX] {
        cases.add(format!("letter-{letter:x}-is-none"), lettered(letter));
    }
    cases.add("letter-before-size", Job::with(&[1]).named(0xDABC, 0, 0));
}

fn names_and_sizes(cases: &mut Cases) {
    for size in [0, 7, 255] {
        cases.add(format!("size-{size}"), Job::with(&[1, size]));
    }
    let a = 'a' as u32;
    cases.add("name-taken", Job::with(&[1, 2]).named(a, 1, 2));
    cases.add("name-taken-with-another-size", Job::with(&[1]).named(a, 0, 3));
    cases.add("size-before-name", Job::with(&[1]).named(a, 0, 7));
    cases.add("name-before-total-size", Job::with(&[6, 6, 6, 6, 6]).named(a, 2, 6));
    cases.add("letter-shared", Job::with(&[1]).named(a, u32::MAX, 1).plain_prior(0, 1.0).plain_prior(1, 4.0));
    cases.add("index-shared", Job::with(&[1]).named('b' as u32, 0, 1).plain_prior(0, 1.0).plain_prior(1, 4.0));
}

const INFINITE: f64 = f64::INFINITY;

fn given(cases: &mut Cases) {
    let pair = || Job::with(&[1, 2]);
    cases.add("prior-mean-nan", pair().prior(0, &[f64::NAN], &[1.0]));
    cases.add("prior-mean-infinite", pair().prior(0, &[-INFINITE], &[1.0]));
    cases.add("prior-variance-infinite", pair().prior(0, &[0.0], &[INFINITE]));
    cases.add("prior-variance-nan-above-the-diagonal", pair().prior(1, &[0.0, 0.0], &[1.0, 0.0, f64::NAN, 1.0]));
    cases.add("prior-given-before-pivot", pair().prior(1, &[0.0, f64::NAN], &[-1.0, 0.0, 0.0, 1.0]));
    cases.add("observation-a-nan", pair().unit_observation(&[0], &[f64::NAN], &[1.0]));
    cases.add("observation-a-infinite", pair().unit_observation(&[1], &[0.0, INFINITE], &[1.0]));
    cases.add("observation-mean-infinite", pair().unit_observation(&[0], &[1.0], &[INFINITE]));
    cases.add("observation-variance-nan", pair().observation(&[0], &[1.0], &[1.0], &[f64::NAN]));
    cases.add("observation-without-keys-mean-nan", pair().unit_observation(&[], &[], &[f64::NAN]));
    let above = [1.0, 0.0, -INFINITE, 1.0];
    cases.add("observation-variance-infinite-above", pair().observation(&[0], &[1.0; 2], &[1.0; 2], &above));
}

fn pivots(cases: &mut Cases) {
    let pair = || Job::with(&[1, 2]);
    for (name, variance) in [("zero", 0.0), ("minus-zero", -0.0), ("negative", -1.0), ("smallest-negative", -5e-324)] {
        cases.add(format!("prior-variance-{name}"), pair().prior(0, &[0.0], &[variance]));
    }
    cases.add("prior-variance-singular", pair().prior(1, &[0.0, 0.0], &[1.0, 2.0, 2.0, 4.0]));
    let large = two_to(600);
    for (twin, second, overflowing) in [("", 2.0, large), ("-lopsided", 0.0, 0.0)] {
        let second = [1.0, 2.0, second, 3.0];
        cases.add(format!("prior-variance-second-pivot{twin}"), pair().prior(1, &[0.0, 0.0], &second));
        let overflowing = [two_to(-1000), large, overflowing, 1.0];
        cases.add(format!("prior-variance-pivot-overflows{twin}"), pair().prior(1, &[0.0, 0.0], &overflowing));
    }
    cases.add("observation-variance-zero", pair().observation(&[0], &[1.0], &[1.0], &[0.0]));
    cases.add("observation-without-keys-variance-negative", pair().observation(&[], &[], &[1.0], &[-1.0]));
    let third = [1.0, 0.5, 0.5, 0.5, 1.0, 0.5, 0.5, 0.5, 1.0 / 3.0];
    cases.add("observation-variance-third-pivot", pair().observation(&[0], &[1.0; 3], &[1.0; 3], &third));
    cases.add("observation-pivot-before-computed", pair().observation(&[], &[], &[two_to(1000)], &[-two_to(-100)]));
}

fn computed(cases: &mut Cases) {
    cases.add("prior-w-overflows", Job::with(&[1]).prior(0, &[0.0], &[5e-324]));
    cases.add("prior-w-just-fits", Job::with(&[1]).prior(0, &[0.0], &[two_to(-1022)]));
    cases.add("prior-xi-overflows", Job::with(&[1]).prior(0, &[two_to(1000)], &[two_to(-100)]));
    cases.add("observation-w-overflows", Job::with(&[1]).observation(&[0], &[1.0], &[0.0], &[5e-324]));
    cases.add("observation-xi-overflows", Job::with(&[1]).observation(&[0], &[1.0], &[-two_to(1000)], &[two_to(-100)]));
    let steep = [two_to(-500), 0.0, 0.0, two_to(-1024 + 2)];
    cases.add("observation-xi-overflows-in-its-last", Job::with(&[1]).observation(&[], &[], &[0.0, 8.0], &steep));
}

fn lopsided(cases: &mut Cases) {
    let lopsided = [2.0, 0.5, -77.0, 3.0];
    cases.add("variance-lopsided", Job::with(&[2]).prior(0, &[1.0, 2.0], &lopsided));
    let lopsided = Job::with(&[2]).observation(&[0], &[1.0, 2.0, 3.0, 5.0], &[1.0, 2.0], &lopsided);
    cases.add("variance-lopsided-observation", lopsided);
}

fn accepted(cases: &mut Cases) {
    let zeros = Job::with(&[1, 1]).unit_observation(&[0, 1], &[1.0, 0.0, 0.0, 1.0], &[-3.0, -0.0]);
    cases.add("mean-minus-zero-below-a-negative-one", zeros.plain_prior(0, 1.0));
    cases.add("mean-minus-zero", Job::with(&[1]).prior(0, &[-0.0], &[1.0]));
    let columns = Job::with(&[2, 1]).plain_prior(0, 1.0).plain_prior(1, 1.0);
    let a = [1.0, 2.0, 3.0, 4.0, 5.0, 6.0];
    cases.add("a-column-by-column", columns.observation(&[0, 1], &a, &[1.0, 2.0], &[2.0, 1.0, 1.0, 3.0]));
    let same = Job::with(&[1]).plain_prior(0, 2.0).plain_prior(0, 2.0);
    cases.add("one-prior-twice", same);
}
