//! Records that are cut, unknown or out of order, and which check comes first.
use super::{Cases, Job};

pub fn add(cases: &mut Cases) {
    marks(cases);
    variables(cases);
    priors(cases);
    headers(cases);
    observations(cases);
    every_cut(cases);
}

/// Two variables of sizes 1 and 2, each with a prior: records 0 to 3.
fn start() -> Job {
    Job::with(&[1, 2]).plain_prior(0, 1.0).plain_prior(1, 2.0)
}

fn marks(cases: &mut Cases) {
    cases.add("mark-cut-at-once", Job::new().raw(b"V"));
    cases.add("mark-cut-after-records", start().raw(b"P"));
    cases.add("mark-unknown", start().raw(b"XX"));
    cases.add("mark-in-lower-case", start().raw(b"va"));
    cases.add("mark-mixed", start().raw(b"VR"));
    cases.add("mark-half-right", start().raw(b"PB"));
    cases.add("mark-of-zeros", start().raw(&[0, 0]));
    cases.add("mark-line-end", start().raw(b"\n"));
    cases.add("mark-unknown-though-numbers-follow", start().raw(&[b'O', b'O', 0, 1, 0, 0, 0]));
}

fn variables(cases: &mut Cases) {
    for (name, left) in [("letter", 9), ("letter-inside", 6), ("index", 5), ("index-inside", 2), ("size", 1)] {
        cases.add(format!("variable-cut-{name}"), start().variable(1).cut(left));
    }
    cases.add("variable-cut-before-its-bad-letter-counts", Job::new().named(0x110000, 0, 1).cut(1));
    cases.add("variable-then-one-byte-more", Job::with(&[1]).raw(&[1]));
}

fn priors(cases: &mut Cases) {
    let prior = || start().prior(1, &[1.0, 2.0], &[1.0, 0.0, 0.0, 1.0]);
    for (name, left) in
        [("key", 49), ("means", 48), ("means-inside", 41), ("variance", 32), ("variance-inside", 9), ("last-byte", 1)]
    {
        cases.add(format!("prior-cut-{name}"), prior().cut(left));
    }
    cases.add("prior-on-no-such-key", start().prior(2, &[1.0], &[1.0]));
    cases.add("prior-on-no-such-key-and-cut", start().prior(2, &[], &[]));
    cases.add("prior-on-the-highest-byte", start().prior(255, &[1.0], &[1.0]));
    cases.add("prior-before-its-variable", Job::new().prior(0, &[1.0], &[1.0]).variable(1));
    cases.add("prior-with-a-number-too-many", start().prior(0, &[1.0], &[1.0, 1.0]));
}

fn headers(cases: &mut Cases) {
    for (name, header) in [("count", &[][..]), ("rows", &[1]), ("flag", &[1, 1]), ("flag-past-a-bad-count", &[5, 0])] {
        cases.add(format!("observation-cut-{name}"), start().raw(&[b"OB", header].concat()));
    }
    for flag in [3, 255] {
        cases.add(format!("observation-flag-{flag}"), start().observed(&[0], 1, flag, &[1.0, 1.0]));
    }
    cases.add("observation-flag-before-count", start().raw(&[b'O', b'B', 5, 0, 3]));
    cases.add("observation-flag-before-rows", start().raw(&[b'O', b'B', 0, 7, 3]));
    cases.add("observation-count-4-keys-cut", start().raw(&[b'O', b'B', 4, 1, 2]));
    cases.add("observation-count-5-keys-cut", start().raw(&[b'O', b'B', 5, 1, 2]));
    cases.add("observation-count-5-keys-not-rising", start().observed(&[9, 9, 1, 0, 0], 1, 2, &[]));
    cases.add("observation-count-255", start().raw(&[b'O', b'B', 255, 1, 1]));
    cases.add("observation-rows-0", start().observed(&[0], 0, 2, &[]));
    cases.add("observation-rows-0-keys-cut", start().raw(&[b'O', b'B', 2, 0, 2, 0]));
    cases.add("observation-rows-6-keys-cut", start().raw(&[b'O', b'B', 2, 6, 1, 0]));
    cases.add("observation-rows-7-keys-cut", start().raw(&[b'O', b'B', 2, 7, 1, 0]));
    cases.add("observation-rows-6-keys-not-rising", start().observed(&[1, 0], 6, 1, &[]));
    cases.add("observation-rows-7-keys-not-rising", start().observed(&[1, 0], 7, 1, &[]));
    cases.add("observation-rows-6-key-unregistered", start().observed(&[2], 6, 1, &[]));
    cases.add("observation-rows-7-key-unregistered", start().observed(&[2], 7, 1, &[]));
    cases.add("observation-rows-6-numbers-cut", start().observed(&[], 6, 2, &[1.0; 6]).cut(1));
    cases.add("observation-rows-7-numbers-cut", start().observed(&[], 7, 2, &[1.0; 7]).cut(1));
    cases.add("observation-rows-255", start().observed(&[0], 255, 2, &[]));
}

fn observations(cases: &mut Cases) {
    cases.add("observation-keys-cut", start().raw(&[b'O', b'B', 2, 1, 2, 0]));
    cases.add("observation-keys-cut-before-order-counts", start().raw(&[b'O', b'B', 3, 1, 2, 1, 0]));
    cases.add("observation-keys-all-cut", start().raw(&[b'O', b'B', 1, 1, 2]));
    cases.add("observation-keys-falling", start().observed(&[1, 0], 1, 2, &[1.0, 1.0, 1.0, 1.0]));
    cases.add("observation-keys-repeated-and-unregistered", start().observed(&[9, 9], 1, 2, &[]));
    cases.add("observation-keys-rise-then-fall", start().observed(&[0, 1, 0], 1, 2, &[]));
    cases.add("observation-key-unregistered", start().observed(&[0, 2], 1, 2, &[1.0, 1.0, 1.0]));
    cases.add("observation-key-unregistered-numbers-cut", start().observed(&[0, 255], 1, 2, &[]));
    let whole = || start().observation(&[0, 1], &[1.0; 6], &[1.0, 2.0], &[1.0, 0.0, 0.0, 1.0]);
    for (name, left) in [
        ("a", 96),
        ("a-inside", 90),
        ("means", 48),
        ("means-inside", 33),
        ("variance", 32),
        ("variance-inside", 20),
        ("last-byte", 1),
    ] {
        cases.add(format!("observation-cut-{name}"), whole().cut(left));
    }
    cases.add("observation-flag-2-cut", start().unit_observation(&[0], &[1.0], &[1.0]).cut(1));
    cases.add("observation-flag-2-with-a-variance", start().observed(&[0], 1, 2, &[1.0, 1.0, 1.0]));
    cases.add("observation-flag-1-without-a-variance", start().observed(&[0], 1, 1, &[1.0, 1.0]));
    cases.add("observation-without-keys-cut", start().observed(&[], 2, 2, &[1.0]));
}

/// A small job of each kind of record, cut after each of its bytes.
fn every_cut(cases: &mut Cases) {
    let whole = Job::with(&[1]).prior(0, &[2.0], &[4.0]).observation(&[0], &[0.5], &[3.0], &[0.25]);
    for count in 1..=whole.bytes().len() {
        cases.add(format!("first-{count:02}-bytes"), whole.first(count));
    }
}
