//! Factors in the place of others (C-11): which by which, chains, limits and stores, and the order of the checks.
use super::limits::filled;
use super::{Cases, Job, two_to};
use crate::job::{FACTORS, KEYS, MOST_ROWS, QUARTER};

pub fn add(cases: &mut Cases) {
    kinds(cases);
    places(cases);
    without_keys(cases);
    free_keys(cases);
    chains(cases);
    numbers(cases);
    marks(cases);
    order(cases);
    cut(cases);
    counted(cases);
    factors(cases);
    factor_store(cases);
}

/// A key of size 1 with two priors: records 0 to 2, factors 0 and 1.
fn two() -> Job {
    Job::with(&[1]).plain_prior(0, 1.0).plain_prior(0, 3.0)
}

fn prior(job: Job) -> Job {
    job.prior(0, &[5.0], &[0.7])
}

fn observation(job: Job) -> Job {
    job.unit_observation(&[0], &[1.5], &[2.0])
}

fn keyless(job: Job) -> Job {
    job.unit_observation(&[], &[], &[7.0])
}

fn first(job: Job) -> Job {
    job.prior(0, &[1.0], &[0.3])
}

fn second(job: Job) -> Job {
    job.prior(1, &[2.0], &[0.9])
}

/// Two keys with a prior each, factors 0 and 1.
fn pair() -> Job {
    second(first(Job::with(&[1, 1])))
}

fn link(job: Job) -> Job {
    job.unit_observation(&[0, 1], &[-1.7, 1.1], &[4.0])
}

/// Either kind by either, on the same keys and on others.
fn kinds(cases: &mut Cases) {
    let (linked, without_first) = (|| link(pair()), || link(second(Job::with(&[1, 1]))));
    cases.add_as("superseding-prior-by-prior", linked().superseding(0, prior), prior(without_first()));
    cases.add_as(
        "superseding-prior-by-observation",
        linked().superseding(0, observation),
        observation(without_first()),
    );
    cases.add_as("superseding-observation-by-prior", linked().superseding(2, prior), prior(pair()));
    let other = |job: Job| job.observation(&[0, 1], &[0.3, 0.7], &[4.5], &[0.6]);
    cases.add_as("superseding-observation-by-observation", linked().superseding(2, other), other(pair()));
    let quarter = |job: Job| job.quarter_observation(&[0, 1], &[0.3, 0.7], &[4.5]);
    cases.add_as("superseding-observation-by-a-quarter", linked().superseding(2, quarter), quarter(pair()));
    let to_second = |job: Job| job.prior(1, &[3.0], &[0.8]);
    cases.add_as("superseding-prior-on-another-key", linked().superseding(0, to_second), to_second(without_first()));
    let on_second = |job: Job| job.unit_observation(&[1], &[0.4], &[1.0]);
    cases.add_as("superseding-observation-on-fewer-keys", linked().superseding(2, on_second), on_second(pair()));
    cases.add_as("superseding-prior-by-a-link", pair().superseding(1, link), link(first(Job::with(&[1, 1]))));
    let wide = Job::with(&[2, 1]).plain_prior(0, 2.0).plain_prior(1, 3.0);
    let rows = |job: Job| job.unit_observation(&[0], &[1.0, 0.3, 0.2, 1.1], &[1.0, 2.0]);
    let alone = rows(Job::with(&[2, 1]).plain_prior(1, 3.0));
    cases.add_as("superseding-prior-of-size-2-by-an-observation", wide.superseding(0, rows), alone);
}

/// Variances whose inverses add up to other bits in another order.
const UNEVEN: [f64; 5] = [3.0, 7.0, 0.9, 5.0, 1.3];

/// Each place in turn among priors and a link: the new factor is the last slot, and the others keep their order.
fn places(cases: &mut Cases) {
    let held = |job: Job, v: f64| job.prior(0, &[0.1 + v], &[v]);
    for number in 0..4 {
        let all = UNEVEN[..4].iter().fold(Job::with(&[1, 1]), |job, &v| held(job, v));
        let left = (0..4).filter(|&at| at != number).fold(Job::with(&[1, 1]), |job, at| held(job, UNEVEN[at]));
        let job = link(all).superseding(number, |job| held(job, UNEVEN[4]));
        cases.add_as(format!("superseding-prior-{number}-of-4"), job, held(link(left), UNEVEN[4]));
    }
    let chain = |job: Job, key: usize| job.unit_observation(&[key, key + 1], &[0.3, 0.7], &[key as f64]);
    for key in 0..3 {
        let start = || Job::with(&[1; 4]).prior(0, &[0.1], &[0.3]);
        let job = (0..3).fold(start(), chain).superseding(1 + key, |job| chain(job, key));
        let left = (0..3).filter(|&at| at != key).fold(start(), chain);
        cases.add_as(format!("superseding-link-{key}-of-a-chain"), job, chain(left, key));
    }
}

fn without_keys(cases: &mut Cases) {
    let three = || keyless(two());
    cases.add_as("superseding-keyless-by-prior", three().superseding(2, prior), prior(two()));
    cases.add_as("superseding-keyless-by-keyless", three().superseding(2, keyless), keyless(two()));
    let left = Job::with(&[1]).plain_prior(0, 3.0);
    cases.add_as("superseding-prior-by-keyless", two().superseding(0, keyless), keyless(left));
    cases.add("superseding-keyless-by-keyless-alone", keyless(Job::new()).superseding(0, keyless));
    // The keyless row no longer counts, so that the last elimination of key 0 is in z.
    let square = |job: Job| job.unit_observation(&[0], &[1.0, 0.3, 0.2, 1.1], &[1.0, 2.0]);
    let job = keyless(square(Job::with(&[2, 1]))).superseding(1, |job| job.plain_prior(1, 2.0));
    cases.add_as("superseding-keyless-turns-x-to-z", job, square(Job::with(&[2, 1])).plain_prior(1, 2.0));
}

/// A key's only factor goes, or is replaced.
fn free_keys(cases: &mut Cases) {
    let one = || Job::with(&[1]).plain_prior(0, 1.0);
    cases.add("superseding-leaves-the-only-key-free", one().superseding(0, keyless));
    cases.add_as("superseding-the-only-prior", one().superseding(0, prior), prior(Job::with(&[1])));
    cases.add("superseding-leaves-key-0-free", pair().superseding(0, |job| job.plain_prior(1, 1.0)));
    cases.add("superseding-leaves-key-1-free", pair().superseding(1, |job| job.plain_prior(0, 1.0)));
    let linked = link(pair()).superseding(0, keyless);
    cases.add("superseding-leaves-key-0-to-its-link", linked.clone());
    cases.add("superseding-leaves-both-keys-free", linked.superseding(1, keyless));
    // Two means of 2^1023 add up to more than there is.
    let far = || Job::with(&[1]).prior(0, &[two_to(1023)], &[1.0]).prior(0, &[two_to(1023)], &[1.0]);
    cases.add("superseding-what-is-not-finite", far().superseding(1, prior));
    cases.add("superseding-by-what-is-not-finite", far().superseding(1, |job| job.prior(0, &[two_to(1023)], &[1.0])));
}

/// The latest in a chain is live; none before it can be named again.
fn chains(cases: &mut Cases) {
    let three = || two().superseding(0, observation).superseding(2, keyless).superseding(3, prior);
    let left = || Job::with(&[1]).plain_prior(0, 3.0);
    cases.add_as("superseding-chain-of-3", three(), prior(left()));
    for number in [0, 2, 3] {
        cases.add(format!("superseding-chain-of-3-then-{number}"), three().superseding(number, prior));
    }
    cases.add_as("superseding-chain-of-3-then-4", three().superseding(4, observation), observation(left()));
    let crossed = two().superseding(0, keyless).superseding(1, prior).superseding(2, prior).superseding(3, observation);
    cases.add_as("superseding-two-chains", crossed, observation(prior(Job::with(&[1]))));
    let later = two().superseding(1, prior).plain_prior(0, 0.6).superseding(2, observation);
    let live = Job::with(&[1]).plain_prior(0, 1.0).plain_prior(0, 0.6);
    cases.add_as("superseding-then-a-prior-then-again", later, observation(live));
    let variable = link(two().superseding(0, prior).variable(1)).superseding(1, |job| job.plain_prior(1, 0.2));
    let live = link(prior(Job::with(&[1])).variable(1)).plain_prior(1, 0.2);
    cases.add_as("superseding-then-a-variable-then-again", variable, live);
}

/// Numbers that there are, and that there aren't (19).
fn numbers(cases: &mut Cases) {
    cases.add("superseding-number-0", two().superseding(0, prior));
    cases.add("superseding-number-1-the-last", two().superseding(1, prior));
    cases.add("superseding-its-own-number", two().superseding(2, prior));
    for number in [3, 63, 64, 127, 128, 255] {
        cases.add(format!("superseding-number-{number}-of-2"), two().superseding(number, observation));
    }
    cases.add("superseding-twice", two().superseding(0, prior).superseding(0, prior));
    cases.add("superseding-twice-by-observations", two().superseding(1, observation).superseding(1, observation));
    cases.add("superseding-first-of-all", Job::new().raw(&[b'S', b'U', 0, b'P', b'R', 0]));
    cases.add("superseding-before-any-factor", Job::with(&[1]).superseding(0, prior));
}

/// Factors without keys, of which 1 took the place of 0: records 0 to 2.
fn superseded() -> Job {
    keyless(Job::with(&[1])).superseding(0, keyless)
}

/// A factor of each state there. Only of a live one are the bytes behind the number looked at; else it is 19.
const NAMED: [(&str, usize); 3] = [("live", 1), ("superseded", 0), ("absent", 2)];

/// The mark within must be that of a factor (8).
fn marks(cases: &mut Cases) {
    for (name, mark) in [
        ("cut", &b""[..]),
        ("cut-inside", b"P"),
        ("va", b"VA"),
        ("su", b"SU"),
        ("unknown", b"XX"),
        ("lower-case", b"pr"),
        ("half-right", b"PB"),
    ] {
        for (state, number) in NAMED {
            let record = [b"SU", &[number as u8][..], mark, &[0]].concat();
            let length = if mark.len() < 2 { 3 + mark.len() } else { record.len() };
            cases.add(format!("superseding-{state}-mark-{name}"), superseded().raw(&record[..length]));
        }
    }
    let cut = |length: usize| superseded().raw(&b"SU\x01"[..length]);
    cases.add("superseding-own-mark-cut", cut(1));
    cases.add("superseding-number-cut", cut(2));
    cases.add("superseding-in-superseding", superseded().superseding(1, |job| job.superseding(0, prior)));
    cases.add("superseding-by-a-variable", superseded().superseding(1, |job| job.variable(1)));
    cases.add("superseding-mark-reversed", superseded().raw(b"US\x01PR"));
    cases.add("superseding-mark-in-lower-case", superseded().raw(b"su\x01PR"));
}

/// A record within that some check refuses: first the number named (19), then the checks as they are without superseding.
fn order(cases: &mut Cases) {
    for (at, (name, fault)) in prior_faults().into_iter().chain(observation_faults()).enumerate() {
        // Either of the two reasons for 19 in turn.
        for (state, number) in [NAMED[0], NAMED[1 + at % 2]] {
            let job = superseded().superseding(number, |job| job.raw(&fault.bytes()));
            cases.add(format!("superseding-{state}-{name}"), job);
        }
    }
    for (state, number) in [("live", 0), ("absent", 1)] {
        let two = Job::with(&[2]).plain_prior(0, 1.0);
        let job = two.superseding(number, |job| job.prior(0, &[1.0; 2], &LOPSIDED));
        cases.add(format!("superseding-{state}-prior-lopsided"), job);
    }
}

const LOPSIDED: [f64; 4] = [2.0, 1.0, 0.5, 2.0];

/// Records of priors where key 0 of size 1 is registered; some have two faults.
fn prior_faults() -> Vec<(&'static str, Job)> {
    let new = Job::new;
    vec![
        ("prior-key-cut", new().raw(b"PR")),
        ("prior-no-such-key", new().prior(1, &[1.0], &[1.0])),
        ("prior-no-such-key-and-cut", new().prior(1, &[], &[])),
        ("prior-numbers-cut", prior(new()).cut(1)),
        ("prior-nan", new().prior(0, &[f64::NAN], &[1.0])),
        ("prior-nan-and-pivot", new().prior(0, &[f64::NAN], &[-1.0])),
        ("prior-pivot", new().prior(0, &[1.0], &[0.0])),
        ("prior-computed", new().prior(0, &[1.0], &[5e-324])),
    ]
}

/// Records of observations there.
fn observation_faults() -> Vec<(&'static str, Job)> {
    let many: Vec<usize> = (0..=KEYS).collect();
    let observed = |keys: &[usize], rows, flag, numbers: &[f64]| Job::new().observed(keys, rows, flag, numbers);
    let keyless = |mean: &[f64], variance: &[f64]| Job::new().observation(&[], &[], mean, variance);
    vec![
        ("observation-header-cut", Job::new().raw(b"OB\x05\x00")),
        ("observation-flag", observed(&[0], 1, 3, &[1.0, 1.0])),
        ("observation-flag-and-keys", observed(&many, 1, 3, &[])),
        ("observation-5-keys", observed(&many, 1, QUARTER, &[])),
        ("observation-0-rows", observed(&[0], 0, QUARTER, &[])),
        ("observation-7-rows", observed(&[0], MOST_ROWS + 1, QUARTER, &[])),
        ("observation-keys-cut", Job::new().raw(b"OB\x02\x01\x02\x01")),
        ("observation-not-rising", observed(&[0, 0], 1, QUARTER, &[1.0; 3])),
        ("observation-not-rising-no-such-key", observed(&[9, 9], 1, QUARTER, &[])),
        ("observation-no-such-key", observed(&[1], 1, QUARTER, &[1.0, 1.0])),
        ("observation-no-such-key-and-cut", observed(&[1], 1, QUARTER, &[])),
        ("observation-numbers-cut", observation(Job::new()).cut(1)),
        ("observation-infinite", keyless(&[f64::INFINITY], &[-1.0])),
        ("observation-nan-and-lopsided", keyless(&[f64::NAN, 1.0], &LOPSIDED)),
        ("observation-lopsided", keyless(&[1.0; 2], &LOPSIDED)),
        ("observation-pivot", keyless(&[two_to(1000)], &[-two_to(-100)])),
        ("observation-computed", keyless(&[two_to(1000)], &[two_to(-100)])),
    ]
}

/// A record of each kind cut after each of its bytes, from the mark on; whole it is accepted.
fn cut(cases: &mut Cases) {
    let one = || keyless(Job::with(&[1]));
    for (name, whole) in [("prior", one().superseding(0, prior)), ("observation", one().superseding(0, observation))] {
        let length = whole.records.last().unwrap().len();
        for left in 1..=length {
            cases.add(format!("superseding-{name}-first-{left:02}-bytes"), whole.clone().cut(length - left));
        }
    }
}

/// In the count of places it is one record.
fn counted(cases: &mut Cases) {
    let after = || two().superseding(0, prior);
    cases.add("superseding-then-a-mark-unknown", after().raw(b"XX"));
    cases.add("superseding-then-a-key-unregistered", after().prior(1, &[], &[]));
    cases.add("superseding-then-a-name-taken", after().named('a' as u32, 0, 1));
    cases.add("superseding-then-a-byte", after().raw(b"S"));
    cases.add("superseding-two-then-a-mark-unknown", after().superseding(1, observation).raw(b"XX"));
    cases.add("superseding-two-then-a-third-refused", after().superseding(1, observation).superseding(1, prior));
    cases.add("superseding-refused-then-another", two().superseding(2, prior).superseding(0, prior).raw(b"XX"));
    // Without its mark and number the record within is one of its own.
    cases.add("superseding-then-the-record-again", prior(after()));
}

/// So many factors without keys.
fn many(count: usize) -> Job {
    (0..count).fold(Job::new(), |job, _| keyless(job))
}

/// A superseded factor counts toward the 64 (12). That check comes after the number named (19) and the cut (8), before the numbers given (6).
fn factors(cases: &mut Cases) {
    let last = FACTORS - 1;
    cases.add("superseding-62-by-the-64th-factor", many(last).superseding(last - 1, keyless));
    cases.add("superseding-63-by-itself", many(last).superseding(last, keyless));
    let nan = |job: Job| job.unit_observation(&[], &[], &[f64::NAN]);
    cases.add("superseding-62-of-64-cut", many(FACTORS).superseding(last - 1, keyless).cut(1));
    cases.add("superseding-63-of-64-nan", many(FACTORS).superseding(last, nan));
    cases.add("superseding-64-of-64", many(FACTORS).superseding(FACTORS, keyless));
    let full = || many(last).superseding(0, keyless);
    cases.add("superseding-0-of-64-twice", full().superseding(0, keyless));
    cases.add("superseding-0-of-64-then-one-more", keyless(full()));
    let start = Job::with(&[1]).plain_prior(0, 2.0);
    let chain = (1..FACTORS).fold(start, |job, at| job.superseding(at - 1, |job| job.plain_prior(0, at as f64)));
    cases.add_as("superseding-chain-of-64", chain, Job::with(&[1]).plain_prior(0, last as f64));
}

/// The numbers of a superseded factor stay in the store, both of one superseded before and of the one that is named (13).
fn factor_store(cases: &mut Cases) {
    let two_left = || filled(&[3, 1], 4).superseding(1, keyless);
    cases.add("superseding-fills-the-factor-store", two_left().superseding(2, |job| job.plain_prior(0, 1.0)));
    cases.add("superseding-one-over-the-factor-store", two_left().superseding(2, observation));
}
