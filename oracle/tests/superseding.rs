//! Superseding (C-11): the original runs over the live factors alone, its numbers become those of the job, and nothing leaves the store.
use oracle::cases::{Job, Random, any_graph};
use oracle::gaussian::Factor;
use oracle::graph::{Graph, numbers};
use oracle::job::{self, Read, stored};
use oracle::refusal::Reason;
use oracle::run::{expected, run};
use oracle::solver::Slot;
use oracle::solver::shown::pass;

fn read(job: &Job) -> Read {
    job::read(&job.bytes())
}

fn accepted(job: &Job) -> Graph {
    let Read { graph, refusal } = read(job);
    assert_eq!(refusal, None);
    graph
}

/// P4 of document 01: three priors on key 0 and a link, factors 0 to 3.
fn p4() -> Job {
    let priors = (0..3).fold(Job::with(&[1, 1]), |job, _| job.plain_prior(0, 1.0));
    priors.observation(&[0, 1], &[-1.0, 1.0], &[4.0], &[1.0])
}

/// Its first prior is replaced by factor 4.
fn p4_superseded() -> Job {
    p4().superseding(0, |job| job.plain_prior(0, 1.0))
}

/// Slots 1, 2, 3, 4: 1 is taken and 4 moves into its place, then 3 and 2 into theirs.
#[test]
fn the_plan_has_the_numbers_of_the_job() {
    let run = run(&accepted(&p4_superseded()), &[0, 1]);
    let ([ahead], [behind]) = (&run.plan.forward[..], &run.plan.backward[..]) else { panic!("one message each") };
    assert_eq!(ahead.content, [1, 4, 3, 2].map(Slot::Original));
    assert_eq!(behind.content, [Slot::Original(3)]);
    let [first, second] = &run.plan.gathered[..] else { panic!("two keys") };
    assert_eq!((&first.originals[..], &first.leaves[..]), (&[1, 2, 4][..], &[3, 1, 2, 4][..]));
    assert_eq!((&second.originals[..], &second.leaves[..]), (&[][..], &[1, 4, 3, 2][..]));
}

/// The original counts the live factors from 0.
#[test]
fn the_original_has_numbers_of_its_own() {
    let live = accepted(&p4_superseded()).live();
    assert_eq!((live.graph.n_factors(), &live.numbers[..]), (4, &[1, 2, 3, 4][..]));
    let messages = pass(&live.graph, &[0, 1]).unwrap();
    let content: Vec<Slot> = messages[0].content.iter().map(|slot| live.registered(slot)).collect();
    assert_eq!(messages[0].content, [0, 3, 2, 1].map(Slot::Original));
    assert_eq!(content, [1, 4, 3, 2].map(Slot::Original));
    assert_eq!(live.registered(&Slot::Closed(2)), Slot::Closed(2));
}

#[test]
fn a_superseded_factor_stays_in_the_store() {
    let (before, after) = (accepted(&p4()), accepted(&p4_superseded()));
    let all = |graph: &Graph| graph.all.factors().iter().flat_map(numbers).copied().collect::<Vec<f64>>();
    assert_eq!(all(&after)[..stored(&before.all)], all(&before));
    assert_eq!((stored(&after.all), stored(&after.live().graph)), (stored(&before.all) + 2, stored(&before.all)));
    assert_eq!((before.superseded(), after.superseded()), (0, 1));
}

/// A refused record leaves the factor that it names live, and the graph as it was.
#[test]
fn a_refusal_supersedes_nothing() {
    for (variance, reason) in [(f64::NAN, Reason::NumberNotFinite), (-1.0, Reason::VariancePivot)] {
        let Read { graph, refusal } = read(&p4().superseding(0, |job| job.prior(0, &[1.0], &[variance])));
        assert_eq!(refusal.map(|refusal| (refusal.reason, refusal.place)), Some((reason, 6)));
        assert_eq!((graph.live_numbers(), graph.all.n_factors()), (vec![0, 1, 2, 3], 4));
    }
    // What the original has stored and document 01 refuses is gone again.
    let Read { graph, refusal } = read(&p4().superseding(0, |job| job.prior(0, &[1.0], &[5e-324])));
    assert_eq!(refusal.map(|refusal| refusal.reason), Some(Reason::NumberNotFinite));
    assert_eq!((graph.live_numbers(), graph.all.n_factors()), (vec![0, 1, 2, 3], 4));
}

#[test]
fn only_the_latest_of_a_chain_is_live() {
    let chain = (0..5).fold(Job::with(&[1]).plain_prior(0, 1.0), |job, at| {
        job.superseding(at, |job| job.prior(0, &[at as f64], &[2.0]))
    });
    let graph = accepted(&chain);
    assert_eq!(graph.live_numbers(), [5]);
    assert!(matches!(graph.live().graph.factors(), [Factor::Prior(_)]));
    assert_eq!(expected(&chain.bytes()), expected(&Job::with(&[1]).prior(0, &[4.0], &[2.0]).bytes()));
}

/// Random graphs with some of their factors superseded print what the live factors alone print, and agree with the original.
#[test]
fn random_graphs_print_what_their_live_factors_print() {
    let random = &mut Random::new(11);
    for at in 0..600 {
        let plain = any_graph(random, [0, 40, 300][at % 3]);
        let keys = plain.keys();
        let (mut job, mut live): (Job, Vec<usize>) = (plain.clone(), (0..plain.records.len() - keys).collect());
        for _ in 0..1 + random.below(4) {
            let number = job.records.len() - keys;
            let copied = plain.records[keys + random.below(plain.records.len() - keys)].clone();
            let named = live.remove(random.below(live.len()));
            job = job.superseding(named, |job| job.raw(&copied));
            live.push(number);
        }
        assert_eq!(accepted(&job).live_numbers(), live);
        let variables = job.records[..keys].iter().fold(Job::new(), |all, record| all.raw(record));
        let alone = live.iter().fold(variables, |all, &number| all.raw(&plain_record(&job.records[keys + number])));
        assert_eq!(expected(&job.bytes()), expected(&alone.bytes()));
    }
}

/// Without the header of a superseding record.
fn plain_record(record: &[u8]) -> Vec<u8> {
    record[if record.starts_with(b"SU") { 3 } else { 0 }..].to_vec()
}
