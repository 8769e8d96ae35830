//! A lent order of keys (C-16): the text of the plan, the refused orders, the keys that are told, and what the original says under an order.
use std::collections::BTreeSet;

use oracle::cases::graphs::{Style, any_links, graph};
use oracle::cases::ordered::{all, input, output};
use oracle::cases::orders::{both_ends, inside_out, rising, shuffled};
use oracle::cases::{Job, Random, any_graph};
use oracle::job;
use oracle::order::{Answer, Ordered, UNLIKE, keys};
use oracle::plan::{Plan, Shape, Shapes};
use oracle::refusal::{Reason, Refusal, Stage};
use oracle::run::{AMPLE, End, Rooms, SHORT, STRIPS};
use oracle::solver::shown::pass;

fn file(path: &str) -> Vec<u8> {
    std::fs::read(format!("{}/../{path}", env!("CARGO_MANIFEST_DIR"))).unwrap()
}

#[test]
fn the_examples_have_their_plans_and_texts() {
    for (name, count) in [("p4-two-keys", 2), ("panel", 8), ("reshoot", 3)] {
        let ordered = Ordered::new(&file(&format!("examples/{name}.job")), &rising(count));
        assert_eq!(ordered.plan_text().into_bytes(), file(&format!("examples/{name}.plan")));
        assert_eq!(ordered.text().unwrap().into_bytes(), file(&format!("examples/{name}.out")));
    }
}

/// P4 of document 01.
fn p4() -> Vec<u8> {
    let priors = (0..3).fold(Job::with(&[1, 1]), |job, _| job.prior(0, &[0.0], &[1.0]));
    priors.observation(&[0, 1], &[-1.0, 1.0], &[4.0], &[1.0]).bytes()
}

const MARGINALS: &str = "0 0000000000000000 3FD5555555555556\n1 4010000000000001 3FF5555555555556\n";

#[test]
fn p4_under_0_1() {
    let plan = "\
forward 0 step 1 content 0 3 2 1 kept 1 cleared 0
backward 0 step 1 content 3 kept 0 cleared 1
key 0 forward backward 0 originals 0 1 2 leaves 3 0 1 2 last
key 1 forward 0 backward originals leaves 0 3 2 1 last
";
    let ordered = Ordered::new(&p4(), &[0, 1]);
    assert_eq!((ordered.plan_text(), ordered.text()), (plan.to_string(), Ok(MARGINALS.to_string())));
}

/// At step 1, that of key 0, the link alone touches key 1. Key 0 stands at place 1 and so gathers that message.
#[test]
fn p4_under_1_0() {
    let plan = "\
forward 0 step 1 content 3 kept 0 cleared 1
backward 0 step 1 content 0 3 2 1 kept 1 cleared 0
key 0 forward 0 backward originals 0 1 2 leaves 3 0 1 2 last
key 1 forward backward 0 originals leaves 0 3 2 1 last
";
    let ordered = Ordered::new(&p4(), &[1, 0]);
    assert_eq!((ordered.plan_text(), ordered.text()), (plan.to_string(), Ok(MARGINALS.to_string())));
    let Answer { figure, end, messages, marginals } = ordered.answer(Rooms { messages: 6, marginals: 4 });
    assert_eq!((figure, end, &messages[..]), (6, None, &[-1.0, 0.0, 0.0, 1.0, 3.0, 0.75][..]));
    assert_eq!((marginals.len(), marginals[0]), (4, 0.0));
}

/// The figure is told, and nothing is written.
#[test]
fn a_store_that_is_short() {
    for (messages, marginals) in [(5, 4), (6, 3), (0, 0)] {
        let answer = Ordered::new(&p4(), &[1, 0]).answer(Rooms { messages, marginals });
        assert_eq!((answer.figure, answer.end), (6, Some(SHORT)));
        assert!(answer.messages.is_empty() && answer.marginals.is_empty());
    }
}

#[test]
fn another_order_is_refused_before_a_short_store() {
    for order in [&[][..], &[0], &[1], &[0, 0], &[1, 1], &[0, 2], &[2, 1], &[0, 255], &[32, 1], &[0, 1, 0], &[0, 1, 2]]
    {
        let ordered = Ordered::new(&p4(), order);
        assert!(ordered.is_unlike(), "{order:?}");
        assert_eq!(ordered.text(), Ok("refused 21 1 0\n".to_string()));
        assert_eq!(ordered.plan_text(), "refused 21 1 0\n");
        for rooms in [AMPLE, Rooms { messages: 0, marginals: 0 }] {
            let answer = ordered.answer(rooms);
            assert_eq!((answer.figure, answer.end), (0, Some(End::Refused(UNLIKE))));
            assert!(answer.messages.is_empty() && answer.marginals.is_empty());
        }
    }
    assert!(Ordered::new(&p4(), &[0; 300]).is_unlike());
}

#[test]
fn no_variables_have_the_empty_order() {
    let keyless = Job::new().unit_observation(&[], &[], &[1.0]).bytes();
    for job in [&[][..], &keyless] {
        let ordered = Ordered::new(job, &[]);
        assert_eq!((ordered.text(), ordered.plan_text()), (Ok(String::new()), String::new()));
        assert!(Ordered::new(job, &[0]).is_unlike());
    }
}

#[test]
fn a_refused_record_comes_before_the_order() {
    let job = [p4(), b"XX".to_vec()].concat();
    for order in [&[0, 1][..], &[], &[5; 300]] {
        let ordered = Ordered::new(&job, order);
        assert_eq!(
            (ordered.text(), ordered.plan_text()),
            (Ok("refused 8 0 6\n".to_string()), "refused 8 0 6\n".to_string())
        );
        assert_eq!(ordered.answer(Rooms { messages: 0, marginals: 0 }).figure, 0);
    }
}

/// A refusal of the run doesn't show in its plan.
#[test]
fn a_refused_run_has_a_plan() {
    let ordered = Ordered::new(&Job::with(&[1, 1]).bytes(), &[1, 0]);
    assert_eq!(ordered.text(), Ok("refused 15 1 0\n".to_string()));
    assert!(ordered.plan_text().starts_with("forward 0 step 1 content kept cleared 1\n"));
}

/// Of size 1, each with a prior but this one.
fn free(key: usize) -> Job {
    (0..4).filter(|&k| k != key).fold(Job::with(&[1; 4]), |job, k| job.plain_prior(k, 1.0))
}

/// The step's key is told, and the original's pass names the same one.
#[test]
fn the_original_tells_the_key_of_a_refused_pivot() {
    let order = [2, 0, 3, 1];
    for (key, stage, told) in
        [(2, Stage::Forward, 0), (0, Stage::Forward, 3), (3, Stage::Forward, 1), (1, Stage::Backward, 3)]
    {
        let ordered = Ordered::new(&free(key).bytes(), &order);
        let refusal = Refusal { reason: Reason::ClearedPivot, stage, place: told };
        assert_eq!(ordered.answer(AMPLE).end, Some(End::Refused(refusal)));
        let mut taken: Vec<usize> = keys(&order, 4).unwrap();
        if stage == Stage::Backward {
            taken.reverse();
        }
        let error = pass(&ordered.graph.live().graph, &taken).unwrap_err();
        assert!(error.0.starts_with(&format!("Failed to compute factor for key {told}: ")), "{error:?}");
    }
}

/// The key's place in the order is its number.
fn renumbered(shapes: &Shapes, order: &[usize]) -> Shapes {
    let factor = |shape: &Shape| Shape { keys: placed(&shape.keys, order), rows: shape.rows, is_prior: shape.is_prior };
    Shapes {
        sizes: order.iter().map(|&key| shapes.sizes[key]).collect(),
        factors: shapes.factors.iter().map(factor).collect(),
        live: shapes.live.clone(),
    }
}

fn placed(keys: &[usize], order: &[usize]) -> Vec<usize> {
    let mut places: Vec<usize> = keys.iter().map(|key| order.iter().position(|k| k == key).unwrap()).collect();
    places.sort();
    places
}

/// The plan under an order is that of rising keys of the graph whose keys are numbered by their places.
#[test]
fn an_order_is_a_renumbering() {
    let random = &mut Random::new(16);
    for at in 0..600 {
        let shapes = Shapes::of(&job::read(&any_graph(random, 0).bytes()).graph);
        let count = shapes.sizes.len();
        let lent = [shuffled(random, count), both_ends(count), inside_out(count)];
        let order = keys(&lent[at % 3], count).unwrap();
        let (plan, other) =
            (Plan::new(&shapes, &order), Plan::new(&renumbered(&shapes, &order), &(0..count).collect::<Vec<_>>()));
        for (ours, theirs) in plan.forward.iter().zip(&other.forward).chain(plan.backward.iter().zip(&other.backward)) {
            assert_eq!((ours.step, &ours.content), (theirs.step, &theirs.content));
            assert_eq!(placed(&ours.work.kept, &order), theirs.work.kept);
            assert_eq!(placed(&ours.work.cleared, &order), theirs.work.cleared);
            assert!(ours.work.kept.is_sorted() && ours.work.cleared.is_sorted());
        }
        assert_eq!((plan.forward.len(), plan.backward.len()), (other.forward.len(), other.backward.len()));
        for (place, &key) in order.iter().enumerate() {
            let (ours, theirs) = (&plan.gathered[key], &other.gathered[place]);
            assert_eq!((&ours.forward, &ours.backward), (&theirs.forward, &theirs.backward));
            assert_eq!((&ours.originals, &ours.leaves), (&theirs.originals, &theirs.leaves));
            assert_eq!(placed(&ours.work.cleared, &order), theirs.work.cleared);
        }
        assert_eq!(plan.figure(), other.figure());
    }
}

/// Another order changes rounding alone.
#[test]
fn marginals_are_near_those_with_keys_rising() {
    let random = &mut Random::new(17);
    let mut compared = 0;
    for _ in 0..300 {
        let links = any_links(random, 6);
        let job = graph(random, &[1; 6], &links, Style { most_rows: 2, priors: 100, scale: 0 }).bytes();
        let lent = shuffled(random, 6);
        let [ours, theirs] = [&lent, &rising(6)].map(|order| Ordered::new(&job, order).answer(STRIPS).marginals);
        assert_eq!(ours.len(), theirs.len());
        assert!(ours.iter().zip(&theirs).all(|(x, y)| (x - y).abs() <= 1e-9 * (1.0 + y.abs())), "{lent:?}");
        compared += usize::from(!ours.is_empty());
    }
    assert!(compared > 200, "{compared}");
}

#[test]
fn the_generator_writes_the_same() {
    let cases = all();
    assert!(input(&cases) == file("crates/ordered/stdin"), "make the cases anew");
    assert!(output(&cases).into_bytes() == file("crates/ordered/stdout"), "make the cases anew");
}

#[test]
fn recorded_cases_are_few_and_reach_each_refusal_of_the_run() {
    let cases = all();
    let names: BTreeSet<&String> = cases.iter().map(|case| &case.name).collect();
    assert!(names.len() == cases.len() && cases.len() <= 90, "{}", cases.len());
    assert!(cases.iter().map(|case| case.job.len()).sum::<usize>() <= 60_000);
    let reordered = cases.iter().filter(|case| !case.order.is_sorted());
    let texts: Vec<String> = reordered.map(|case| Ordered::new(&case.job, &case.order).text().unwrap()).collect();
    for start in ["14 1 0", "15 1 ", "15 2 ", "15 3 ", "16 3 ", "17 1 ", "17 2 ", "17 3 ", "21 1 0"] {
        assert!(texts.iter().any(|text| text.starts_with(&format!("refused {start}"))), "{start}");
    }
}
