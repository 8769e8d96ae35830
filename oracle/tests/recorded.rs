//! The recorded cases: still what the generator writes and what `strips_expected` prints.
use std::collections::BTreeSet;
use std::path::PathBuf;

use oracle::cases::orders::shuffled;
use oracle::cases::{Random, all, any_graph, figures, read, write};
use oracle::job;
use oracle::order::keys;
use oracle::run::{expected, run};

fn recorded() -> String {
    let path = PathBuf::from(env!("CARGO_MANIFEST_DIR")).join("cases/cases.txt");
    std::fs::read_to_string(path).unwrap()
}

#[test]
fn recorded_answers_are_expected() {
    for case in read(&recorded()).unwrap() {
        assert_eq!(expected(&case.job()), Ok(case.prints), "{}", case.name);
    }
}

#[test]
fn the_generator_writes_the_same() {
    assert!(write(&all()) == recorded(), "make the cases anew");
}

#[test]
fn names_differ_and_the_file_stays_small() {
    let (text, cases) = (recorded(), read(&recorded()).unwrap());
    let names: BTreeSet<&String> = cases.iter().map(|case| &case.name).collect();
    assert_eq!(names.len(), cases.len());
    assert!(text.len() < 620_000);
}

#[test]
fn every_refusal_that_a_job_can_reach_is_there() {
    let kinds: BTreeSet<String> = figures(&read(&recorded()).unwrap()).into_iter().map(|(kind, _)| kind).collect();
    let reading = [1, 2, 3, 4, 6, 7, 8, 10, 11, 12, 13, 19, 20].map(|number| (number, 0));
    let running = [(14, 1), (15, 1), (17, 1), (15, 2), (17, 2), (15, 3), (16, 3), (17, 3)];
    for (number, stage) in reading.iter().chain(&running) {
        assert!(kinds.contains(&format!("refused {number:>2} at stage {stage}")), "{number} {stage}");
    }
}

/// The replay holds itself against the original's passes, gathering and run; a difference panics.
#[test]
fn random_graphs_agree_with_the_original() {
    let mut random = Random::new(1);
    for at in 0..1000 {
        let bytes = any_graph(&mut random, [0, 40, 300][at % 3]).bytes();
        let _ = expected(&bytes);
        let graph = job::read(&bytes).graph;
        let order = shuffled(&mut random, graph.all.n_keys());
        run(&graph, &keys(&order, order.len()).unwrap());
    }
}
