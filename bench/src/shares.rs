//! What the plan and the square roots take of our run.
use std::hint::black_box;

use compare::ours;
use oracle::gaussian::FactorGraph;
use oracle::job;
use oracle::plan::{Plan, Shapes};

use crate::graphs::Graph;
use crate::{REPEATS, ROUNDS, each, each_of};

pub const HEADINGS: &str = "share of our run, percent: plan, roots (how many)";

pub fn shares(graph: &Graph) {
    let bytes = graph.job.bytes();
    let roots = roots(&job::read(&bytes).graph);
    let (mut store, mut messages) = ([0.0; job::FACTOR_STORE], [0.0; job::MESSAGE_STORE]);
    let mut marginals = [0.0; ours::MARGINALS];
    let mut least = [f64::INFINITY; 4];
    for _ in 0..ROUNDS {
        let mut note = |side: usize, time: f64| least[side] = f64::min(least[side], time);
        note(0, each(|| ours::store(black_box(&bytes), &mut store)));
        note(1, each_of(REPEATS, || ours::repeat(black_box(&bytes), REPEATS, &mut messages, &mut marginals)));
        note(2, each_of(REPEATS, || assert!(ours::plan(black_box(&bytes), REPEATS) < 32)));
        note(3, each_of(PIVOTS, || (1..=PIVOTS).for_each(|n| assert!(ours::root(black_box(n as f64 / 7.0)) > 0.0))));
    }
    let [reading, run, plan, root] = least;
    // Runs and plans read the job once.
    let (run, plan) = (run - reading / REPEATS as f64, plan - reading / REPEATS as f64);
    println!("{:<12} {:>5.1} {:>5.1} ({roots})", graph.name, 100.0 * plan / run, 100.0 * root * roots as f64 / run);
}

const PIVOTS: usize = 1000;

/// A pivot a cleared column of each elimination, and a column of each marginal.
fn roots(graph: &FactorGraph<f64>) -> usize {
    let order: Vec<usize> = graph.keys().collect();
    let plan = Plan::new(&Shapes::of(graph), &order);
    let messages = plan.forward.iter().chain(&plan.backward).map(|message| &message.work);
    let works = messages.chain(plan.gathered.iter().map(|gathered| &gathered.work));
    let size = |key: &usize| graph.size(*key).unwrap();
    works.flat_map(|work| &work.cleared).chain(&order).map(size).sum()
}
