//! bench [FOLDER]: times one run of each graph on each side, with the examples from FOLDER.
//! bench whole|run NAME TIMES: only ours, for a profile.
//!
//! A time is the least of many short batches, taken in turn, so that what else the machine does falls on no side.
mod dense;
mod graphs;
mod memory;
mod shares;

use std::hint::black_box;
use std::time::Instant;

use compare::ours;
use compare::outcome::{Outcome, compare as compared};
use graphs::{Graph, all};
use oracle::job;
use oracle::run::lines;
use oracle::solver::Smoother;

const EXAMPLES: &str = "../examples";

#[global_allocator]
static COUNTED: memory::Counted = memory::Counted;

fn main() {
    let words: Vec<String> = std::env::args().skip(1).collect();
    if let [what, name, times] = &words[..] {
        return repeat(what == "run", name, times.parse().unwrap());
    }
    let graphs = all(words.first().map_or(EXAMPLES, |word| word));
    println!("{:<12} {HEADINGS}", "graph");
    graphs.iter().for_each(times);
    println!("\n{:<12} {}", "", shares::HEADINGS);
    graphs.iter().for_each(shares::shares);
    println!("\n{:<12} {}", "", memory::HEADINGS);
    graphs.iter().for_each(memory::used);
    println!("peak memory of the whole process, both sides and their inputs: {} KB", memory::peak());
}

/// Over the columns of `show`: times in microseconds.
const HEADINGS: &str =
    "keys fact  reading (original) |     run (original, dense, dense AVX2) |   whole (original) | ratios to our run";

/// What is timed of a graph.
const SIDES: usize = 8;

/// Nanoseconds: reading, run, whole.
fn times(graph: &Graph) {
    assert_eq!(compared(&graph.job), Outcome::Same("done".to_string()), "{}", graph.name);
    let bytes = graph.job.bytes();
    let smoother = Smoother::new(job::read(&bytes).graph);
    let problem = dense::Problem::of(&job::read(&bytes).graph);
    let mut out = vec![0; ours::OUTPUT];
    let mut store = [0.0; job::FACTOR_STORE];
    let mut messages = [0.0; job::MESSAGE_STORE];
    let mut marginals = [0.0; ours::MARGINALS];
    let mut least = [f64::INFINITY; SIDES];
    for _ in 0..ROUNDS {
        let mut note = |side: usize, time: f64| least[side] = f64::min(least[side], time);
        note(0, each(|| ours::store(black_box(&bytes), &mut store)));
        note(1, each(|| drop(black_box(job::read(black_box(&bytes))))));
        note(2, each_of(REPEATS, || ours::repeat(black_box(&bytes), REPEATS, &mut messages, &mut marginals)));
        note(3, each(|| drop(black_box(smoother.run().unwrap()))));
        note(4, each_of(REPEATS, || drop(black_box(problem.solve(dense::PLAIN, REPEATS)))));
        note(5, each_of(REPEATS, || drop(black_box(problem.solve(dense::WIDE, REPEATS)))));
        note(6, each(|| assert_ne!(ours::solve(black_box(&bytes), &mut out), 0)));
        note(7, each(|| drop(black_box(lines(&Smoother::new(job::read(black_box(&bytes)).graph).run().unwrap())))));
    }
    // The repeated run reads the job once.
    least[2] -= least[0] / REPEATS as f64;
    show(graph, &least);
}

const ROUNDS: usize = 150;
const REPEATS: usize = 64;

/// Nanoseconds of one call, in a batch of about a millisecond.
fn each(mut call: impl FnMut()) -> f64 {
    let start = Instant::now();
    call();
    let batch = (1_000_000 / start.elapsed().as_nanos().max(1)).clamp(1, 1000) as usize;
    let start = Instant::now();
    (0..batch).for_each(|_| call());
    start.elapsed().as_nanos() as f64 / batch as f64
}

/// The same for a call that does its work so many times.
fn each_of(times: usize, mut call: impl FnMut()) -> f64 {
    let start = Instant::now();
    call();
    start.elapsed().as_nanos() as f64 / times as f64
}

fn show(graph: &Graph, least: &[f64; SIDES]) {
    let [read, read_original, run, run_original, dense, wide, whole, whole_original] = least.map(|ns| ns / 1000.0);
    print!("{:<12} {:>4} {:>4} {read:>8.2} {read_original:>8.2} |", graph.name, graph.keys(), graph.factors());
    print!(" {run:>8.2} {run_original:>8.2} {dense:>8.2}  {wide:>8.2} | {whole:>8.2} {whole_original:>8.2} |");
    println!("  {:>9.2} {:>10.2} {:>13.2}", run_original / run, dense / run, wide / run);
}

fn repeat(only_run: bool, name: &str, times: usize) {
    let graphs = all(EXAMPLES);
    let graph = graphs.iter().find(|graph| graph.name == name).expect("a graph of that name");
    let (bytes, mut out) = (graph.job.bytes(), vec![0; ours::OUTPUT]);
    if only_run {
        return ours::repeat(&bytes, times, &mut [0.0; job::MESSAGE_STORE], &mut [0.0; ours::MARGINALS]);
    }
    (0..times).for_each(|_| assert_ne!(ours::solve(black_box(&bytes), &mut out), 0));
}
