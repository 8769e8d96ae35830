//! dump [PATH [ORDER]]
//!
//! Shows what stands behind a job's answer: stored factors, both passes, what each key gathers, and the marginals or the
//! failure; every number as 16 hexadecimal digits, matrices column by column. The path `-` is standard input. ORDER is the lent
//! order of keys, as `2,0,1`: the forward pass follows it, the backward pass reverses it. Without it keys rise.
use std::process::ExitCode;

use oracle::gaussian::Factor;
use oracle::gaussian::shown::{self, Shown};
use oracle::graph::Graph;
use oracle::input::{self, OUTSIDE, UNUSABLE};
use oracle::job;
use oracle::order::{UNLIKE, keys};
use oracle::plan::{Elimination, Gathered, Message};
use oracle::run::{End, Run, digits, lines, parts, run};
use oracle::solver::{ClosedFactor, Slot};

fn main() -> ExitCode {
    let mut arguments = std::env::args_os().skip(1);
    let job = match input::job(arguments.next()) {
        Ok(job) => job,
        Err(error) => return unusable(&error.to_string()),
    };
    let job::Read { graph, refusal } = job::read(&job);
    show_factors(&graph);
    if let Some(refusal) = refusal {
        println!("{refusal}");
        return ExitCode::SUCCESS;
    }
    let rising: Vec<u8> = graph.all.keys().map(|key| key as u8).collect();
    let Some(order) = arguments.next().map_or(Some(rising), |text| parse(&text.to_string_lossy())) else {
        return unusable("the order isn't a list of keys, as 2,0,1");
    };
    match keys(&order, graph.all.n_keys()) {
        Some(order) => show_run(&run(&graph, &order), &order),
        None => {
            println!("{UNLIKE}");
            ExitCode::SUCCESS
        }
    }
}

fn unusable(why: &str) -> ExitCode {
    eprintln!("{why}");
    ExitCode::from(UNUSABLE)
}

/// An order's bytes; none where a word isn't one.
fn parse(text: &str) -> Option<Vec<u8>> {
    let words = text.split(',').map(str::trim);
    if text.is_empty() { Some(Vec::new()) } else { words.map(|key| key.parse().ok()).collect() }
}

fn show_factors(graph: &Graph) {
    let sizes: Vec<usize> = graph.all.keys().map(|key| graph.all.size(key).unwrap()).collect();
    println!("sizes {sizes:?}, factor store {} numbers", job::stored(&graph.all));
    for (number, factor) in graph.all.factors().iter().enumerate() {
        let state = if graph.is_live(number) { "" } else { ", superseded" };
        show_factor(number, factor, state);
    }
}

fn show_factor(number: usize, factor: &Factor<f64>, state: &str) {
    match shown::factor(factor) {
        Shown::Prior { key, xi, w } => {
            println!("original {number}: prior on {key}{state}");
            show_numbers(&[], xi, w);
        }
        Shown::Likelihood { keys, rows, a, xi, w } => {
            println!("original {number}: observation of {rows} rows on {keys:?}{state}");
            show_numbers(a, xi, w);
        }
    }
}

fn show_numbers(a: &[f64], xi: &[f64], w: &[f64]) {
    for (name, numbers) in [("A ", a), ("xi", xi), ("W ", w)] {
        if !numbers.is_empty() {
            println!("  {name}{}", digits(numbers));
        }
    }
}

fn show_run(run: &Run, order: &[usize]) -> ExitCode {
    println!("order {order:?}, message store {} numbers", run.plan.figure());
    show_pass("forward", &run.plan.forward, &run.forward);
    show_pass("backward", &run.plan.backward, &run.backward);
    run.plan.gathered.iter().for_each(show_gathered);
    print!("{}", lines(&run.marginals));
    match &run.end {
        None => ExitCode::SUCCESS,
        Some(End::Refused(refusal)) => {
            println!("{refusal}");
            ExitCode::SUCCESS
        }
        Some(End::Outside(outside)) => {
            eprintln!("{outside}");
            ExitCode::from(OUTSIDE)
        }
    }
}

fn show_pass(name: &str, planned: &[Message], done: &[ClosedFactor<f64>]) {
    for (place, message) in planned.iter().enumerate() {
        println!("{name} {place}: step {}, key {}", message.step, message.key);
        println!("  content {}", slots(&message.content));
        show_elimination(&message.work);
        match done.get(place) {
            Some(closed) => {
                let (a, xi, w) = parts(&closed.factor);
                show_numbers(a, xi, w);
            }
            None => println!("  not finished"),
        }
    }
}

fn slots(content: &[Slot]) -> String {
    let name = |slot: &Slot| match slot {
        Slot::Original(i) => format!("original {i}"),
        Slot::Closed(j) => format!("message {j}"),
    };
    content.iter().map(name).collect::<Vec<_>>().join(", ")
}

fn show_elimination(work: &Elimination) {
    let branch = if work.in_z() { "z" } else { "x" };
    let Elimination { kept, cleared, dimension, given, rows, .. } = work;
    println!("  kept {kept:?}, cleared {cleared:?}, {given} rows against {dimension}: {branch}, {rows} rows");
}

fn show_gathered(gathered: &Gathered) {
    let Gathered { key, forward, backward, originals, leaves, work } = gathered;
    println!("key {key} gathers forward {forward:?}, backward {backward:?}, originals {originals:?}");
    println!("  leaves {leaves:?}");
    show_elimination(work);
}
