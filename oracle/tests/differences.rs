//! Where the original leaves document 01: smallest inputs, with what each of the two says.
use nalgebra::{DMatrix, DVector};
use oracle::cases::{Job, two_to};
use oracle::gaussian::{FactorGraph, Symbol};
use oracle::job;
use oracle::refusal::Stage;
use oracle::run::{Outside, expected, parts};
use oracle::solver::shown::pass;
use oracle::tolerance::published;

/// Keys of these sizes and of size 1, a prior of this variance on all but the last, and one row 1, 2, 3, ... across them.
fn row_across(sizes: &[usize], variance: f64) -> Job {
    let keys: Vec<usize> = (0..=sizes.len()).collect();
    let width = sizes.iter().sum::<usize>() + 1;
    let a: Vec<f64> = (1..=width).map(|at| at as f64).collect();
    let job = Job::with(&[sizes, &[1]].concat());
    let held = (0..sizes.len()).fold(job, |job, key| job.plain_prior(key, variance));
    held.unit_observation(&keys, &a, &[0.0])
}

/// W of the original's forward message. By document 01, with b the cleared part of the row and v the priors' variance,
/// it is 1 / (1 + v b'b) but for rounding.
fn forward_w(job: &Job) -> anyhow::Result<f64> {
    let graph = job::read(&job.bytes()).graph.all;
    let order: Vec<usize> = graph.keys().collect();
    Ok(parts(&pass(&graph, &order)?[0].factor).2[0])
}

fn near(x: f64, y: f64) -> bool {
    (x - y).abs() < 1e-12
}

const AT_KEY_2: Outside = Outside { stage: Stage::Forward, key: 2 };

/// Two cleared keys of size 2 under one factor in z: block (1, 0) stays untransposed in the original. Under narrow priors
/// its W differs.
#[test]
fn cleared_keys_of_equal_size_differ() {
    let job = row_across(&[2, 2], 1.0 / 64.0);
    assert_eq!(expected(&job.bytes()), Err(AT_KEY_2));
    assert!(!near(forward_w(&job).unwrap(), 1.0 / (1.0 + 30.0 / 64.0)));
}

/// Under unit priors the original even refuses a pivot, where document 01 has W = 1/31.
#[test]
fn cleared_keys_of_equal_size_fail() {
    let job = row_across(&[2, 2], 1.0);
    assert_eq!(expected(&job.bytes()), Err(AT_KEY_2));
    assert!(forward_w(&job).is_err());
}

/// Cleared keys of sizes 2 and 1: the original's blocks don't fit, and it panics.
#[test]
fn cleared_keys_of_unequal_size_panic() {
    let job = row_across(&[2, 1], 1.0);
    assert_eq!(expected(&job.bytes()), Err(AT_KEY_2));
    assert!(std::panic::catch_unwind(|| forward_w(&job)).is_err());
}

/// With cleared keys of size 1 a block is its own transpose.
#[test]
fn cleared_keys_of_size_1_agree() {
    let job = row_across(&[1, 1], 1.0);
    assert!(expected(&job.bytes()).is_ok());
    assert!(near(forward_w(&job).unwrap(), 1.0 / 6.0));
}

/// A refusal that comes before the elimination outside the domain is printed all the same.
#[test]
fn an_earlier_refusal_stands() {
    let job = Job::with(&[1, 2, 2, 1]).unit_observation(&[1, 2, 3], &[1.0; 5], &[0.0]);
    assert_eq!(expected(&job.bytes()), Ok("refused 15 1 1\n".to_string()));
}

/// Document 01 refuses repeated keys (3) and size 0 (2); the original takes both.
#[test]
fn repeated_keys_and_size_0() {
    let mut graph: FactorGraph<f64> = FactorGraph::new();
    graph.add_variable(Symbol('a', 0), 1).unwrap();
    assert_eq!(graph.add_variable(Symbol('a', 1), 0).unwrap(), 1);
    let (a, mean) = (DMatrix::from_column_slice(1, 2, &[1.0, 1.0]), DVector::zeros(1));
    assert_eq!(graph.add_observation(vec![0, 0], a, mean, DMatrix::identity(1, 1)).unwrap(), 0);
    let repeated = Job::with(&[1]).unit_observation(&[0, 0], &[1.0, 1.0], &[0.0]);
    assert_eq!(expected(&repeated.bytes()), Ok("refused 3 0 1\n".to_string()));
    assert_eq!(expected(&Job::with(&[1, 0]).bytes()), Ok("refused 2 0 1\n".to_string()));
}

/// The original stores and hands on what isn't finite; document 01 refuses it with 6 and 17.
#[test]
fn numbers_that_are_not_finite() {
    let mut graph: FactorGraph<f64> = FactorGraph::new();
    graph.add_variable(Symbol('a', 0), 1).unwrap();
    let (mean, variance) = (DVector::zeros(1), DMatrix::from_column_slice(1, 1, &[5e-324]));
    assert_eq!(graph.add_prior(0, mean, variance).unwrap(), 0);
    assert_eq!(expected(&Job::with(&[1]).prior(0, &[0.0], &[5e-324]).bytes()), Ok("refused 6 0 1\n".to_string()));
}

/// A variance whose triangles differ is refused with 20 (C-12); the original reads the lower one alone and takes it.
#[test]
fn triangles_that_differ() {
    let variance = [1.0, 0.0, 5e-324, 1.0];
    let mut graph: FactorGraph<f64> = FactorGraph::new();
    graph.add_variable(Symbol('a', 0), 2).unwrap();
    let matrix = || DMatrix::from_column_slice(2, 2, &variance);
    assert_eq!(graph.add_prior(0, DVector::zeros(2), matrix()).unwrap(), 0);
    assert_eq!(graph.add_observation(vec![0], DMatrix::identity(2, 2), DVector::zeros(2), matrix()).unwrap(), 1);
    let prior = Job::with(&[2]).prior(0, &[0.0; 2], &variance);
    assert_eq!(expected(&prior.bytes()), Ok("refused 20 0 1\n".to_string()));
    let observation = Job::with(&[2]).observation(&[0], &[1.0, 0.0, 0.0, 1.0], &[0.0; 2], &variance);
    assert_eq!(expected(&observation.bytes()), Ok("refused 20 0 1\n".to_string()));
}

/// An observation on more than 4 keys or of more than 6 rows is refused with 4 (C-20); the original has no such limit.
#[test]
fn more_keys_or_rows_than_an_observation_may_have() {
    for (keys, rows, refused) in [(4, 6, false), (5, 6, true), (4, 7, true)] {
        let (listed, a) = ((0..keys).collect::<Vec<usize>>(), vec![1.0; rows * keys]);
        let mut graph: FactorGraph<f64> = FactorGraph::new();
        (0..keys).for_each(|key| assert_eq!(graph.add_variable(Symbol('a', key), 1).unwrap(), key));
        let matrix = DMatrix::from_column_slice(rows, keys, &a);
        let added = graph.add_observation(listed.clone(), matrix, DVector::zeros(rows), DMatrix::identity(rows, rows));
        assert_eq!(added.unwrap(), 0);
        let held = (0..keys).fold(Job::with(&vec![1; keys]), |job, key| job.plain_prior(key, 1.0));
        let prints = expected(&held.unit_observation(&listed, &a, &vec![0.0; rows]).bytes()).unwrap();
        assert_eq!(prints == format!("refused 4 0 {}\n", 2 * keys), refused, "{prints}");
    }
}

/// A prior whose variance has the float below 1 beside its diagonal of 1: what is left of the second entry is 2^-52, which the
/// published rule takes.
#[test]
fn a_pivot_of_rounding_size() {
    let x = 1.0 - two_to(-53);
    let job = Job::with(&[2]).prior(0, &[0.0, 0.0], &[1.0, x, x, 1.0]);
    assert_eq!(expected(&job.bytes()), Ok("refused 7 0 1\n".to_string()));
    assert!(published(|| expected(&job.bytes())).is_ok_and(|prints| prints.starts_with("0 ")));
}
