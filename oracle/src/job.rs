//! The job file: its records in turn, each handed to the original's registering calls once the checks of documents 01 and 02 have passed.
use nalgebra::{DMatrix, DVector};

use crate::gaussian::{FactorGraph, Symbol};
use crate::graph::{Call, Graph, numbers};
use crate::refusal::{Reason, Refusal, Stage};

pub const VARIABLES: usize = 32;
pub const TOTAL_SIZE: usize = 32;
pub const SIZES: std::ops::RangeInclusive<usize> = 1..=6;
pub const FACTORS: usize = 64;
/// Keys and rows of an observation (C-20).
pub const KEYS: usize = 4;
pub const ROWS: std::ops::RangeInclusive<usize> = 1..=MOST_ROWS;
pub const MOST_ROWS: usize = 6;

/// What an observation says of its variance: this on the diagonal and 0 elsewhere, or numbers that follow.
#[derive(Clone, Copy, PartialEq)]
enum Variance {
    Diagonal(f64),
    Given,
}

/// By its flag (C-14); 8 refuses any other.
const FLAGS: [Variance; 3] = [Variance::Diagonal(0.25), Variance::Given, Variance::Diagonal(1.0)];

/// The flags by name.
pub const QUARTER: u8 = 0;
pub const GIVEN: u8 = 1;
pub const IDENTITY: u8 = 2;

/// The stores of the program `strips`, in numbers.
pub const FACTOR_STORE: usize = 2048;
pub const MESSAGE_STORE: usize = 3072;

/// The graph as far as the job was accepted, and the refusal that ended the reading.
pub struct Read {
    pub graph: Graph,
    pub refusal: Option<Refusal>,
}

/// Reads a job to its end or to its first refused record.
pub fn read(job: &[u8]) -> Read {
    let mut graph = Graph::default();
    let mut bytes = Bytes(job);
    let mut record = 0;
    while !bytes.0.is_empty() {
        if let Err(reason) = register(&mut graph, &mut bytes) {
            return Read { graph, refusal: Some(Refusal { reason, stage: Stage::Reading, place: record }) };
        }
        record += 1;
    }
    Read { graph, refusal: None }
}

/// What is left of the job. A part that is cut is refusal 8.
struct Bytes<'a>(&'a [u8]);

impl<'a> Bytes<'a> {
    fn take(&mut self, count: usize) -> Result<&'a [u8], Reason> {
        let (taken, left) = self.0.split_at_checked(count).ok_or(Reason::Malformed)?;
        self.0 = left;
        Ok(taken)
    }

    fn numbers(&mut self, count: usize) -> Result<Vec<f64>, Reason> {
        let taken = self.take(8 * count)?;
        Ok(taken.chunks_exact(8).map(|eight| f64::from_le_bytes(eight.try_into().unwrap())).collect())
    }
}

fn register(graph: &mut Graph, bytes: &mut Bytes) -> Result<(), Reason> {
    match bytes.take(2)? {
        b"VA" => variable(&mut graph.all, bytes.take(9)?),
        b"SU" => superseding(graph, bytes),
        mark => factor(graph, mark, bytes),
    }
}

/// A factor's record with its mark, in the place of a live factor (C-11). Refused, it leaves that one live.
fn superseding(graph: &mut Graph, bytes: &mut Bytes) -> Result<(), Reason> {
    let number = bytes.take(1)?[0] as usize;
    check(graph.is_live(number), Reason::NotLive)?;
    let mark = bytes.take(2)?;
    factor(graph, mark, bytes)?;
    graph.retire(number);
    Ok(())
}

/// A factor's record behind its mark.
fn factor(graph: &mut Graph, mark: &[u8], bytes: &mut Bytes) -> Result<(), Reason> {
    let call = match mark {
        b"PR" => prior(&graph.all, bytes)?,
        b"OB" => observation(&graph.all, bytes)?,
        _ => return Err(Reason::Malformed),
    };
    graph.add(call)
}

fn check(holds: bool, reason: Reason) -> Result<(), Reason> {
    if holds { Ok(()) } else { Err(reason) }
}

fn variable(graph: &mut FactorGraph<f64>, record: &[u8]) -> Result<(), Reason> {
    let word = |at: usize| u32::from_le_bytes(record[at..at + 4].try_into().unwrap());
    let letter = char::from_u32(word(0)).ok_or(Reason::Letter)?;
    let symbol = Symbol(letter, word(4) as usize);
    let size = record[8] as usize;
    check(SIZES.contains(&size), Reason::Size)?;
    check(graph.key(&symbol).is_none(), Reason::NameTaken)?;
    check(graph.n_keys() < VARIABLES && total_size(graph) + size <= TOTAL_SIZE, Reason::PastLimit)?;
    graph.add_variable(symbol, size).expect("the original refuses a name only where it is taken");
    Ok(())
}

fn prior(graph: &FactorGraph<f64>, bytes: &mut Bytes) -> Result<Call, Reason> {
    let key = bytes.take(1)?[0] as usize;
    let size = graph.size(key).ok_or(Reason::NoSuchKey)?;
    let given = bytes.numbers(size + size * size)?;
    check_factor(graph, given.len(), &given)?;
    check(symmetric(size, &given[size..]), Reason::NotSymmetric)?;
    let mean = DVector::from_column_slice(&given[..size]);
    let variance = DMatrix::from_column_slice(size, size, &given[size..]);
    Ok(Call::Prior { key, mean, variance })
}

fn observation(graph: &FactorGraph<f64>, bytes: &mut Bytes) -> Result<Call, Reason> {
    let header = bytes.take(3)?;
    let (count, rows, flag) = (header[0] as usize, header[1] as usize, header[2]);
    let meaning = *FLAGS.get(flag as usize).ok_or(Reason::Malformed)?;
    check(count <= KEYS && ROWS.contains(&rows), Reason::Count)?;
    let keys: Vec<usize> = bytes.take(count)?.iter().map(|&key| key as usize).collect();
    check(keys.windows(2).all(|pair| pair[0] < pair[1]), Reason::KeysNotRising)?;
    check(keys.iter().all(|&key| graph.has_key(key)), Reason::NoSuchKey)?;
    let width: usize = keys.iter().map(|&key| graph.size(key).unwrap()).sum();
    let with_variance = if meaning == Variance::Given { rows * rows } else { 0 };
    let given = bytes.numbers(rows * width + rows + with_variance)?;
    check_factor(graph, rows * width + rows + rows * rows, &given)?;
    let (a, rest) = given.split_at(rows * width);
    let (mean, variance) = rest.split_at(rows);
    let variance = match meaning {
        Variance::Given => variance.to_vec(),
        Variance::Diagonal(x) => (0..rows * rows).map(|at| if at % rows == at / rows { x } else { 0.0 }).collect(),
    };
    check(symmetric(rows, &variance), Reason::NotSymmetric)?;
    let a = DMatrix::from_column_slice(rows, width, a);
    let mean = DVector::from_column_slice(mean);
    let variance = DMatrix::from_column_slice(rows, rows, &variance);
    Ok(Call::Observation { keys, a, mean, variance })
}

/// What registration checks of a factor of whole numbers before any arithmetic.
fn check_factor(graph: &FactorGraph<f64>, takes: usize, given: &[f64]) -> Result<(), Reason> {
    check(graph.n_factors() < FACTORS, Reason::PastLimit)?;
    check(stored(graph) + takes <= FACTOR_STORE, Reason::FactorStoreShort)?;
    check(given.iter().all(|x| x.is_finite()), Reason::NumberNotFinite)
}

/// Each entry compares equal to the one across the diagonal (C-12). The original reads the lower triangle alone.
fn symmetric(size: usize, variance: &[f64]) -> bool {
    (0..size).all(|i| (0..size).all(|j| variance[i + j * size] == variance[j + i * size]))
}

fn total_size(graph: &FactorGraph<f64>) -> usize {
    graph.keys().map(|key| graph.size(key).unwrap()).sum()
}

/// Numbers that a graph's factors take in the factor store.
pub fn stored(graph: &FactorGraph<f64>) -> usize {
    graph.factors().iter().map(|factor| numbers(factor).count()).sum()
}
