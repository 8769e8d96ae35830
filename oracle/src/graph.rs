//! The factors of a job: every one at its number, and which of them are live (C-11). The original knows no superseding, so it is given
//! the live ones alone.
use nalgebra::{DMatrix, DVector};

use crate::gaussian::shown::{self, Shown};
use crate::gaussian::{Factor, FactorGraph};
use crate::refusal::Reason;
use crate::solver::Slot;

/// What the original's registering call for a factor is given.
#[derive(Clone)]
pub enum Call {
    Prior { key: usize, mean: DVector<f64>, variance: DMatrix<f64> },
    Observation { keys: Vec<usize>, a: DMatrix<f64>, mean: DVector<f64>, variance: DMatrix<f64> },
}

impl Call {
    /// It fails only on a refused pivot, since its shapes were checked.
    fn make(self, graph: &mut FactorGraph<f64>) -> anyhow::Result<usize> {
        match self {
            Call::Prior { key, mean, variance } => graph.add_prior(key, mean, variance),
            Call::Observation { keys, a, mean, variance } => graph.add_observation(keys, a, mean, variance),
        }
    }
}

/// The variables and factors that a job has registered.
pub struct Graph {
    /// Every factor, superseded or not; its place is its number.
    pub all: FactorGraph<f64>,
    calls: Vec<Call>,
    live: Vec<bool>,
}

impl Default for Graph {
    fn default() -> Graph {
        Graph { all: FactorGraph::new(), calls: Vec::new(), live: Vec::new() }
    }
}

impl Graph {
    /// A new factor is live. The original stores what isn't finite; document 01 refuses it.
    pub fn add(&mut self, call: Call) -> Result<(), Reason> {
        let number = call.clone().make(&mut self.all).map_err(|_| Reason::VariancePivot)?;
        if !numbers(&self.all.factors()[number]).all(|x| x.is_finite()) {
            self.all = self.with(0..number);
            return Err(Reason::NumberNotFinite);
        }
        self.calls.push(call);
        self.live.push(true);
        Ok(())
    }

    pub fn is_live(&self, number: usize) -> bool {
        self.live.get(number) == Some(&true)
    }

    /// The factor keeps its number and its numbers in the store.
    pub fn retire(&mut self, number: usize) {
        self.live[number] = false;
    }

    /// The numbers of the live factors, rising.
    pub fn live_numbers(&self) -> Vec<usize> {
        (0..self.live.len()).filter(|&number| self.live[number]).collect()
    }

    /// How many factors were superseded.
    pub fn superseded(&self) -> usize {
        self.live.iter().filter(|&&live| !live).count()
    }

    pub fn live(&self) -> Live {
        let numbers = self.live_numbers();
        Live { graph: self.with(numbers.iter().copied()), numbers }
    }

    /// The original's graph of all variables and of these factors, registered in this order.
    fn with(&self, numbers: impl Iterator<Item = usize>) -> FactorGraph<f64> {
        let mut graph = FactorGraph::new();
        for key in self.all.keys() {
            let (symbol, size) = (*self.all.symbol(key).unwrap(), self.all.size(key).unwrap());
            graph.add_variable(symbol, size).expect("its names differ");
        }
        for number in numbers {
            self.calls[number].clone().make(&mut graph).expect("it was accepted before");
        }
        graph
    }
}

/// What the original judges: the live factors alone, in rising order.
pub struct Live {
    pub graph: FactorGraph<f64>,
    /// Of each of its factors, the number under which the job registered it.
    pub numbers: Vec<usize>,
}

impl Live {
    /// A slot of the original's passes, under the number of the job.
    pub fn registered(&self, slot: &Slot) -> Slot {
        match *slot {
            Slot::Original(i) => Slot::Original(self.numbers[i]),
            Slot::Closed(j) => Slot::Closed(j),
        }
    }
}

/// A, xi and W of a factor.
pub fn numbers(factor: &Factor<f64>) -> impl Iterator<Item = &f64> {
    let (a, xi, w): (&[f64], _, _) = match shown::factor(factor) {
        Shown::Prior { xi, w, .. } => (&[], xi, w),
        Shown::Likelihood { a, xi, w, .. } => (a, xi, w),
    };
    a.iter().chain(xi).chain(w)
}
