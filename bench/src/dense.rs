//! The dense solve over the factors that the original has stored.
use oracle::gaussian::FactorGraph;
use oracle::gaussian::shown::{self, Shown};

#[repr(C)]
pub struct Factor {
    a: *const f64,
    xi: *const f64,
    w: *const f64,
    rows: i32,
    columns: i32,
    at: *const i32,
}

unsafe extern "C" {
    fn dense_solve(factors: *const Factor, count: usize, n: i32, mean: *mut f64, covariance: *mut f64) -> i32;
    fn dense_wide_solve(factors: *const Factor, count: usize, n: i32, mean: *mut f64, covariance: *mut f64) -> i32;
}

type Solve = unsafe extern "C" fn(*const Factor, usize, i32, *mut f64, *mut f64) -> i32;

pub const PLAIN: Solve = dense_solve;
pub const WIDE: Solve = dense_wide_solve;

/// The stored numbers, and for each factor the components that its columns stand for.
pub struct Problem {
    numbers: Vec<[Vec<f64>; 3]>,
    at: Vec<Vec<i32>>,
    size: usize,
}

impl Problem {
    pub fn of(graph: &FactorGraph<f64>) -> Problem {
        let sizes: Vec<usize> = graph.keys().map(|key| graph.size(key).unwrap()).collect();
        let first = |key: usize| sizes[..key].iter().sum::<usize>();
        let columns = |keys: &[usize]| -> Vec<i32> {
            keys.iter().flat_map(|&key| first(key)..first(key) + sizes[key]).map(|at| at as i32).collect()
        };
        let (mut numbers, mut at) = (Vec::new(), Vec::new());
        for factor in graph.factors() {
            let (keys, parts) = match shown::factor(factor) {
                Shown::Prior { key, xi, w } => (vec![key], [vec![], xi.to_vec(), w.to_vec()]),
                Shown::Likelihood { keys, a, xi, w, .. } => (keys.to_vec(), [a.to_vec(), xi.to_vec(), w.to_vec()]),
            };
            at.push(columns(&keys));
            numbers.push(parts);
        }
        Problem { numbers, at, size: sizes.iter().sum() }
    }

    fn factors(&self) -> Vec<Factor> {
        let one = |([a, xi, w], at): (&[Vec<f64>; 3], &Vec<i32>)| Factor {
            a: if a.is_empty() { std::ptr::null() } else { a.as_ptr() },
            xi: xi.as_ptr(),
            w: w.as_ptr(),
            rows: xi.len() as i32,
            columns: at.len() as i32,
            at: at.as_ptr(),
        };
        self.numbers.iter().zip(&self.at).map(one).collect()
    }

    /// The mean and the covariance of all components, computed so many times.
    pub fn solve(&self, solve: Solve, times: usize) -> (Vec<f64>, Vec<f64>) {
        let factors = self.factors();
        let (mut mean, mut covariance) = (vec![0.0; self.size], vec![0.0; self.size * self.size]);
        for _ in 0..times {
            // The pointers are those of this problem's numbers, and the answers have room for n and n by n.
            let ended = unsafe {
                solve(factors.as_ptr(), factors.len(), self.size as i32, mean.as_mut_ptr(), covariance.as_mut_ptr())
            };
            assert_eq!(ended, 0, "the dense solve refuses a pivot");
        }
        (mean, covariance)
    }
}
