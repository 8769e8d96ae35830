//! The original's passes, seen from inside.
use super::*;

/// The messages of the pass along an order, or the failure.
pub fn pass(graph: &FactorGraph<f64>, order: &[usize]) -> Result<Vec<ClosedFactor<f64>>> {
    full_pass(graph.n_keys(), graph.factors(), order.iter().copied(), |k| graph.size(k).unwrap_or(0))
}

/// The messages gathered after that many steps.
pub fn alive(messages: &[ClosedFactor<f64>], steps: usize) -> Vec<usize> {
    alive_messages(messages, steps)
}

/// The originals under a message, marked.
pub fn leaves(messages: &[ClosedFactor<f64>], root: usize, covered: &mut [bool]) -> Result<()> {
    mark_leaves(messages, root, covered, &mut Vec::new())
}
