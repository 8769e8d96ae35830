//! A direct elimination through both sides: the checks as document 01 orders them, the arithmetic as the original does it.
use std::panic::catch_unwind;

use oracle::cases::Random;
use oracle::gaussian::{FactorGraph, FactorView, Likelihood};
use oracle::graph::Graph;
use oracle::plan::{Elimination, Shape, Shapes};
use oracle::run::parts;

use crate::ours;
use crate::outcome::{Outcome, UNTOUCHED};

/// What a direct call is given beside a graph.
pub struct Call {
    pub slots: Vec<usize>,
    pub kept: Vec<usize>,
    pub cleared: Vec<usize>,
    pub room: usize,
}

const SLOTS: usize = 128;
const LISTED: usize = 32;

/// A call over some of a graph's factors, superseded ones among them, mostly one that can be carried out.
pub fn draw(random: &mut Random, graph: &FactorGraph<f64>) -> Call {
    let (keys, factors) = (graph.n_keys(), graph.n_factors());
    let slots: Vec<usize> = (0..random.below(factors + 2)).map(|_| random.below(factors.max(1))).collect();
    let touched = |key: usize| slots.iter().any(|&slot| slot < factors && graph.factors()[slot].keys().contains(&key));
    let (mut kept, mut cleared) = (Vec::new(), Vec::new());
    for key in 0..keys {
        if touched(key) || random.chance(5) {
            if random.chance(50) { kept.push(key) } else { cleared.push(key) }
        }
    }
    let mut call = Call { slots, kept, cleared, room: oracle::job::MESSAGE_STORE };
    if random.chance(25) {
        spoil(random, &mut call, keys, factors);
    }
    call
}

/// One thing that a check looks at.
fn spoil(random: &mut Random, call: &mut Call, keys: usize, factors: usize) {
    let key = random.below(keys + 1);
    match random.below(8) {
        0 => call.slots = (0..SLOTS + random.below(2)).map(|_| random.below(factors.max(1))).collect(),
        1 => call.kept = (0..LISTED + random.below(2)).collect(),
        2 => call.cleared = (0..LISTED + random.below(2)).collect(),
        3 => call.kept.push(key),
        4 => call.cleared.push(key),
        5 => call.slots.push(factors + random.below(2)),
        6 => {
            call.kept.pop();
        }
        _ => call.room = random.below(80),
    }
}

/// The refusal before any arithmetic, or the elimination's plan.
fn checked(shapes: &Shapes, call: &Call) -> Result<Elimination, usize> {
    let rising = |keys: &[usize]| keys.windows(2).all(|pair| pair[0] < pair[1]);
    if call.slots.len() > SLOTS || call.kept.len() > LISTED || call.cleared.len() > LISTED {
        return Err(4);
    }
    if !rising(&call.kept) || !rising(&call.cleared) || call.kept.iter().any(|key| call.cleared.contains(key)) {
        return Err(9);
    }
    let known = |key: &usize| *key < shapes.sizes.len();
    if !call.kept.iter().chain(&call.cleared).all(known) || call.slots.iter().any(|&slot| slot >= shapes.factors.len())
    {
        return Err(11);
    }
    let met: Vec<&Shape> = call.slots.iter().map(|&slot| &shapes.factors[slot]).collect();
    let listed = |key: &usize| call.kept.contains(key) || call.cleared.contains(key);
    if !met.iter().all(|shape| shape.keys.iter().all(listed)) {
        return Err(0);
    }
    let work = Elimination::new(shapes, &met, call.kept.clone(), call.cleared.clone());
    if work.stored() > call.room { Err(14) } else { Ok(work) }
}

/// The rows and the message's numbers, or a refusal; none outside the domain.
fn wanted(graph: &Graph, call: &Call) -> Option<Result<(usize, Vec<f64>), usize>> {
    let work = match checked(&Shapes::of(graph), call) {
        Err(number) => return Some(Err(number)),
        Ok(work) => work,
    };
    if !work.in_domain {
        return None;
    }
    let views = call.slots.iter().map(|&slot| FactorView::from(&graph.all.factors()[slot]));
    let Ok(found) = Likelihood::eliminate(views, &call.kept, &call.cleared, |key| graph.all.size(key).unwrap()) else {
        return Some(Err(15));
    };
    let (a, xi, w) = parts(&found);
    let numbers = [a, xi, w].concat();
    let finite = numbers.iter().all(|x| x.is_finite());
    Some(if finite { Ok((work.rows, numbers)) } else { Err(17) })
}

pub fn compare(job: &[u8], graph: &Graph, call: &Call) -> Outcome {
    let mut messages = vec![f64::from_bits(UNTOUCHED); call.room];
    let answer = ours::eliminate(job, &call.slots, &call.kept, &call.cleared, &mut messages);
    let guarded = std::panic::AssertUnwindSafe(|| wanted(graph, call));
    let Ok(wanted) = catch_unwind(guarded) else {
        return Outcome::Differs("the original panics".to_string());
    };
    let (number, numbers, kind) = match wanted {
        None => return Outcome::Outside("a direct elimination".to_string()),
        Some(Err(number)) => (ours::REFUSED | number, Vec::new(), format!("refused {number:>2}")),
        Some(Ok((rows, numbers))) => (rows, numbers, "done".to_string()),
    };
    let (message, rest) = messages.split_at(numbers.len());
    let same = message.iter().zip(&numbers).all(|(x, y)| x.to_bits() == y.to_bits());
    if answer == number && same && rest.iter().all(|x| x.to_bits() == UNTOUCHED) {
        return Outcome::Same(kind);
    }
    Outcome::Differs(format!("{kind}: wanted {number:#x}, got {answer:#x}; numbers equal: {same}"))
}
