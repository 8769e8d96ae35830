//! The run, carried out elimination by elimination through the original's own functions, so that the first refusal shows
//! with its stage and key. The original's whole passes and whole run must agree with it bit by bit; a panic says they don't.
use std::fmt;

use crate::gaussian::shown::{self, Shown};
use crate::gaussian::{FactorGraph, FactorView, Likelihood, Marginal};
use crate::graph::{Graph, Live};
use crate::job::{self, MESSAGE_STORE};
use crate::plan::{Elimination, Gathered, Message, Plan, Shapes};
use crate::refusal::{Reason, Refusal, Stage};
use crate::solver::shown as passes;
use crate::solver::{ClosedFactor, Slot, Smoother};

/// An elimination outside the domain of equality: the original's answer wouldn't be document 01's.
#[derive(Debug, Clone, Copy, PartialEq, Eq)]
pub struct Outside {
    pub stage: Stage,
    pub key: usize,
}

impl fmt::Display for Outside {
    fn fmt(&self, f: &mut fmt::Formatter<'_>) -> fmt::Result {
        let Outside { stage, key } = *self;
        write!(f, "outside the domain of equality at stage {}, key {key}: ", stage as u32)?;
        f.write_str("in the z branch, a factor with two or more cleared keys that aren't all of size 1")
    }
}

/// Why there are no marginals.
#[derive(Debug, Clone, Copy, PartialEq, Eq)]
pub enum End {
    Refused(Refusal),
    Outside(Outside),
}

/// How many numbers the lent stores of a run take.
#[derive(Debug, Clone, Copy)]
pub struct Rooms {
    pub messages: usize,
    pub marginals: usize,
}

/// Those of the program `strips`.
pub const STRIPS: Rooms = Rooms { messages: MESSAGE_STORE, ..AMPLE };

pub const AMPLE: Rooms = Rooms { messages: usize::MAX, marginals: usize::MAX };

impl Rooms {
    /// Else the run is refused before any arithmetic.
    pub fn hold(self, plan: &Plan) -> bool {
        plan.figure() <= self.messages && plan.marginals() <= self.marginals
    }
}

/// A store is short.
pub const SHORT: End = End::Refused(Refusal { reason: Reason::MessageStoreShort, stage: Stage::Forward, place: 0 });

/// As far as a run came.
pub struct Run {
    pub plan: Plan,
    pub forward: Vec<ClosedFactor<f64>>,
    pub backward: Vec<ClosedFactor<f64>>,
    pub marginals: Vec<Marginal<f64>>,
    pub end: Option<End>,
}

/// What `strips` prints for a job; none where an elimination outside the domain stands before the answer.
pub fn expected(job: &[u8]) -> Result<String, Outside> {
    let job::Read { graph, refusal } = job::read(job);
    if let Some(refusal) = refusal {
        return Ok(format!("{refusal}\n"));
    }
    let order: Vec<usize> = graph.all.keys().collect();
    let run = run(&graph, &order);
    agrees_with_smoother(&run, graph.live().graph);
    text(run.end, &run.marginals)
}

/// What is printed of a run that ended so.
pub fn text(end: Option<End>, marginals: &[Marginal<f64>]) -> Result<String, Outside> {
    match end {
        Some(End::Refused(refusal)) => Ok(format!("{refusal}\n")),
        Some(End::Outside(outside)) => Err(outside),
        None => Ok(lines(marginals)),
    }
}

/// A line a key: mean, then covariance column by column.
pub fn lines(marginals: &[Marginal<f64>]) -> String {
    let line = |m: &Marginal<f64>| format!("{}{}{}\n", m.key, digits(&m.mean.data), digits(&m.cov.data));
    marginals.iter().map(line).collect()
}

/// Each number as a space and 16 hexadecimal digits.
pub fn digits(numbers: &[f64]) -> String {
    numbers.iter().map(|x| format!(" {:016X}", x.to_bits())).collect()
}

/// Both passes and every marginal in the stores of `strips`, with the keys taken in this order.
pub fn run(graph: &Graph, order: &[usize]) -> Run {
    run_in(STRIPS, graph, order)
}

/// The same in these stores.
pub fn run_in(rooms: Rooms, graph: &Graph, order: &[usize]) -> Run {
    let shapes = Shapes::of(graph);
    let plan = Plan::new(&shapes, order);
    let mut run = Run { plan, forward: Vec::new(), backward: Vec::new(), marginals: Vec::new(), end: None };
    run.end = carry_out(rooms, &graph.all, &mut run).err();
    agrees_with_passes(&graph.live(), &run, order);
    run
}

impl Run {
    /// The numbers of the finished messages, as they stand in the message store.
    pub fn message_numbers(&self) -> Vec<f64> {
        let finished = self.forward.iter().chain(&self.backward).map(|message| parts(&message.factor));
        finished.flat_map(|(a, xi, w)| [a, xi, w].concat()).collect()
    }

    /// The numbers in the marginal store: none where the run was refused.
    pub fn marginal_numbers(&self) -> Vec<f64> {
        let found = if self.end.is_none() { &self.marginals[..] } else { &[] };
        found.iter().flat_map(|m| [&m.mean.data[..], &m.cov.data].concat()).collect()
    }
}

fn carry_out(rooms: Rooms, graph: &FactorGraph<f64>, run: &mut Run) -> Result<(), End> {
    if !rooms.hold(&run.plan) {
        return Err(SHORT);
    }
    for message in &run.plan.forward {
        run.forward.push(close(graph, message, &run.forward, Stage::Forward)?);
    }
    for message in &run.plan.backward {
        run.backward.push(close(graph, message, &run.backward, Stage::Backward)?);
    }
    for gathered in &run.plan.gathered {
        run.marginals.push(marginal(graph, gathered, &run.forward, &run.backward)?);
    }
    Ok(())
}

fn refused(reason: Reason, stage: Stage, place: usize) -> End {
    End::Refused(Refusal { reason, stage, place })
}

/// One message of a pass.
fn close(
    graph: &FactorGraph<f64>,
    message: &Message,
    before: &[ClosedFactor<f64>],
    stage: Stage,
) -> Result<ClosedFactor<f64>, End> {
    let view = |slot: &Slot| match *slot {
        Slot::Original(i) => FactorView::from(&graph.factors()[i]),
        Slot::Closed(j) => FactorView::from(&before[j].factor),
    };
    let slots: Vec<FactorView<f64>> = message.content.iter().map(view).collect();
    let factor = eliminate(graph, &slots, &message.work, stage, message.key)?;
    Ok(ClosedFactor { factor, content: message.content.clone(), step: message.step })
}

/// One key: 15 and 17 of the last elimination, then 16 and 17 of the marginal.
fn marginal(
    graph: &FactorGraph<f64>,
    gathered: &Gathered,
    forward: &[ClosedFactor<f64>],
    backward: &[ClosedFactor<f64>],
) -> Result<Marginal<f64>, End> {
    let key = gathered.key;
    let refuse = |reason| refused(reason, Stage::Marginals, key);
    let mut slots: Vec<FactorView<f64>> = Vec::new();
    slots.extend(gathered.forward.iter().map(|&j| FactorView::from(&forward[j].factor)));
    slots.extend(gathered.backward.iter().map(|&j| FactorView::from(&backward[j].factor)));
    slots.extend(gathered.originals.iter().map(|&i| FactorView::from(&graph.factors()[i])));
    let likelihood = eliminate(graph, &slots, &gathered.work, Stage::Marginals, key)?;
    let marginal = Marginal::from(key, None, &likelihood).map_err(|_| refuse(Reason::MarginalPivot))?;
    if !marginal.mean.data.iter().chain(&marginal.cov.data).all(|x| x.is_finite()) {
        return Err(refuse(Reason::ResultNotFinite));
    }
    Ok(marginal)
}

/// The original's elimination. It fails only on a refused pivot, so what it computes is looked at here.
fn eliminate(
    graph: &FactorGraph<f64>,
    slots: &[FactorView<f64>],
    work: &Elimination,
    stage: Stage,
    key: usize,
) -> Result<Likelihood<f64>, End> {
    if !work.in_domain {
        return Err(End::Outside(Outside { stage, key }));
    }
    let size_of = |key: usize| graph.size(key).unwrap();
    let result = Likelihood::eliminate(slots.iter().copied(), &work.kept, &work.cleared, size_of);
    let likelihood = result.map_err(|_| refused(Reason::ClearedPivot, stage, key))?;
    assert_eq!(likelihood.dim_y(), work.rows, "rows of the original and of the plan");
    let (a, xi, w) = parts(&likelihood);
    if !a.iter().chain(xi).chain(w).all(|x| x.is_finite()) {
        return Err(refused(Reason::ResultNotFinite, stage, key));
    }
    Ok(likelihood)
}

/// A, xi and W.
pub fn parts(likelihood: &Likelihood<f64>) -> (&[f64], &[f64], &[f64]) {
    match shown::likelihood(likelihood) {
        Shown::Likelihood { a, xi, w, .. } => (a, xi, w),
        Shown::Prior { .. } => unreachable!("a likelihood is shown as one"),
    }
}

/// Holds the replay against the original's passes and gathering over the live factors.
fn agrees_with_passes(live: &Live, run: &Run, order: &[usize]) {
    let reversed: Vec<usize> = order.iter().rev().copied().collect();
    let ahead = agrees_with_pass(live, order, &run.plan.forward, &run.forward, refused_pivot(run, Stage::Forward));
    let behind =
        agrees_with_pass(live, &reversed, &run.plan.backward, &run.backward, refused_pivot(run, Stage::Backward));
    assert!(run.end.is_some() || ahead.is_some() && behind.is_some(), "the original's passes don't go through");
    if let (Some(ahead), Some(behind)) = (ahead, behind) {
        run.plan.gathered.iter().for_each(|gathered| agrees_with_gathering(live, &ahead, &behind, gathered, order));
    }
}

/// The key that is told where a refused pivot ended the run in this stage.
fn refused_pivot(run: &Run, at: Stage) -> Option<usize> {
    match run.end {
        Some(End::Refused(Refusal { reason: Reason::ClearedPivot, stage, place })) if stage == at => Some(place),
        _ => None,
    }
}

/// A whole pass runs through messages that aren't finite and may panic outside the domain, so what it shows is: the plan
/// wherever it succeeds, the numbers of the messages that the replay finished, and a failure exactly at a refused pivot, with
/// its key. Answers the original's messages where its pass went through.
fn agrees_with_pass(
    live: &Live,
    order: &[usize],
    planned: &[Message],
    done: &[ClosedFactor<f64>],
    refused_pivot: Option<usize>,
) -> Option<Vec<ClosedFactor<f64>>> {
    if !planned.iter().all(|message| message.work.in_domain) {
        return None;
    }
    match passes::pass(&live.graph, order) {
        Ok(messages) => {
            assert_eq!(refused_pivot, None, "the original's pass goes on past a refused pivot");
            assert_eq!(messages.len(), planned.len(), "messages of the original and of the plan");
            assert!(
                messages.iter().zip(planned).all(|(m, p)| follows(live, m, p)),
                "the original's pass isn't the plan's"
            );
            assert!(messages.iter().zip(done).all(|(m, d)| same(m, d)), "the original's messages aren't the replay's");
            Some(messages)
        }
        Err(error) => {
            assert!(done.len() < planned.len(), "the original's pass fails without cause: {error:?}");
            let told = |key| error.0.starts_with(&format!("Failed to compute factor for key {key}: "));
            assert!(refused_pivot.is_none_or(told), "the original tells another key: {error:?}");
            None
        }
    }
}

fn follows(live: &Live, message: &ClosedFactor<f64>, planned: &Message) -> bool {
    let content: Vec<Slot> = message.content.iter().map(|slot| live.registered(slot)).collect();
    message.step == planned.step && content == planned.content && message.keys() == planned.work.kept
}

fn same(left: &ClosedFactor<f64>, right: &ClosedFactor<f64>) -> bool {
    let ((a, xi, w), (b, eta, v)) = (parts(&left.factor), parts(&right.factor));
    digits(a) == digits(b) && digits(xi) == digits(eta) && digits(w) == digits(v)
}

/// The original's own gathering over its messages.
fn agrees_with_gathering(
    live: &Live,
    ahead: &[ClosedFactor<f64>],
    behind: &[ClosedFactor<f64>],
    gathered: &Gathered,
    order: &[usize],
) {
    let place = order.iter().position(|&key| key == gathered.key).unwrap();
    let mut covered = vec![false; live.numbers.len()];
    let both = [(ahead, &gathered.forward, place), (behind, &gathered.backward, order.len() - 1 - place)];
    for (messages, roots, steps) in both {
        assert_eq!(&passes::alive(messages, steps), roots, "messages that the original gathers");
        for &root in roots {
            passes::leaves(messages, root, &mut covered).expect("the original covers an original twice");
        }
    }
    let uncovered: Vec<usize> = (0..covered.len()).filter(|&i| !covered[i]).map(|i| live.numbers[i]).collect();
    assert_eq!(uncovered, gathered.originals, "originals that the original leaves uncovered");
}

/// The original's whole run, which takes rising keys, must give the same marginals, and fail where a pivot was refused.
pub fn agrees_with_smoother(run: &Run, graph: FactorGraph<f64>) {
    match run.end {
        None => {
            let marginals = Smoother::new(graph).run().expect("the original's run goes through");
            assert_eq!(lines(&marginals), lines(&run.marginals), "the original's marginals aren't the replay's");
        }
        Some(End::Refused(Refusal { reason: Reason::ClearedPivot | Reason::MarginalPivot, .. })) => {
            assert!(Smoother::new(graph).run().is_err(), "the original's run goes on past a refused pivot");
        }
        Some(_) => {}
    }
}
