//! A job under a lent order of keys (C-16): whether the order is taken, and what is told under it.
use crate::graph::Graph;
use crate::job::{self, Read};
use crate::refusal::{Reason, Refusal, Stage};
use crate::run::{AMPLE, End, Outside, Rooms, Run, SHORT, STRIPS, agrees_with_smoother, run_in, text};

/// The keys of a lent order; none where it isn't each of so many keys exactly once.
pub fn keys(order: &[u8], count: usize) -> Option<Vec<usize>> {
    let keys: Vec<usize> = order.iter().map(|&key| key as usize).collect();
    let mut sorted = keys.clone();
    sorted.sort();
    sorted.into_iter().eq(0..count).then_some(keys)
}

/// The refusal of any other order.
pub const UNLIKE: Refusal = Refusal { reason: Reason::OrderUnlike, stage: Stage::Forward, place: 0 };

/// A job under a lent order.
pub struct Ordered {
    /// As far as the job was accepted.
    pub graph: Graph,
    /// In ample stores; or the refusal of a record, else that of the order, after which nothing is planned.
    pub run: Result<Run, Refusal>,
}

/// What a run answers and leaves in its stores.
pub struct Answer {
    pub figure: usize,
    pub end: Option<End>,
    /// The numbers at the start of either store; what lies behind is as it was.
    pub messages: Vec<f64>,
    pub marginals: Vec<f64>,
}

impl Ordered {
    pub fn new(job: &[u8], order: &[u8]) -> Ordered {
        Ordered::of(job::read(job), order)
    }

    /// A record's refusal is told before the order is looked at.
    pub fn of(Read { graph, refusal }: Read, order: &[u8]) -> Ordered {
        let run = match (refusal, keys(order, graph.all.n_keys())) {
            (Some(refusal), _) => Err(refusal),
            (None, None) => Err(UNLIKE),
            (None, Some(order)) => Ok(carried_out(&graph, &order)),
        };
        Ordered { graph, run }
    }

    /// The order was refused.
    pub fn is_unlike(&self) -> bool {
        self.run.as_ref().is_err_and(|refusal| *refusal == UNLIKE)
    }

    /// What `strips` would print under this order; none where an elimination outside the domain stands before the answer.
    pub fn text(&self) -> Result<String, Outside> {
        match &self.run {
            Err(refusal) => Ok(format!("{refusal}\n")),
            Ok(run) => text(end(run, STRIPS), &run.marginals),
        }
    }

    /// No refusal of the run shows in the text of its plan.
    pub fn plan_text(&self) -> String {
        match &self.run {
            Err(refusal) => format!("{refusal}\n"),
            Ok(run) => run.plan.to_string(),
        }
    }

    /// The run in these stores.
    pub fn answer(&self, rooms: Rooms) -> Answer {
        let untouched = |figure, end| Answer { figure, end: Some(end), messages: Vec::new(), marginals: Vec::new() };
        match &self.run {
            Err(refusal) => untouched(0, End::Refused(*refusal)),
            Ok(run) if !rooms.hold(&run.plan) => untouched(run.plan.figure(), SHORT),
            Ok(run) => Answer {
                figure: run.plan.figure(),
                end: run.end,
                messages: run.message_numbers(),
                marginals: run.marginal_numbers(),
            },
        }
    }
}

/// How a run ends in these stores.
fn end(run: &Run, rooms: Rooms) -> Option<End> {
    if rooms.hold(&run.plan) { run.end } else { Some(SHORT) }
}

/// With keys rising, the original's whole run judges it too.
fn carried_out(graph: &Graph, order: &[usize]) -> Run {
    let run = run_in(AMPLE, graph, order);
    if order.is_sorted() {
        agrees_with_smoother(&run, graph.live().graph);
    }
    run
}
