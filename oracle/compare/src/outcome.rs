//! One job through both sides.
use std::panic::catch_unwind;

use oracle::cases::Job;
use oracle::graph::numbers;
use oracle::job::{self, FACTOR_STORE, MESSAGE_STORE, Read};
use oracle::run::{End, expected, lines, run};
use oracle::solver::Smoother;

use crate::ours;

/// What the comparison says of a job.
#[derive(Debug, Clone, PartialEq, Eq, PartialOrd, Ord)]
pub enum Outcome {
    /// The same text and the same stores; the text's kind.
    Same(String),
    /// Inside the domain of equality: a finding.
    Differs(String),
    /// Outside the domain; how the original's own run compares.
    Outside(String),
}

/// The library's text.
pub fn printed(job: &[u8]) -> Vec<u8> {
    let mut out = vec![0xA5; ours::OUTPUT];
    let length = ours::solve(job, &mut out);
    assert!(out[length..].iter().all(|&byte| byte == 0xA5), "bytes behind the text were written");
    out.truncate(length);
    out
}

pub fn compare(job: &Job) -> Outcome {
    compare_bytes(&job.bytes())
}

pub fn compare_bytes(bytes: &[u8]) -> Outcome {
    let text = printed(bytes);
    if !same_store(bytes) {
        return Outcome::Differs("factor store".to_string());
    }
    if !catch_unwind(|| same_run(bytes)).unwrap_or(true) {
        return Outcome::Differs("message or marginal store".to_string());
    }
    match catch_unwind(|| expected(bytes)) {
        Err(_) => Outcome::Differs("the original disagrees with document 01".to_string()),
        Ok(Err(_)) => Outcome::Outside(beside_the_original(bytes, &text)),
        Ok(Ok(wanted)) if wanted.as_bytes() == text => Outcome::Same(kind_of(&wanted)),
        Ok(Ok(wanted)) => Outcome::Differs(format!("wanted {wanted:?}, got {:?}", String::from_utf8_lossy(&text))),
    }
}

/// Done, or the refusal and its stage.
pub fn kind_of(text: &str) -> String {
    match text.split(' ').collect::<Vec<_>>()[..] {
        ["refused", number, stage, _] => format!("refused {number:>2} at stage {stage}"),
        [""] => "done, no keys".to_string(),
        _ => "done".to_string(),
    }
}

/// The number that no job writes, in the rest of the store.
pub const UNTOUCHED: u64 = 0x7FF4_DEAD_BEEF_0001;

/// The numbers of the accepted factors, superseded ones too, and nothing behind them.
fn same_store(bytes: &[u8]) -> bool {
    let mut store = [f64::from_bits(UNTOUCHED); FACTOR_STORE];
    ours::store(bytes, &mut store);
    let accepted: Vec<f64> = job::read(bytes).graph.all.factors().iter().flat_map(numbers).copied().collect();
    begins_with(&store, &accepted)
}

/// The finished messages of a run, forward ones first, and the marginals of one that is done; nothing behind them. Outside the
/// domain there is nothing to compare with.
fn same_run(bytes: &[u8]) -> bool {
    let Read { graph, refusal } = job::read(bytes);
    let order: Vec<usize> = graph.all.keys().collect();
    let wanted = run(&graph, &order);
    if refusal.is_some() || matches!(wanted.end, Some(End::Outside(_))) {
        return true;
    }
    let mut messages = [f64::from_bits(UNTOUCHED); MESSAGE_STORE];
    let mut marginals = [f64::from_bits(UNTOUCHED); ours::MARGINALS];
    ours::repeat(bytes, 1, &mut messages, &mut marginals);
    begins_with(&messages, &wanted.message_numbers()) && begins_with(&marginals, &wanted.marginal_numbers())
}

/// These numbers, bit by bit, and nothing written behind them.
pub fn begins_with(store: &[f64], wanted: &[f64]) -> bool {
    starts_with(store, wanted) && store[wanted.len()..].iter().all(|x| x.to_bits() == UNTOUCHED)
}

/// These numbers, bit by bit.
pub fn starts_with(store: &[f64], wanted: &[f64]) -> bool {
    wanted.len() <= store.len() && store.iter().zip(wanted).all(|(x, y)| x.to_bits() == y.to_bits())
}

/// How the original's own run, which document 01 doesn't follow there, compares with ours.
fn beside_the_original(bytes: &[u8], text: &[u8]) -> String {
    let ours = if text.starts_with(b"refused") { "refused" } else { "done" };
    let theirs =
        match catch_unwind(|| Smoother::new(job::read(bytes).graph.live().graph).run().map(|found| lines(&found))) {
            Err(_) => "panics",
            Ok(Err(_)) => "fails",
            Ok(Ok(found)) if found.as_bytes() == text => "the same",
            Ok(Ok(_)) => "another text",
        };
    format!("ours {ours}, the original's run: {theirs}")
}
