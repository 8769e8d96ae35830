//! The refusals that a job can meet, with the numbers of documents 01 and 02.
use std::fmt;

/// A refusal's number is its case's value.
#[derive(Debug, Clone, Copy, PartialEq, Eq, PartialOrd, Ord)]
pub enum Reason {
    Letter = 1,
    Size = 2,
    KeysNotRising = 3,
    Count = 4,
    NumberNotFinite = 6,
    VariancePivot = 7,
    Malformed = 8,
    NameTaken = 10,
    NoSuchKey = 11,
    PastLimit = 12,
    FactorStoreShort = 13,
    MessageStoreShort = 14,
    ClearedPivot = 15,
    MarginalPivot = 16,
    ResultNotFinite = 17,
    NotLive = 19,
    NotSymmetric = 20,
    OrderUnlike = 21,
}

/// A stage's number is its case's value.
#[derive(Debug, Clone, Copy, PartialEq, Eq, PartialOrd, Ord)]
pub enum Stage {
    Reading = 0,
    Forward = 1,
    Backward = 2,
    Marginals = 3,
}

/// The place is a record while reading, a key in the run.
#[derive(Debug, Clone, Copy, PartialEq, Eq, PartialOrd, Ord)]
pub struct Refusal {
    pub reason: Reason,
    pub stage: Stage,
    pub place: usize,
}

impl fmt::Display for Refusal {
    fn fmt(&self, f: &mut fmt::Formatter<'_>) -> fmt::Result {
        write!(f, "refused {} {} {}", self.reason as u32, self.stage as u32, self.place)
    }
}
