//! The library under comparison, called through its archives, and the jobs that both sides are given.
pub mod dealing;
pub mod direct;
pub mod jobs;
pub mod late;
pub mod ordered;
pub mod orders;
pub mod ours;
pub mod outcome;
