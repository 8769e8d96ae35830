//! The original over stand-ins for its matrix library and its error crate: the judge of schedules, messages, marginals and
//! failures on the domain of document 01. Around it: the job file, the plan and the refusals, written from document 01.
include!(concat!(env!("OUT_DIR"), "/original.rs"));

pub mod cases;
pub mod graph;
pub mod input;
pub mod job;
pub mod order;
pub mod plan;
mod plan_text;
pub mod refusal;
pub mod run;

pub use nalgebra::tolerance;
