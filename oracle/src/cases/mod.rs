//! Recorded jobs: what `strips` must print for each, in one readable file.
//!
//! A line begins with what it is: `=` the name of the next case, `<` a record of its job in hexadecimal, `>` a line that is
//! printed, `#` a remark. A case ends where the next begins.
mod flags;
pub mod graphs;
pub mod limits;
pub mod ordered;
pub mod orders;
mod pairs;
mod random;
mod reading;
mod refusals;
mod registration;
mod superseding;
pub mod symmetry;
pub mod tolerance;
mod writer;

pub use graphs::any_graph;
pub use random::{Random, two_to};
pub use writer::{Job, identity};

use crate::run::expected;
use nalgebra::tolerance::published;

pub struct Case {
    pub name: String,
    pub records: Vec<Vec<u8>>,
    pub prints: String,
}

impl Case {
    pub fn job(&self) -> Vec<u8> {
        self.records.concat()
    }
}

/// Cases under way.
#[derive(Default)]
pub struct Cases {
    all: Vec<Case>,
}

impl Cases {
    /// A job that is in the domain.
    fn add(&mut self, name: impl Into<String>, job: Job) {
        let name = name.into();
        let prints = expected(&job.bytes()).unwrap_or_else(|outside| panic!("{name}: {outside}"));
        self.all.push(Case { name, records: job.records, prints });
    }

    /// The same text for the last two jobs.
    fn last_two_print_alike(&self) {
        let [.., one, other] = &self.all[..] else { return };
        assert_eq!(one.prints, other.prints, "{}", other.name);
    }

    /// A job whose live factors are those of another job, in the same order, and which prints the same.
    fn add_as(&mut self, name: impl Into<String>, job: Job, live: Job) {
        let name = name.into();
        assert_eq!(expected(&job.bytes()), expected(&live.bytes()), "{name}");
        self.add(name, job);
    }

    /// The first job drawn that is in the domain and prints what is wanted by the published rule for pivots. So a rule that was
    /// added by request changes answers, and never which jobs are recorded. Each name has random numbers of its own, so that a job
    /// drawn otherwise changes no other.
    fn draw(&mut self, name: impl Into<String>, make: impl Fn(&mut Random) -> Job, wanted: impl Fn(&str) -> bool) {
        let name = name.into();
        let mut random = Random::named(&name);
        for _ in 0..DRAWS {
            let job = make(&mut random);
            if published(|| expected(&job.bytes())).is_ok_and(|prints| wanted(&prints)) {
                return self.add(name, job);
            }
        }
        panic!("{name}: not found in {DRAWS} draws");
    }
}

const DRAWS: usize = 20_000;

/// Marginals were printed.
fn succeeds(prints: &str) -> bool {
    !prints.is_empty() && !prints.starts_with("refused")
}

/// Every case, always the same.
pub fn all() -> Vec<Case> {
    let mut cases = Cases::default();
    pairs::add(&mut cases);
    reading::add(&mut cases);
    registration::add(&mut cases);
    limits::add(&mut cases);
    graphs::add(&mut cases);
    refusals::add(&mut cases);
    tolerance::add(&mut cases);
    symmetry::add(&mut cases);
    flags::add(&mut cases);
    superseding::add(&mut cases);
    cases.all
}

pub fn write(cases: &[Case]) -> String {
    let mut text = String::from("# = name, < record of the job in hexadecimal, > line printed\n");
    for case in cases {
        text += &format!("= {}\n", case.name);
        for record in &case.records {
            let digits: String = record.iter().map(|byte| format!("{byte:02x}")).collect();
            text += &format!("< {digits}\n");
        }
        case.prints.lines().for_each(|line| text += &format!("> {line}\n"));
    }
    text
}

/// Reads what `write` writes; none where a line isn't one of its lines.
pub fn read(text: &str) -> Option<Vec<Case>> {
    let mut cases: Vec<Case> = Vec::new();
    for line in text.lines() {
        let (kind, rest) = line.split_at_checked(2)?;
        match kind {
            "# " => {}
            "= " => cases.push(Case { name: rest.to_string(), records: Vec::new(), prints: String::new() }),
            "< " => cases.last_mut()?.records.push(record(rest)?),
            "> " => cases.last_mut()?.prints += &format!("{rest}\n"),
            _ => return None,
        }
    }
    Some(cases)
}

fn record(digits: &str) -> Option<Vec<u8>> {
    let byte = |at: usize| u8::from_str_radix(digits.get(at..at + 2)?, 16).ok();
    (0..digits.len()).step_by(2).map(byte).collect()
}

/// How many cases print marginals, nothing, or each refusal at each stage.
pub fn figures(cases: &[Case]) -> Vec<(String, usize)> {
    let mut kinds: Vec<String> = cases.iter().map(|case| kind(&case.prints)).collect();
    kinds.sort();
    kinds.chunk_by(|a, b| a == b).map(|same| (same[0].clone(), same.len())).collect()
}

/// Marginals, nothing, or the refusal and its stage.
pub fn kind(prints: &str) -> String {
    match prints.split(' ').collect::<Vec<_>>()[..] {
        ["refused", number, stage, _] => format!("refused {number:>2} at stage {stage}"),
        [""] => "nothing printed".to_string(),
        _ => "marginals".to_string(),
    }
}
