//! The graphs that are timed.
use oracle::cases::graphs::{Style, chain, graph, prior, ring};
use oracle::cases::{Job, Random};
use oracle::job;

pub struct Graph {
    pub name: String,
    pub job: Job,
}

impl Graph {
    pub fn keys(&self) -> usize {
        job::read(&self.job.bytes()).graph.n_keys()
    }

    pub fn factors(&self) -> usize {
        job::read(&self.job.bytes()).graph.n_factors()
    }
}

const SEED: u64 = 20_491;

fn named(name: &str, job: Job) -> Graph {
    Graph { name: name.to_string(), job }
}

/// A prior on every key, and these links of so many rows.
fn linked(random: &mut Random, sizes: &[usize], links: &[Vec<usize>], most_rows: usize) -> Job {
    graph(random, sizes, links, Style { most_rows, priors: 100, scale: 0 })
}

/// The panel of the examples, then each shape at its limit, then chains that grow.
pub fn all(examples: &str) -> Vec<Graph> {
    let random = &mut Random::new(SEED);
    let panel = std::fs::read(format!("{examples}/panel.job")).expect("examples/panel.job");
    let sixty_four = (0..49).fold(linked(random, &[4; 8], &chain(8), 3), |job, at| prior(random, job, at % 8, 0));
    let mut graphs = vec![
        named("panel", Job::new().raw(&panel)),
        named("chain-32x1", linked(random, &[1; 32], &chain(32), 1)),
        named("chain-5x6", linked(random, &[6; 5], &chain(5), 6)),
        named("loop-16x2", linked(random, &[2; 16], &ring(16), 2)),
        named("factors-64", sixty_four),
        named("one-key", Job::with(&[1]).prior(0, &[2.0], &[4.0])),
    ];
    for keys in [4, 8, 16, 24, 32] {
        graphs.push(named(&format!("chain-{keys}"), linked(random, &vec![1; keys], &chain(keys), 1)));
    }
    graphs
}
