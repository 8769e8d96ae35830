//! A job and the same job with one observation more at its end (C-23): up to the step of the observation's first key both plans must have the
//! same forward messages.
use oracle::cases::{Job, Random};
use oracle::job::{self, KEYS};

use crate::jobs::some_keys;
use crate::jobs::superseding::{is_superseding, observation};
use crate::ours::{self, TEXT};

/// A forward message, as a plan's text tells it.
#[derive(Debug, Clone, PartialEq, Eq)]
pub struct Message {
    pub place: usize,
    pub step: usize,
    pub content: Vec<String>,
    pub kept: Vec<usize>,
    pub cleared: Vec<usize>,
}

impl Message {
    fn read(line: &str) -> Option<Message> {
        let words: Vec<&str> = line.split(' ').collect();
        let place = |name: &str| words.iter().position(|&word| word == name);
        let (content, kept, cleared) = (place("content")?, place("kept")?, place("cleared")?);
        let numbers = |words: &[&str]| words.iter().map(|word| word.parse().ok()).collect::<Option<Vec<usize>>>();
        let &["forward", place, "step", step] = &words[..content] else { return None };
        Some(Message {
            place: place.parse().ok()?,
            step: step.parse().ok()?,
            content: words[content + 1..kept].iter().map(|word| word.to_string()).collect(),
            kept: numbers(&words[kept + 1..cleared])?,
            cleared: numbers(&words[cleared + 1..])?,
        })
    }

    /// With its content in an order that goes by what it holds.
    fn sorted(&self) -> Message {
        let mut message = self.clone();
        message.content.sort();
        message
    }
}

/// The forward messages of a plan's text, which begins with them.
pub fn forward(text: &str) -> Vec<Message> {
    let lines = text.lines().take_while(|line| line.starts_with("forward "));
    lines.map(|line| Message::read(line).unwrap_or_else(|| panic!("{line:?} is no message"))).collect()
}

/// What is counted of a pair of plans.
#[derive(Debug, Clone, Copy, Default, PartialEq, Eq, PartialOrd, Ord)]
pub struct Met {
    /// There are messages up to the step.
    pub some: bool,
    /// The content of one of them stands in another order.
    pub reordered: bool,
    /// The message of the next step isn't the same.
    pub next_differs: bool,
    /// The observation has no keys.
    pub keyless: bool,
    /// The job has superseding records.
    pub superseding: bool,
}

/// The messages of steps up to t in both, one by one, or what differs first.
pub fn compare(old: &[Message], new: &[Message], t: usize) -> Result<Met, String> {
    let early = |messages: &[Message]| messages.iter().filter(|message| message.step <= t).cloned().collect::<Vec<_>>();
    let (old_early, new_early) = (early(old), early(new));
    if old_early.iter().map(Message::sorted).ne(new_early.iter().map(Message::sorted)) {
        return Err(format!("up to step {t}: {old_early:?} and {new_early:?}"));
    }
    let next = |messages: &[Message]| messages.iter().find(|message| message.step == t + 1).map(Message::sorted);
    Ok(Met {
        some: !old_early.is_empty(),
        reordered: old_early != new_early,
        next_differs: next(old) != next(new),
        ..Met::default()
    })
}

/// The job as far as it is accepted, and an observation for its end whose first key, or if it has none the number of keys, is told with it.
pub fn draw(random: &mut Random, mut job: Job) -> (Job, Job, usize) {
    // In a damaged job the record that is refused need not be the one of that place.
    while let Some(refusal) = job::read(&job.bytes()).refusal {
        job.records.truncate(refusal.place.min(job.records.len() - 1));
    }
    // Nor need its variables be those that it was drawn with.
    let keys = keys(&job).min(job.keys());
    let first = random.below(keys + 1);
    let touched = if first == keys || random.chance(5) {
        Vec::new()
    } else {
        some_keys(random, keys - first, KEYS).iter().map(|key| first + key).collect()
    };
    let extended = observation(random, job.clone(), &touched);
    (job, extended, touched.first().copied().unwrap_or(keys))
}

/// The registered keys.
fn keys(job: &Job) -> usize {
    job::read(&job.bytes()).graph.all.n_keys()
}

/// Both plans with keys rising; none where the observation isn't accepted, as in a full graph.
pub fn pair(job: &Job, extended: &Job, t: usize) -> Option<Result<Met, String>> {
    if job::read(&extended.bytes()).refusal.is_some() {
        return None;
    }
    let rising: Vec<u8> = (0..keys(job) as u8).collect();
    let plan = |job: &Job| {
        let mut out = vec![0; TEXT];
        let length = ours::ordered_plan(&job.bytes(), &rising, &mut out);
        String::from_utf8(out[..length].to_vec()).unwrap()
    };
    let (old, new) = (plan(job), plan(extended));
    if [&old, &new].iter().any(|text| text.starts_with("refused")) {
        return Some(Err(format!("{old:?} and {new:?}")));
    }
    let superseding = job.records.iter().any(|record| is_superseding(record));
    Some(compare(&forward(&old), &forward(&new), t).map(|met| Met { keyless: t == rising.len(), superseding, ..met }))
}
