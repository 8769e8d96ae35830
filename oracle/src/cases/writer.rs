//! Writes the records of a job.
use crate::job::{GIVEN, IDENTITY, QUARTER};

/// A job as its records, so that a recorded case can show one a line.
#[derive(Clone, Default)]
pub struct Job {
    pub records: Vec<Vec<u8>>,
    sizes: Vec<usize>,
}

fn bytes(numbers: &[f64]) -> Vec<u8> {
    numbers.iter().flat_map(|x| x.to_le_bytes()).collect()
}

pub fn identity(size: usize) -> Vec<f64> {
    (0..size * size).map(|at| if at % size == at / size { 1.0 } else { 0.0 }).collect()
}

impl Job {
    pub fn new() -> Job {
        Job::default()
    }

    /// Variables a0, a1, ... of these sizes.
    pub fn with(sizes: &[usize]) -> Job {
        sizes.iter().fold(Job::new(), |job, &size| job.variable(size))
    }

    pub fn raw(mut self, record: &[u8]) -> Job {
        self.records.push(record.to_vec());
        self
    }

    fn record(self, mark: &[u8], parts: &[&[u8]]) -> Job {
        self.raw(&[mark, &parts.concat()].concat())
    }

    pub fn variable(self, size: usize) -> Job {
        let index = self.sizes.len() as u32;
        self.named('a' as u32, index, size)
    }

    pub fn named(mut self, letter: u32, index: u32, size: usize) -> Job {
        self.sizes.push(size);
        self.record(b"VA", &[&letter.to_le_bytes(), &index.to_le_bytes(), &[size as u8]])
    }

    pub fn prior(self, key: usize, mean: &[f64], variance: &[f64]) -> Job {
        self.record(b"PR", &[&[key as u8], &bytes(mean), &bytes(variance)])
    }

    /// A prior with a mean of zeros and this on the variance's diagonal.
    pub fn plain_prior(self, key: usize, variance: f64) -> Job {
        let size = self.sizes[key];
        let diagonal: Vec<f64> = identity(size).iter().map(|unit| unit * variance).collect();
        self.prior(key, &vec![0.0; size], &diagonal)
    }

    /// An observation with its variance.
    pub fn observation(self, keys: &[usize], a: &[f64], mean: &[f64], variance: &[f64]) -> Job {
        self.observed(keys, mean.len(), GIVEN, &[a, mean, variance].concat())
    }

    /// An observation with the identity as its variance.
    pub fn unit_observation(self, keys: &[usize], a: &[f64], mean: &[f64]) -> Job {
        self.observed(keys, mean.len(), IDENTITY, &[a, mean].concat())
    }

    /// An observation whose variance is left out: a quarter on the diagonal.
    pub fn quarter_observation(self, keys: &[usize], a: &[f64], mean: &[f64]) -> Job {
        self.observed(keys, mean.len(), QUARTER, &[a, mean].concat())
    }

    /// An observation whose header and numbers need not fit.
    pub fn observed(self, keys: &[usize], rows: usize, flag: u8, numbers: &[f64]) -> Job {
        let keys: Vec<u8> = keys.iter().map(|&key| key as u8).collect();
        let header = [keys.len() as u8, rows as u8, flag];
        self.record(b"OB", &[&header, &keys, &bytes(numbers)])
    }

    /// The record that `add` adds, in the place of the factor of this number (C-11).
    pub fn superseding(self, number: usize, add: impl FnOnce(Job) -> Job) -> Job {
        let mut job = add(self);
        let record = job.records.pop().unwrap();
        job.record(b"SU", &[&[number as u8], &record])
    }

    /// Without the last bytes of its last record.
    pub fn cut(mut self, count: usize) -> Job {
        let last = self.records.last_mut().unwrap();
        last.truncate(last.len() - count);
        self
    }

    /// Its first bytes.
    pub fn first(&self, mut count: usize) -> Job {
        let mut job = Job::new();
        for record in &self.records {
            let taken = record.len().min(count);
            if taken > 0 {
                job = job.raw(&record[..taken]);
            }
            count -= taken;
        }
        job
    }

    pub fn size(&self, key: usize) -> usize {
        self.sizes[key]
    }

    pub fn keys(&self) -> usize {
        self.sizes.len()
    }

    /// Total size of these keys.
    pub fn width(&self, keys: &[usize]) -> usize {
        keys.iter().map(|&key| self.sizes[key]).sum()
    }

    pub fn bytes(&self) -> Vec<u8> {
        self.records.concat()
    }
}
