//! Pivots beside what they must exceed, 2^-40 of their diagonal entry (C-13): in a variance (7), in a block to be cleared (15) and in
//! a key's own information (16).
use super::{Cases, Job, Random, identity, two_to};

/// Square matrices whose pivots are 1 but for the last, which lies beside what it must exceed.
pub struct Beside {
    size: usize,
    /// Stands right of the diagonal in the first row and, in a symmetric matrix, below it in the first column.
    b: f64,
    /// The last pivot is e * e.
    e: f64,
    /// b * b + e * e, without error.
    d: f64,
}

impl Beside {
    /// The last entry d of a symmetric matrix is `units` floats above c * c, and the last pivot is 2^-40 of c * c: it is refused from
    /// 0 on. None where no b fits.
    fn new(size: usize, c: f64, units: i64) -> Option<Beside> {
        let (e, d) = (c * two_to(-20), f64::from_bits((c * c).to_bits().wrapping_add_signed(units)));
        let square = d - e * e;
        let root = square.sqrt().to_bits();
        let b = (root - 2..=root + 2).map(f64::from_bits).find(|b| b * b == square)?;
        (square + e * e == d).then_some(Beside { size, b, e, d })
    }

    /// The first that there is.
    fn first(size: usize, units: i64) -> Beside {
        (0..64).find_map(|at| Beside::new(size, 1.0 + at as f64 / 64.0, units)).unwrap()
    }

    /// The variance, with b and d.
    fn variance(&self) -> Vec<f64> {
        let (size, mut all) = (self.size, identity(self.size));
        (all[size - 1], all[size * (size - 1)], all[size * size - 1]) = (self.b, self.b, self.d);
        all
    }

    /// An upper triangle A with A'A the variance.
    fn triangle(&self) -> Vec<f64> {
        let (size, mut all) = (self.size, identity(self.size));
        (all[size * (size - 1)], all[size * size - 1]) = (self.b, self.e);
        all
    }
}

/// Where a pivot can stand.
const PLACES: [&str; 6] = ["prior", "observation", "forward", "backward", "last", "marginal"];

/// A job with the pivot at a place. If it is taken, all others are far above what they must exceed, or again this one: the other key's
/// prior is so narrow that it takes nothing from what is known of the first. The numbers given are scaled by a power of two.
fn job(place: &str, beside: &Beside, scale: f64) -> Job {
    let size = beside.size;
    let zeros = vec![0.0; size];
    let scaled = |numbers: Vec<f64>, by: f64| numbers.iter().map(|x| x * by).collect::<Vec<f64>>();
    let variance = || scaled(beside.variance(), scale * scale);
    let triangle = || scaled(beside.triangle(), scale);
    let (ones, narrow) = (vec![scale; size], two_to(-200));
    match place {
        "prior" => Job::with(&[size]).prior(0, &zeros, &variance()).plain_prior(0, two_to(-36) * scale * scale),
        "observation" => Job::with(&[1]).observation(&[0], &ones, &zeros, &variance()),
        "forward" => {
            Job::with(&[size, 1]).plain_prior(1, narrow).unit_observation(&[0, 1], &[triangle(), ones].concat(), &zeros)
        }
        "backward" => {
            Job::with(&[1, size]).plain_prior(0, narrow).unit_observation(&[0, 1], &[ones, triangle()].concat(), &zeros)
        }
        "last" => {
            // Keys 0 and 2 are cleared together for key 1.
            let a = [scale, 0.0, scale, -scale, scale * beside.b, scale * beside.e];
            Job::with(&[1; 3]).plain_prior(1, 1.0).unit_observation(&[0, 1, 2], &a, &[0.0; 2])
        }
        _ => Job::with(&[size]).unit_observation(&[0], &triangle(), &zeros),
    }
}

/// What is left of an entry of n units of 2^-1074, in a prior's variance: so many units.
fn subnormal(n: u64, left: u64) -> Job {
    let root = f64::from_bits(n - left).sqrt();
    let (first, below) = (two_to(-1000), root * two_to(-500));
    Job::with(&[2]).prior(0, &[0.0; 2], &[first, below, below, f64::from_bits(n)])
}

pub fn add(cases: &mut Cases) {
    for place in PLACES {
        for (units, side) in [(-1, "one-above"), (0, "at"), (1, "one-below")] {
            cases.add(format!("tolerance-{place}-{side}"), job(place, &Beside::first(2, units), 1.0));
        }
    }
    for place in PLACES.into_iter().filter(|place| *place != "last") {
        for (units, side) in [(-1, "one-above"), (0, "at")] {
            cases.add(format!("tolerance-{place}-{side}-of-size-6"), job(place, &Beside::first(6, units), two_to(7)));
        }
    }
    let (least, half) = (1 << 40, 1 << 39);
    cases.add("tolerance-subnormal-at", subnormal(least, 1));
    cases.add("tolerance-subnormal-one-above", subnormal(least, 2));
    cases.add("tolerance-rounded-to-zero", subnormal(half, 1));
    cases.add("tolerance-rounded-to-the-least", subnormal(half + 1, 1));
}

/// A job with a pivot within a few floats of what it must exceed.
pub fn beside(random: &mut Random) -> Job {
    if random.chance(10) {
        let n = (1 << 38) + random.below(1 << 42) as u64;
        let product = (n + (1 << 39)) >> 40;
        return subnormal(n, product.saturating_add_signed(random.between(-2, 2)).max(1));
    }
    loop {
        let (size, c) = (2 + random.below(5), 1.0 + random.below(64) as f64 / 64.0);
        let (units, scale) = (random.between(-3, 3), two_to(random.between(-30, 30)));
        if let Some(beside) = Beside::new(size, c, units) {
            return job(PLACES[random.below(PLACES.len())], &beside, scale);
        }
    }
}
