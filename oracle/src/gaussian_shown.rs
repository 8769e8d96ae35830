//! What the original's factors hold, seen from inside.
use super::*;

pub enum Shown<'a> {
    Prior { key: usize, xi: &'a [f64], w: &'a [f64] },
    Likelihood { keys: &'a [usize], rows: usize, a: &'a [f64], xi: &'a [f64], w: &'a [f64] },
}

pub fn likelihood(l: &Likelihood<f64>) -> Shown<'_> {
    Shown::Likelihood { keys: l.keys(), rows: l.dim_y(), a: &l.a.data, xi: &l.xiby.data, w: &l.wby.data }
}

pub fn factor(f: &Factor<f64>) -> Shown<'_> {
    match f {
        Factor::Prior(p) => Shown::Prior { key: p.key, xi: &p.xifx.data, w: &p.wfx.data },
        Factor::Likelihood(l) => likelihood(l),
    }
}
