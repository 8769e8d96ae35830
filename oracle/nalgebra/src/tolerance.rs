//! How small a pivot may be beside its diagonal entry, and how near the pivots of this thread came to that.
use std::cell::Cell;

/// 2^-40.
const TOLERANCE: f64 = 1.0 / (1_u64 << 40) as f64;

thread_local! {
    static USED: Cell<f64> = const { Cell::new(TOLERANCE) };
    static NEAREST: Cell<Option<i64>> = const { Cell::new(None) };
}

/// Sets the rule again, also where a run panics.
struct Published;

impl Drop for Published {
    fn drop(&mut self) {
        USED.set(TOLERANCE);
    }
}

/// With the published rule, by which a pivot need only be finite and above zero.
pub fn published<R>(run: impl FnOnce() -> R) -> R {
    let _until = Published;
    USED.set(0.0);
    run()
}

/// What a pivot must exceed beside a finite entry.
pub(crate) fn least(given: f64) -> f64 {
    USED.get() * given
}

/// How many floats a pivot is above what it must exceed counts where both are above zero.
pub(crate) fn note(pivot: f64, least: f64) {
    if pivot.is_finite() && pivot > 0.0 && least > 0.0 {
        let steps = pivot.to_bits() as i64 - least.to_bits() as i64;
        NEAREST.set(NEAREST.get().filter(|known| known.abs() <= steps.abs()).or(Some(steps)));
    }
}

/// The fewest steps from a pivot to what it must exceed since the last call, negative where it lies below.
pub fn nearest() -> Option<i64> {
    NEAREST.take()
}
