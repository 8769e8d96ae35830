//! The library's calls for C. A slice is a pointer and a length.
use oracle::job::{FACTOR_STORE, MESSAGE_STORE};

unsafe extern "C" {
    fn strips_solve(job: *const u8, job_length: usize, out: *mut u8, out_length: usize) -> usize;
    fn strips_store(job: *const u8, job_length: usize, store: *mut f64, store_length: usize);
    fn strips_eliminate(
        job: *const u8,
        job_length: usize,
        slots: *const usize,
        slot_count: usize,
        kept: *const usize,
        kept_count: usize,
        cleared: *const usize,
        cleared_count: usize,
        messages: *mut f64,
        length: usize,
    ) -> usize;
    fn strips_repeat(
        job: *const u8,
        job_length: usize,
        times: usize,
        messages: *mut f64,
        message_length: usize,
        marginals: *mut f64,
        marginal_length: usize,
    );
    fn strips_plan(job: *const u8, job_length: usize, times: usize) -> usize;
    fn strips_root(pivot: f64) -> f64;
    fn strips_lookup(keys: *const u8, key_count: usize, key: usize) -> usize;
    fn strips_ordered(
        job: *const u8,
        job_length: usize,
        order: *const u8,
        order_length: usize,
        out: *mut u8,
        out_length: usize,
    ) -> usize;
    fn strips_ordered_plan(
        job: *const u8,
        job_length: usize,
        order: *const u8,
        order_length: usize,
        out: *mut u8,
        out_length: usize,
    ) -> usize;
    fn strips_ordered_run(
        job: *const u8,
        job_length: usize,
        order: *const u8,
        order_length: usize,
        messages: *mut f64,
        message_length: usize,
        marginals: *mut f64,
        marginal_length: usize,
    ) -> usize;
}

/// Room for the longest text.
pub const OUTPUT: usize = 32_768;

/// Lays what a job prints at the start of a buffer; its length.
pub fn solve(job: &[u8], out: &mut [u8]) -> usize {
    // Both are lent whole, with their own lengths.
    unsafe { strips_solve(job.as_ptr(), job.len(), out.as_mut_ptr(), out.len()) }
}

/// Reads a job only; its factors' numbers go to the start of the store.
pub fn store(job: &[u8], store: &mut [f64; FACTOR_STORE]) {
    // Both are lent whole, with their own lengths.
    unsafe { strips_store(job.as_ptr(), job.len(), store.as_mut_ptr(), store.len()) }
}

/// Room for the marginals of every job.
pub const MARGINALS: usize = 224;

/// Reads a job once and runs it so many times.
pub fn repeat(job: &[u8], times: usize, messages: &mut [f64; MESSAGE_STORE], marginals: &mut [f64; MARGINALS]) {
    // Each is lent whole, with its own length.
    unsafe {
        strips_repeat(
            job.as_ptr(),
            job.len(),
            times,
            messages.as_mut_ptr(),
            messages.len(),
            marginals.as_mut_ptr(),
            marginals.len(),
        )
    }
}

/// Reads a job once and makes its plan so many times; its forward messages.
pub fn plan(job: &[u8], times: usize) -> usize {
    // The job is lent whole, with its own length.
    unsafe { strips_plan(job.as_ptr(), job.len(), times) }
}

/// The root of a pivot.
pub fn root(pivot: f64) -> f64 {
    // A number in, a number out.
    unsafe { strips_root(pivot) }
}

/// The lookup of a key: 256 times the keys read, and its place, or 255 where it isn't there.
pub fn lookup(keys: &[u8], key: usize) -> usize {
    // The keys are lent whole, with their own length.
    unsafe { strips_lookup(keys.as_ptr(), keys.len(), key) }
}

/// The mark of a refusal among the answers of `eliminate`.
pub const REFUSED: usize = 0x10000;

/// A direct elimination over the factors of a job: rows, or a refusal's number under the mark.
pub fn eliminate(job: &[u8], slots: &[usize], kept: &[usize], cleared: &[usize], messages: &mut [f64]) -> usize {
    // Each is lent whole, with its own length.
    unsafe {
        strips_eliminate(
            job.as_ptr(),
            job.len(),
            slots.as_ptr(),
            slots.len(),
            kept.as_ptr(),
            kept.len(),
            cleared.as_ptr(),
            cleared.len(),
            messages.as_mut_ptr(),
            messages.len(),
        )
    }
}

/// Room for every text of a job or of a plan under an order.
pub const TEXT: usize = 65_536;

/// What a text call answers where the buffer is too short.
pub const TOO_LONG: usize = usize::MAX;

/// Lays what a job prints under an order at the start of a buffer; its length.
pub fn ordered(job: &[u8], order: &[u8], out: &mut [u8]) -> usize {
    // Each is lent whole, with its own length.
    unsafe { strips_ordered(job.as_ptr(), job.len(), order.as_ptr(), order.len(), out.as_mut_ptr(), out.len()) }
}

/// Lays the plan of a job under an order at the start of a buffer; its length.
pub fn ordered_plan(job: &[u8], order: &[u8], out: &mut [u8]) -> usize {
    // Each is lent whole, with its own length.
    unsafe { strips_ordered_plan(job.as_ptr(), job.len(), order.as_ptr(), order.len(), out.as_mut_ptr(), out.len()) }
}

/// Runs a job under an order: the figure times 2^32, and the number of a refusal or 0.
pub fn ordered_run(job: &[u8], order: &[u8], messages: &mut [f64], marginals: &mut [f64]) -> usize {
    // Each is lent whole, with its own length.
    unsafe {
        strips_ordered_run(
            job.as_ptr(),
            job.len(),
            order.as_ptr(),
            order.len(),
            messages.as_mut_ptr(),
            messages.len(),
            marginals.as_mut_ptr(),
            marginals.len(),
        )
    }
}
