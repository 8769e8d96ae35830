//! Memory of one run: the heap of the original, counted; the stack of the library, painted.
use std::alloc::{GlobalAlloc, Layout, System};
use std::hint::black_box;
use std::mem::MaybeUninit;
use std::sync::atomic::{AtomicUsize, Ordering::Relaxed};

use compare::ours;
use oracle::job;
use oracle::solver::Smoother;

use crate::graphs::Graph;

pub struct Counted;

static LIVE: AtomicUsize = AtomicUsize::new(0);
static MOST: AtomicUsize = AtomicUsize::new(0);
static CALLS: AtomicUsize = AtomicUsize::new(0);

// Hands every call on to the system's allocator.
unsafe impl GlobalAlloc for Counted {
    unsafe fn alloc(&self, layout: Layout) -> *mut u8 {
        MOST.fetch_max(LIVE.fetch_add(layout.size(), Relaxed) + layout.size(), Relaxed);
        CALLS.fetch_add(1, Relaxed);
        unsafe { System.alloc(layout) }
    }

    unsafe fn dealloc(&self, at: *mut u8, layout: Layout) {
        LIVE.fetch_sub(layout.size(), Relaxed);
        unsafe { System.dealloc(at, layout) }
    }
}

pub const HEADINGS: &str = "ours: stack, heap calls | original: heap at most, heap calls (bytes; reading and run)";

pub fn used(graph: &Graph) {
    let bytes = graph.job.bytes();
    let mut out = vec![0; ours::OUTPUT];
    let before = CALLS.load(Relaxed);
    let stack = stack_of(|| {
        black_box(ours::solve(&bytes, &mut out));
    });
    let calls = CALLS.load(Relaxed) - before;
    let (start, before) = (LIVE.load(Relaxed), CALLS.load(Relaxed));
    MOST.store(start, Relaxed);
    drop(black_box(Smoother::new(job::read(&bytes).graph).run().unwrap()));
    let (heap, heap_calls) = (MOST.load(Relaxed) - start, CALLS.load(Relaxed) - before);
    println!("{:<12} {stack:>11} {calls:>11} | {heap:>22} {heap_calls:>11}", graph.name);
}

/// As deep as the library can be expected to go, and more.
const DEPTH: usize = 512 * 1024;
const PART: usize = 256;
const PROBE: usize = 8;
const PAINT: u8 = 0xA5;

#[inline(never)]
fn paint() {
    let mut below = MaybeUninit::<[u8; DEPTH]>::uninit();
    let at = below.as_mut_ptr().cast::<u8>();
    (0..DEPTH).for_each(|i| unsafe { at.add(i).write_volatile(PAINT) });
}

/// Bytes below this frame up to the deepest part that was written since. The frame itself is probed once a page, with 8
/// bytes, so a part counts where more than that is written.
#[inline(never)]
fn depth() -> usize {
    let below = MaybeUninit::<[u8; DEPTH]>::uninit();
    let at = below.as_ptr().cast::<u8>();
    let written =
        |part: usize| (0..PART).filter(|i| unsafe { at.add(part * PART + i).read_volatile() } != PAINT).count() > PROBE;
    (0..DEPTH / PART).find(|&part| written(part)).map_or(0, |first| DEPTH - first * PART)
}

#[inline(never)]
fn stack_of(call: impl FnOnce()) -> usize {
    paint();
    call();
    depth()
}

/// The largest resident size of this process, in KB.
pub fn peak() -> u64 {
    let status = std::fs::read_to_string("/proc/self/status").unwrap();
    let line = status.lines().find(|line| line.starts_with("VmHWM")).unwrap();
    line.split_whitespace().nth(1).unwrap().parse().unwrap()
}
