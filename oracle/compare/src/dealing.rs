//! Numbers dealt out to threads, and their counts added up.
use std::collections::BTreeMap;

/// What is counted of 0 to `count` - 1, dealt out to the threads in turn.
pub fn dealt<K: Ord + Send>(
    count: u64,
    threads: u64,
    some: impl Fn(std::iter::StepBy<std::ops::Range<u64>>) -> BTreeMap<K, u64> + Sync,
) -> BTreeMap<K, u64> {
    let some = &some;
    std::thread::scope(|scope| {
        let workers: Vec<_> =
            (0..threads).map(|first| scope.spawn(move || some((first..count).step_by(threads as usize)))).collect();
        let mut all = BTreeMap::new();
        for worker in workers {
            worker.join().unwrap().into_iter().for_each(|(key, n)| *all.entry(key).or_default() += n);
        }
        all
    })
}
