//! The same work on all processors.

use std::thread;

/// Runs `work` in as many threads as there are processors, and hands back what they give.
pub fn in_threads<T: Send>(work: impl Fn() -> T + Sync) -> Vec<T> {
    let count = thread::available_parallelism().map_or(1, |count| count.get());
    thread::scope(|scope| {
        let threads: Vec<_> = (0..count).map(|_| scope.spawn(&work)).collect();
        let given = threads.into_iter().map(|thread| thread.join());
        given.map(|given| given.expect("no difference")).collect()
    })
}
