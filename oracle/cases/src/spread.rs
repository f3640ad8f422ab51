//! Work on many cases, spread over the cores at hand.

use std::thread;

/// Calls `work` once on each core with the indices that are its share, and gives what came back.
/// The shares interleave, so that each worker gets its part of the costly cases.
pub fn spread<T: Send>(
    count: u64,
    work: impl Fn(&mut dyn Iterator<Item = u64>) -> T + Sync,
) -> Vec<T> {
    let cores = thread::available_parallelism().map_or(1, |n| n.get());
    let work = &work;
    thread::scope(|scope| {
        let share = |core: usize| move || work(&mut (core as u64..count).step_by(cores));
        let running: Vec<_> = (0..cores).map(|core| scope.spawn(share(core))).collect();
        running.into_iter().map(|worker| worker.join().expect("a worker panicked")).collect()
    })
}
