//! Pieces of work on as many threads as there are processors, each thread in a scratch folder of its own; and two at
//! the same moment.
use std::fs;
use std::path::Path;
use std::sync::atomic::{AtomicUsize, Ordering};
use std::sync::Barrier;

/// Does pieces 0 to n-1; the work is handed a piece's number and the folder.
pub fn in_parallel(folder: &Path, n: usize, work: impl Fn(usize, &Path) + Sync) {
    let next = AtomicUsize::new(0);
    let threads = std::thread::available_parallelism().map_or(1, |n| n.get());
    std::thread::scope(|scope| {
        for thread in 0..threads {
            let (next, work) = (&next, &work);
            scope.spawn(move || {
                let scratch = folder.join(format!("scratch-{thread}"));
                loop {
                    let i = next.fetch_add(1, Ordering::Relaxed);
                    if i >= n {
                        break;
                    }
                    work(i, &scratch);
                }
                let _ = fs::remove_dir_all(&scratch);
            });
        }
    });
}

/// Pieces 0 and 1, which begin together.
pub fn both_at_once<R: Send>(work: impl Fn(usize) -> R + Sync) -> [R; 2] {
    let barrier = Barrier::new(2);
    let begin = |i| {
        barrier.wait();
        work(i)
    };
    std::thread::scope(|scope| {
        let begin = &begin;
        let both = [0, 1].map(|i| scope.spawn(move || begin(i)));
        both.map(|one| one.join().expect("the piece ends"))
    })
}
