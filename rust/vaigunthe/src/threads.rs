//! Work on many things, by all cores.

use std::sync::atomic::{AtomicUsize, Ordering};
use std::sync::mpsc;
use std::thread;

/// What comes of the work on each, in order. `done` is told each time how many are done; when this returns no other thread is left.
pub fn map<T: Sync, R: Send>(
    items: &[T],
    work: impl Fn(usize, &T) -> R + Sync,
    mut done: impl FnMut(usize),
) -> Vec<R> {
    let cores = thread::available_parallelism().map_or(1, |cores| cores.get());
    let next = AtomicUsize::new(0);
    let take = || {
        let place = next.fetch_add(1, Ordering::Relaxed);
        items.get(place).map(|item| (place, item))
    };
    let (sender, receiver) = mpsc::channel();
    let mut results: Vec<Option<R>> = items.iter().map(|_| None).collect();
    thread::scope(|scope| {
        for _ in 0..cores.min(items.len()) {
            let (sender, work, take) = (sender.clone(), &work, &take);
            scope.spawn(move || {
                while let Some((place, item)) = take() {
                    let result = work(place, item);
                    // Whoever takes the results is there until all are taken.
                    let _ = sender.send((place, result));
                }
            });
        }
        drop(sender);
        for (before, (place, result)) in receiver.iter().enumerate() {
            results[place] = Some(result);
            done(before + 1);
        }
    });
    let each = results.into_iter();
    each.map(|result| result.expect("each is worked on"))
        .collect()
}

#[cfg(test)]
mod tests {
    use super::*;
    use std::time::{Duration, Instant};

    #[test]
    fn results_in_order() {
        let mut steps = Vec::new();
        let items: Vec<u64> = (0..100).collect();
        let results = map(
            &items,
            |place, item| {
                thread::sleep(Duration::from_micros(item * 7_919 % 1_000));
                (place, item * 2)
            },
            |done| steps.push(done),
        );
        assert!(results
            .iter()
            .enumerate()
            .all(|(at, &(place, double))| { place == at && double == at as u64 * 2 }));
        assert_eq!((results.len(), steps), (100, (1..=100).collect()));
        assert_eq!(map(&[] as &[u8], |_, _| 0, |_| ()), [0; 0]);
    }

    /// As many threads as there are cores are at work at the same time.
    #[test]
    fn all_cores() {
        let cores = thread::available_parallelism().map_or(1, |cores| cores.get());
        let (inside, start) = (AtomicUsize::new(0), Instant::now());
        let work = |_, _: &u8| {
            inside.fetch_add(1, Ordering::SeqCst);
            let met = || inside.load(Ordering::SeqCst) == cores;
            while !met() && start.elapsed() < Duration::from_secs(20) {
                thread::sleep(Duration::from_millis(1));
            }
            met()
        };
        assert!(map(&vec![0; cores], work, |_| ())
            .into_iter()
            .all(|met| met));
    }
}
