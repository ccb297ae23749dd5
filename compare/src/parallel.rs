//! A search on all processors.

use std::ops::Range;
use std::panic::{catch_unwind, resume_unwind, AssertUnwindSafe};
use std::sync::atomic::{AtomicU64, Ordering::Relaxed};
use std::thread;

/// The lowest of the numbers where `look` finds something, and what it finds: the same on any number of
/// processors. Numbers above it may have been looked at too.
pub fn lowest<T: Send>(numbers: Range<u64>, look: impl Fn(u64) -> Option<T> + Sync) -> Option<(u64, T)> {
    lowest_by(thread::available_parallelism().map_or(1, usize::from), numbers, look)
}

fn lowest_by<T: Send>(
    threads: usize,
    numbers: Range<u64>,
    look: impl Fn(u64) -> Option<T> + Sync,
) -> Option<(u64, T)> {
    // Numbers are given out in their order, so all below the lowest that is found are looked at to the end.
    let next = AtomicU64::new(0);
    let end = AtomicU64::new(numbers.end.saturating_sub(numbers.start));
    let search = || loop {
        let place = next.fetch_add(1, Relaxed);
        if place >= end.load(Relaxed) {
            return None;
        }
        let number = numbers.start + place;
        // A panic counts as found: it goes on only where nothing lower is found, as in a search by one thread.
        if let Some(found) = catch_unwind(AssertUnwindSafe(|| look(number))).transpose() {
            end.fetch_min(place, Relaxed);
            return Some((number, found));
        }
    };
    let found: Vec<_> = thread::scope(|scope| {
        let started: Vec<_> = (0..threads).map(|_| scope.spawn(search)).collect();
        started.into_iter().filter_map(|thread| thread.join().expect("panics are caught")).collect()
    });
    let (number, found) = found.into_iter().min_by_key(|(number, _)| *number)?;
    Some((number, found.unwrap_or_else(|panic| resume_unwind(panic))))
}

#[cfg(test)]
mod tests {
    use super::*;
    use std::sync::Mutex;
    use std::time::Duration;

    const THREADS: [usize; 4] = [1, 2, 3, 16];

    #[test]
    fn the_lowest_is_found_though_others_are_found_sooner() {
        for threads in THREADS {
            let found = lowest_by(threads, 10..u64::MAX, |number| {
                if number == 25 {
                    thread::sleep(Duration::from_millis(20));
                }
                (number >= 25).then_some(2 * number)
            });
            assert_eq!(found, Some((25, 50)), "{threads} threads");
        }
    }

    #[test]
    fn where_there_is_none_every_number_is_looked_at_once() {
        for threads in THREADS {
            let seen = Mutex::new(Vec::new());
            let found = lowest_by(threads, 3..400, |number| {
                seen.lock().unwrap().push(number);
                None::<()>
            });
            let mut seen = seen.into_inner().unwrap();
            seen.sort();
            assert!(found.is_none() && seen.into_iter().eq(3..400), "{threads} threads");
        }
        assert_eq!(lowest(5..5, Some), None);
        assert_eq!(lowest(u64::MAX - 2..u64::MAX, |_| None::<()>), None);
    }

    #[test]
    fn a_panic_goes_on_unless_something_lower_is_found() {
        let look = |number| {
            assert_ne!(number, 31, "planted");
            (number == 30).then_some(())
        };
        for threads in THREADS {
            assert_eq!(lowest_by(threads, 0..100, look), Some((30, ())), "{threads} threads");
            let panicked = catch_unwind(|| lowest_by(threads, 31..100, look));
            assert!(panicked.is_err(), "{threads} threads");
        }
    }
}
