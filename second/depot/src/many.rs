//! Work on many items over all cores, whose results come in the order of the items.

use std::collections::BTreeMap;
use std::sync::{Condvar, Mutex, MutexGuard, PoisonError};
use std::thread;

/// How many items are under way or waiting to be taken, for each core.
const WINDOW: usize = 32;

/// Does `work` on each item in as many threads, and gives each result to `take` in the order of
/// the items. No more than some items are held at a time, so that memory doesn't grow with their
/// number. The first error, in that order, ends all.
pub fn in_order<I, T, E>(
    items: impl Iterator<Item = Result<I, E>> + Send,
    threads: usize,
    work: impl Fn(I) -> Result<T, E> + Sync,
    take: impl FnMut(T) -> Result<(), E>,
) -> Result<(), E>
where
    T: Send,
    E: Send,
{
    let shared = Shared {
        state: Mutex::new(State {
            items,
            given: 0,
            taken: 0,
            done: BTreeMap::new(),
            ended: false,
        }),
        changed: Condvar::new(),
        window: WINDOW * threads.max(1),
    };
    thread::scope(|scope| {
        for _ in 0..threads.max(1) {
            scope.spawn(|| shared.work(&work));
        }
        shared.take(take)
    })
}

struct State<Items, T, E> {
    items: Items,
    /// How many items were given out, and how many results were taken.
    given: usize,
    taken: usize,
    /// Results that wait for those before them.
    done: BTreeMap<usize, Result<T, E>>,
    /// No more items are given out.
    ended: bool,
}

struct Shared<Items, T, E> {
    state: Mutex<State<Items, T, E>>,
    changed: Condvar,
    window: usize,
}

impl<I, T, E, Items: Iterator<Item = Result<I, E>>> Shared<Items, T, E> {
    fn lock(&self) -> MutexGuard<'_, State<Items, T, E>> {
        self.state.lock().unwrap_or_else(PoisonError::into_inner)
    }

    fn wait<'a>(
        &self,
        state: MutexGuard<'a, State<Items, T, E>>,
    ) -> MutexGuard<'a, State<Items, T, E>> {
        let woken = self.changed.wait(state);
        woken.unwrap_or_else(PoisonError::into_inner)
    }

    /// The next item and its number, once there is room for its result.
    fn next(&self) -> Option<(usize, Result<I, E>)> {
        let mut state = self.lock();
        while !state.ended && state.given >= state.taken + self.window {
            state = self.wait(state);
        }
        if state.ended {
            return None;
        }
        match state.items.next() {
            Some(item) => {
                state.given += 1;
                Some((state.given - 1, item))
            }
            None => {
                state.ended = true;
                self.changed.notify_all();
                None
            }
        }
    }

    fn work(&self, work: &impl Fn(I) -> Result<T, E>) {
        // Where the work panics, nobody waits for what never comes.
        let end = EndOnPanic(self);
        while let Some((number, item)) = self.next() {
            let result = item.and_then(work);
            self.lock().done.insert(number, result);
            self.changed.notify_all();
        }
        drop(end);
    }

    fn take(&self, mut take: impl FnMut(T) -> Result<(), E>) -> Result<(), E> {
        loop {
            let mut state = self.lock();
            let number = state.taken;
            let result = loop {
                if let Some(result) = state.done.remove(&number) {
                    break result;
                }
                if state.ended && state.given <= number {
                    return Ok(());
                }
                state = self.wait(state);
            };
            state.taken += 1;
            drop(state);
            self.changed.notify_all();
            if let Err(error) = result.and_then(&mut take) {
                self.end();
                return Err(error);
            }
        }
    }

    fn end(&self) {
        self.lock().ended = true;
        self.changed.notify_all();
    }
}

struct EndOnPanic<'a, I, T, E, Items: Iterator<Item = Result<I, E>>>(&'a Shared<Items, T, E>);

impl<I, T, E, Items: Iterator<Item = Result<I, E>>> Drop for EndOnPanic<'_, I, T, E, Items> {
    fn drop(&mut self) {
        if thread::panicking() {
            let mut state = self.0.lock();
            state.ended = true;
            state.given = state.taken;
            drop(state);
            self.0.changed.notify_all();
        }
    }
}

#[cfg(test)]
mod tests {
    use super::{in_order, WINDOW};
    use std::sync::atomic::{AtomicUsize, Ordering};
    use std::thread;
    use std::time::Duration;

    /// The first items take longest.
    fn slow(item: usize) {
        thread::sleep(Duration::from_micros((1000 - item as u64 % 1000) % 97 * 10));
    }

    #[test]
    fn results_come_in_order() {
        for threads in [0, 1, 2, 7] {
            let mut taken = Vec::new();
            let items = (0..1000).map(Ok::<usize, ()>);
            let done = in_order(
                items,
                threads,
                |item| {
                    slow(item);
                    Ok(item * 2)
                },
                |result| {
                    taken.push(result);
                    Ok(())
                },
            );
            assert_eq!(done, Ok(()));
            assert_eq!(taken, (0..1000).map(|item| item * 2).collect::<Vec<_>>());
        }
        let none = in_order(std::iter::empty::<Result<u8, u8>>(), 3, Ok, |_| Ok(()));
        assert_eq!(none, Ok(()));
    }

    /// However slow the taking is, no more is worked on than there is room for.
    #[test]
    fn what_is_held_does_not_grow() {
        let (given, taken) = (AtomicUsize::new(0), AtomicUsize::new(0));
        let most = AtomicUsize::new(0);
        let items = (0..500).map(|item| {
            let given = given.fetch_add(1, Ordering::SeqCst) + 1;
            most.fetch_max(given - taken.load(Ordering::SeqCst), Ordering::SeqCst);
            Ok::<usize, ()>(item)
        });
        let take = |_| {
            thread::sleep(Duration::from_micros(100));
            taken.fetch_add(1, Ordering::SeqCst);
            Ok(())
        };
        in_order(items, 3, Ok, take).expect("an end");
        let most = most.into_inner();
        assert!(most > 3 && most <= 3 * WINDOW + 2, "{most}");
    }

    #[test]
    fn the_first_error_ends_all() {
        for threads in [1, 4] {
            let mut taken = 0;
            let items = (0..10_000).map(Ok);
            let work = |item: usize| {
                slow(item);
                if item == 300 || item == 310 {
                    Err(item)
                } else {
                    Ok(item)
                }
            };
            let done = in_order(items, threads, work, |_| {
                taken += 1;
                Ok(())
            });
            assert_eq!((done, taken), (Err(300), 300));
        }
        // One of an item, and one of the taking.
        let items = (0..10).map(|item| if item == 5 { Err("item") } else { Ok(item) });
        assert_eq!(in_order(items, 2, Ok, |_| Ok(())), Err("item"));
        let items = (0..10_000).map(Ok::<usize, &str>);
        assert_eq!(in_order(items, 2, Ok, |_| Err("taking")), Err("taking"));
    }

    #[test]
    fn a_panic_is_no_endless_wait() {
        let done = thread::spawn(|| {
            let items = (0..100).map(Ok::<usize, ()>);
            let work = |item: usize| {
                assert!(item != 50, "planted");
                Ok(item)
            };
            in_order(items, 2, work, |_| Ok(()))
        });
        assert!(done.join().is_err());
    }
}
