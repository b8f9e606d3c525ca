//! Slots against a plain model.

mod common;

use clock2q::{PageCache, Place, Refused, MAX_CAPACITY};
use common::Draws;
use std::thread;

/// Each key at its slot, and the key that has each slot.
#[test]
fn slots_are_shared_out() {
    for capacity in [1, 2, 3, 10, 100, 1000] {
        let mut pages = PageCache::new(capacity).expect("a cache");
        let mut held = vec![None; capacity];
        let mut draws = Draws(88_172_645_463_325_252);
        for number in 0..100_000 {
            if number % 20_000 == 10_000 {
                held.resize(held.len() + capacity / 2 + 1, None);
                assert_eq!(pages.grow(held.len()), Ok(()));
            }
            let key = draws.below(3 * capacity as u64);
            let found = pages.find(key);
            assert_eq!(pages.contains(key), found.is_some());
            assert_eq!(pages.peek(key), found);
            if draws.below(20) == 0 {
                assert_eq!(pages.remove(key), found.is_some());
                if let Some(slot) = found {
                    held[slot] = None;
                }
                continue;
            }
            let count = pages.len();
            let Place {
                slot,
                last,
                evicted,
            } = pages.enter(key);
            assert!(found.is_none() || found == Some(slot));
            assert_eq!(last, held[slot]);
            let is_full = found.is_none() && pages.len() == count;
            assert_eq!(evicted, last.filter(|_| is_full));
            assert!(evicted.map_or(true, |key| !pages.contains(key)));
            held[slot] = Some(key);
            assert!(pages.is_at(slot, key));
            assert!(pages.len() <= pages.capacity());
        }
        assert_eq!(pages.capacity(), held.len());
    }
}

/// A cache and its memory are used by several threads in turn.
#[test]
fn a_cache_goes_from_thread_to_thread() {
    let mut pages = PageCache::new(100).expect("a cache");
    for round in 0..4 {
        let work = move || {
            for key in 50 * round..50 * round + 80 {
                pages.enter(key);
                assert!(pages.contains(key));
            }
            pages
        };
        pages = thread::spawn(work).join().expect("no panic");
    }
    assert_eq!(pages.len(), 100);
    thread::spawn(move || drop(pages)).join().expect("no panic");
}

#[test]
fn refusals() {
    assert_eq!(PageCache::new(0).err(), Some(Refused::Capacity));
    assert_eq!(
        PageCache::new(MAX_CAPACITY + 1).err(),
        Some(Refused::Capacity)
    );
    assert_eq!(
        PageCache::with_policy(10, 10, 1).err(),
        Some(Refused::Policy)
    );
    assert_eq!(
        PageCache::with_policy(10, 0, 0)
            .map(|pages| pages.capacity())
            .ok(),
        Some(10)
    );
    let mut pages = PageCache::with_history(10, 3, 2, 6).expect("a cache");
    for (refused, grown) in [
        (Refused::Capacity, pages.grow(0)),
        (Refused::Capacity, pages.grow(MAX_CAPACITY + 1)),
        (Refused::Policy, pages.grow(20)),
        (Refused::Policy, pages.grow_with_history(9, 3, 2, 6)),
        (Refused::Policy, pages.grow_with_history(20, 3, 2, 21)),
    ] {
        assert_eq!((grown, pages.capacity()), (Err(refused), 10));
    }
    assert_eq!(pages.grow_with_history(20, 3, 2, 6), Ok(()));
    assert_eq!(Refused::Policy.to_string(), "policy refused");
}
