//! The largest capacity: on 32 bits too a cache of it works, or is refused since there is no memory, and one key more is
//! refused before any is taken. Without optimization these tests take too long.
#![cfg(not(debug_assertions))]

mod common;

use clock2q::{Cache, PageCache, Refused, MAX_CAPACITY};
use common::Draws;

#[test]
fn pages() {
    match PageCache::new(MAX_CAPACITY) {
        Ok(mut pages) => {
            assert_eq!(pages.capacity(), MAX_CAPACITY);
            for number in 0..100_000 {
                let place = pages.enter(number << 32 | number);
                assert_eq!((place.last, place.evicted), (None, None));
                assert!(pages.is_at(place.slot, number << 32 | number));
            }
            assert_eq!(pages.len(), 100_000);
        }
        Err(refused) => assert_eq!(refused, Refused::Memory),
    }
    assert_eq!(
        PageCache::new(MAX_CAPACITY + 1).err(),
        Some(Refused::Capacity)
    );
}

/// The largest caches have an index of their own for the keys that left.
#[test]
fn a_map_that_grows() {
    let mut cache = Cache::new(1000).expect("a cache");
    (0..2000u64).for_each(|number| _ = cache.insert(number, !number));
    let pairs: Vec<u64> = cache.keys().copied().collect();
    match cache.resize(MAX_CAPACITY) {
        Ok(()) => assert_eq!(cache.capacity(), MAX_CAPACITY),
        Err(refused) => assert_eq!((refused, cache.capacity()), (Refused::Memory, 1000)),
    }
    assert!(pairs.iter().all(|key| cache.get(key) == Some(&!key)));
    (2000..12_000).for_each(|number| _ = cache.insert(number, !number));
    assert_eq!(cache.len(), cache.capacity().min(11_000));
}

#[test]
fn a_map() {
    match Cache::new(MAX_CAPACITY) {
        Ok(mut cache) => {
            for number in 0..100_000_u64 {
                assert_eq!(cache.insert(number, !number), None);
            }
            assert_eq!(cache.get(&99_999), Some(&!99_999));
            assert_eq!((cache.len(), cache.capacity()), (100_000, MAX_CAPACITY));
        }
        Err(refused) => assert_eq!(refused, Refused::Memory),
    }
    assert_eq!(
        Cache::<u64, u64>::new(MAX_CAPACITY + 1).err(),
        Some(Refused::Capacity)
    );
}

/// A key is resident from its insertion until a call returns it as the one that had to leave. Among these calls are
/// insertions of keys that are remembered, and so evictions from both queues.
#[test]
fn a_map_that_is_filled_and_churned() {
    let Ok(mut cache) = Cache::new(MAX_CAPACITY) else {
        return;
    };
    let capacity = MAX_CAPACITY as u64;
    let mut resident = vec![false; 2 * MAX_CAPACITY];
    for key in 0..capacity {
        assert_eq!(cache.push(key, !key), None);
        resident[key as usize] = true;
    }
    assert_eq!(cache.len(), MAX_CAPACITY);
    let mut draws = Draws(20_251_201);
    for _ in 0..10_000_000 {
        let key = draws.below(2 * capacity);
        match cache.get(&key) {
            Some(value) => assert_eq!((resident[key as usize], *value), (true, !key)),
            None => {
                let (left, value) = cache.push(key, !key).expect("a full cache evicts");
                assert_eq!((resident[left as usize], value), (true, !left));
                assert!(!resident[key as usize]);
                resident[left as usize] = false;
                resident[key as usize] = true;
            }
        }
    }
    assert_eq!(cache.len(), MAX_CAPACITY);
    for (key, &is) in resident.iter().enumerate().step_by(7) {
        assert_eq!(cache.contains_key(&(key as u64)), is);
    }
}
