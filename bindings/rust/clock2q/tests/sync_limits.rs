//! The limits of the caches that threads share: `resize`, and weights.

mod common;

use clock2q::sync::{Cache, WeightedCache};
use clock2q::{Refused, MAX_CAPACITY};
use common::{calls, Constant, Draws, Good, Itself, TwoBits};
use std::collections::HashMap;
use std::hash::BuildHasher;
use std::panic::{catch_unwind, AssertUnwindSafe};
use std::sync::atomic::{AtomicUsize, Ordering};
use std::thread;

const THREADS: u64 = 4;
const MADE: [(usize, usize); 6] = [(1, 1), (2, 2), (3, 2), (10, 4), (100, 7), (1000, 16)];

/// Runs a closure in threads, and joins each: a thread sanitizer sees that, and not how a scope ends.
fn in_threads(count: u64, work: impl Fn(u64) + Sync) {
    thread::scope(|scope| {
        let work = &work;
        let start = |thread| scope.spawn(move || work(thread));
        let started: Vec<_> = (0..count).map(start).collect();
        for thread in started {
            thread.join().expect("no panic");
        }
    });
}

fn resizes<S: BuildHasher + Default>() {
    for (capacity, shards) in MADE {
        let cache = Cache::with_shards_and_hasher(capacity, shards, S::default()).expect("a cache");
        let mut stored = HashMap::new();
        let mut draws = Draws(1);
        for number in 0..(calls() / 8 / MADE.len()) as u64 {
            if draws.below(50) == 0 {
                let limit = shards + draws.below(2 * capacity as u64) as usize;
                assert_eq!(cache.resize(limit), Ok(()));
                assert_eq!(cache.capacity(), limit);
            }
            let key = draws.below(3 * capacity as u64);
            match draws.below(4) {
                0 => assert!(cache.get(&key).map_or(true, |value| value == stored[&key])),
                1 => drop(cache.remove(&key)),
                _ => {
                    let was_here = cache.contains_key(&key);
                    let left = cache.push(key, number);
                    assert_eq!(left.is_some_and(|(left, _)| left == key), was_here);
                    stored.insert(key, number);
                    assert!(cache.contains_key(&key));
                }
            }
            assert!(cache.len() <= cache.capacity());
        }
        let len = cache.len();
        for refused in [0, shards - 1, shards * MAX_CAPACITY + 1] {
            assert_eq!(cache.resize(refused), Err(Refused::Capacity));
        }
        assert_eq!(cache.len(), len);
        assert_eq!((cache.resize(capacity), cache.shards()), (Ok(()), shards));
    }
}

#[test]
fn a_cache_is_resized() {
    resizes::<Good>();
    resizes::<TwoBits>();
    resizes::<Constant>();
}

/// The shards have room for as many keys as the cache.
#[test]
fn another_capacity_is_divided_without_rest() {
    let hasher = Itself::default();
    let cache = Cache::with_shards_and_hasher(1000, 16, hasher).expect("a cache");
    for limit in [16, 17, 100, 999, 1000, 1001, 2500] {
        cache.resize(limit).expect("it fits");
        for key in 0..20_000u64 {
            cache.insert(key, ());
        }
        assert_eq!(cache.len(), limit);
    }
    cache.resize(100).expect("it is smaller");
    assert_eq!(cache.len(), 100);
}

/// One thread resizes while others use the cache.
#[test]
fn threads_go_on_while_it_is_resized() {
    let cache: Cache<u64, u64> = Cache::new(1000).expect("a cache");
    in_threads(THREADS, |thread| {
        let mut draws = Draws(thread + 1);
        for _ in 0..calls() / 10 / THREADS as usize {
            if thread == 0 && draws.below(20) == 0 {
                let limit = 16 + draws.below(1985) as usize;
                assert_eq!(cache.resize(limit), Ok(()));
                assert!(cache.len() <= limit);
            }
            let key = draws.below(3000);
            assert_eq!(cache.get_or_insert_with(key, || 2 * key), 2 * key);
        }
    });
    assert!(cache.len() <= cache.capacity());
}

type Weights<S> = WeightedCache<u64, u64, fn(&u64, &u64) -> u64, S>;

/// The weight of a pair is that of its value by 8.
fn weigh(_: &u64, value: &u64) -> u64 {
    value % 8
}

fn weights<S: Default>(capacity: usize, max_weight: u64, shards: usize) -> Weights<S> {
    let hasher = S::default();
    WeightedCache::with_shards_and_hasher(capacity, max_weight, shards, weigh as _, hasher)
        .expect("a cache")
}

/// The pairs that left are those that were stored last and are no longer here.
fn store<S: BuildHasher>(cache: &Weights<S>, stored: &mut HashMap<u64, u64>, key: u64, value: u64) {
    let weight = cache.weight();
    match cache.push(key, value) {
        Err(refused) => {
            let share = cache.max_weight() / cache.shards() as u64;
            assert!(weigh(&key, &value) > share);
            assert_eq!((refused, cache.weight()), ((key, value), weight));
            assert_eq!(cache.contains_key(&key), stored.contains_key(&key));
        }
        Ok(left) => {
            for (gone, value) in left {
                assert_eq!(stored.remove(&gone), Some(value));
                assert!(gone == key || !cache.contains_key(&gone));
            }
            assert!(!stored.contains_key(&key));
            stored.insert(key, value);
            assert_eq!(cache.get_with(&key, |value| *value), Some(value));
        }
    }
}

fn weighs<S: BuildHasher + Default>() {
    for (capacity, shards) in MADE {
        for max_weight in [0, 7, 2 * capacity as u64, 10 * capacity as u64] {
            let cache: Weights<S> = weights(capacity, max_weight, shards);
            let mut stored = HashMap::new();
            let mut draws = Draws(1);
            for number in 0..(calls() / 60 / MADE.len()) as u64 {
                let key = draws.below(3 * capacity as u64);
                match draws.below(40) {
                    0..=23 => store(&cache, &mut stored, key, number * 8 + draws.below(9)),
                    24..=34 => assert!(cache.get(&key).map_or(true, |value| value == stored[&key])),
                    35..=37 => assert_eq!(cache.remove(&key), stored.remove(&key)),
                    38 if number % 20 == 0 => cache.clear(),
                    38 => cache.set_max_weight(max_weight / (1 + draws.below(2))),
                    _ => {
                        let made = number * 8 + draws.below(9);
                        let value = cache.get_or_insert_with(key, || made);
                        assert_eq!(value, *stored.entry(key).or_insert(made));
                    }
                }
                // Those that left unseen.
                if number % 16 == 0 || stored.len() != cache.len() {
                    stored.retain(|key, value| cache.get(key) == Some(*value));
                }
                assert_eq!(stored.len(), cache.len());
                let sum = stored.iter().map(|(key, value)| weigh(key, value)).sum();
                assert_eq!(cache.weight(), sum);
                assert!(sum <= cache.max_weight() && cache.len() <= capacity);
            }
        }
    }
}

#[test]
fn weights_are_added_up() {
    weighs::<Good>();
    weighs::<TwoBits>();
    weighs::<Constant>();
}

/// Threads that store, remove and make pairs at once leave the sum of the weights of those that are here.
#[test]
fn threads_share_weights() {
    let cache: Weights<Good> = weights(1000, 3000, 16);
    in_threads(THREADS, |thread| {
        let mut draws = Draws(thread + 1);
        for _ in 0..calls() / 10 / THREADS as usize {
            let key = draws.below(3000);
            match draws.below(10) {
                0..=3 => drop(cache.push(key, draws.below(1000))),
                4 => drop(cache.remove(&key)),
                5 if thread == 0 => cache.set_max_weight(1000 + draws.below(2000)),
                _ => drop(cache.get_or_insert_with(key, || key)),
            }
        }
    });
    let present = (0..3000).filter_map(|key| cache.get(&key));
    assert_eq!(present.map(|value| value % 8).sum::<u64>(), cache.weight());
    assert!(cache.weight() <= cache.max_weight() && cache.len() <= 1000);
    cache.clear();
    assert_eq!((cache.len(), cache.weight()), (0, 0));
}

/// A value that is too heavy is returned to all that asked for it, and isn't stored.
#[test]
fn what_is_too_heavy_is_made_and_not_stored() {
    let cache = WeightedCache::new(10, 5, |_: &u64, weight: &u64| *weight).expect("a cache");
    assert_eq!(cache.get_or_insert_with(1, || 5), 5);
    assert_eq!(cache.get_or_insert_with(2, || 6), 6);
    assert_eq!(cache.insert(3, 6), Err((3, 6)));
    assert_eq!(
        cache.try_get_or_insert_with(4, || Err("no value")),
        Err("no value")
    );
    assert_eq!(
        (cache.len(), cache.weight(), cache.get(&1)),
        (1, 5, Some(5))
    );
    assert_eq!((cache.hits(), cache.misses()), (1, 3));
    assert_eq!(
        format!("{cache:?}"),
        "WeightedCache { len: 1, capacity: 10, weight: 5, max_weight: 5 }"
    );
}

/// A weigher that panics leaves a whole cache, and those that wait make the value.
#[test]
fn a_weigher_that_panics_changes_nothing() {
    let weigher = |_: &u64, value: &u64| match *value {
        13 => std::panic::resume_unwind(Box::new("thirteen")),
        value => value,
    };
    let cache = WeightedCache::with_shards_and_hasher(10, 100, 1, weigher, Good::new());
    let cache = cache.expect("a cache");
    assert_eq!(cache.insert(1, 60), Ok(None));
    let tries = AtomicUsize::new(0);
    for key in [1, 2] {
        assert!(catch_unwind(AssertUnwindSafe(|| cache.insert(key, 13))).is_err());
        assert_eq!((cache.len(), cache.weight()), (1, 60));
    }
    in_threads(THREADS, |_| {
        let make = || match tries.fetch_add(1, Ordering::Relaxed) {
            0 => 13,
            _ => 20,
        };
        let made = catch_unwind(AssertUnwindSafe(|| cache.get_or_insert_with(3, make)));
        assert!(matches!(made, Ok(20) | Err(_)));
    });
    assert_eq!((cache.get(&3), cache.weight()), (Some(20), 80));
}
