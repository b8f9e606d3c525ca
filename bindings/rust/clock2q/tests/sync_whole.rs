//! The calls of shared caches that go through their shards: `retain`, `iter`, `for_each`, `drain`, `evict`.

mod common;

use clock2q::sync::{Cache, WeightedCache};
use clock2q::Refused;
use common::{calls, Draws, Good, Itself, TwoBits};
use std::collections::HashMap;
use std::hash::BuildHasher;
use std::thread;

const MADE: [(usize, usize); 5] = [(1, 1), (3, 2), (10, 4), (100, 7), (1000, 16)];

/// Runs a closure in threads, and joins each: a thread sanitizer sees that, and not how a scope ends.
fn in_threads(count: u64, work: impl Fn(u64) + Sync) {
    thread::scope(|scope| {
        let work = &work;
        let start = |thread| scope.spawn(move || work(thread));
        let started: Vec<_> = (0..count).map(start).collect();
        for thread in started {
            thread.join().expect("no panic");
        }
    });
}

fn agrees<S: BuildHasher + Default>() {
    for (capacity, shards) in MADE {
        let made = Cache::with_shards_and_hasher(capacity, shards, S::default());
        let cache: Cache<u64, u64, S> = made.expect("a cache");
        let mut stored = HashMap::new();
        let mut draws = Draws(5);
        for number in 0..(calls() / 100 / MADE.len()) as u64 {
            let key = draws.below(3 * capacity as u64);
            match draws.below(20) {
                0..=11 => {
                    cache.insert(key, number);
                    stored.insert(key, number);
                }
                12 | 13 => assert_eq!(cache.peek(&key), cache.peek_with(&key, |value| *value)),
                14 => {
                    let left = cache.evict();
                    assert!(left.map_or(stored.is_empty(), |(key, value)| stored[&key] == value));
                }
                15 => {
                    let entry = cache.remove_entry(&key);
                    assert!(entry.map_or(true, |entry| entry == (key, stored[&key])));
                }
                16 => cache.retain(|kept, _| kept % 8 != key % 8),
                17 if key % 16 == 0 => {
                    let len = cache.len();
                    let pairs: HashMap<u64, u64> = cache.drain().collect();
                    assert_eq!((pairs.len(), cache.len()), (len, 0));
                    assert!(pairs.iter().all(|(key, value)| stored[key] == *value));
                }
                _ => drop(cache.get(&key)),
            }
            stored.retain(|key, value| cache.peek(key) == Some(*value));
            let pairs: HashMap<u64, u64> = cache.iter().collect();
            assert_eq!(pairs, stored);
            let mut seen = 0;
            cache.for_each(|key, value| seen += usize::from(stored[key] == *value));
            assert_eq!((seen, cache.len()), (stored.len(), stored.len()));
        }
    }
}

#[test]
fn pairs_are_gone_through() {
    agrees::<Good>();
    agrees::<TwoBits>();
}

/// No look at a pair is a hit, nor counted.
#[test]
fn looks_change_nothing() {
    let made = || Cache::with_policy_and_hasher(40, 8, 4, Itself::default()).expect("a cache");
    let (looked, other) = (made(), made());
    let mut draws = Draws(1);
    for number in 0..20_000 {
        let key = draws.below(120);
        looked.peek(&key);
        looked.for_each(|_, _| ());
        assert_eq!(looked.iter().count(), looked.len());
        looked.retain(|_, _| true);
        assert_eq!(looked.push(key, number), other.push(key, number));
        assert_eq!(looked.get(&(number % 9)), other.get(&(number % 9)));
    }
    assert_eq!(
        (looked.hits(), looked.misses()),
        (other.hits(), other.misses())
    );
}

/// Each shard has a part of each share, so that there are as many as have one.
#[test]
fn shares_are_divided() {
    let shards = |capacity, small, window| {
        let made = Cache::<u64, u64>::with_policy(capacity, small, window);
        made.map(|cache| (cache.shards(), cache.capacity()))
    };
    assert_eq!(shards(10_000, 1000, 500), Ok((16, 10_000)));
    assert_eq!(shards(10_000, 0, 0), Ok((16, 10_000)));
    assert_eq!(shards(10_000, 9_997, 9_997), Ok((3, 10_000)));
    assert_eq!(shards(10_000, 100, 5), Ok((5, 10_000)));
    assert_eq!(shards(1, 0, 0), Ok((1, 1)));
    for (small, window) in [(10, 1), (3, 4), (0, 1), (1, 0)] {
        assert_eq!(shards(10, small, window), Err(Refused::Policy));
    }
    assert_eq!(shards(0, 0, 0), Err(Refused::Capacity));
    for capacity in [64, 127, 130, 500] {
        for small in (1..capacity).step_by(97) {
            for window in [1, small / 2 + 1, small] {
                let cache = Cache::<u64, ()>::with_policy(capacity, small, window);
                let cache = cache.expect("each shard has its part");
                (0..3 * capacity as u64).for_each(|key| assert_eq!(cache.insert(key, ()), None));
                assert!(cache.len() <= capacity);
            }
        }
    }
    let weighted = WeightedCache::with_policy(1000, 100, 50, 5000, |_: &u64, weight: &u64| *weight);
    let weighted = weighted.expect("a cache");
    assert_eq!((weighted.capacity(), weighted.max_weight()), (1000, 5000));
}

#[test]
fn weighted_pairs_are_gone_through() {
    for (capacity, shards) in MADE {
        let weigher = |_: &u64, value: &u64| value % 8;
        let cache = WeightedCache::with_shards_and_hasher(
            capacity,
            8 * capacity as u64,
            shards,
            weigher,
            Good::new(),
        );
        let cache = cache.expect("a cache");
        let mut draws = Draws(5);
        for number in 0..(calls() / 100 / MADE.len()) as u64 {
            let key = draws.below(3 * capacity as u64);
            match draws.below(20) {
                0..=13 => drop(cache.insert(key, number)),
                14 => drop(cache.evict()),
                15 => assert!(cache
                    .remove_entry(&key)
                    .map_or(true, |entry| entry.0 == key)),
                16 => cache.retain(|kept, _| kept % 8 != key % 8),
                17 if key % 16 == 0 => assert!(cache.drain().all(|(_, value)| value < number)),
                18 => {
                    let limit = shards + draws.below(2 * capacity as u64) as usize;
                    assert_eq!(cache.resize(limit), Ok(()));
                    assert_eq!(cache.capacity(), limit);
                }
                _ => assert_eq!(cache.peek(&key), cache.get(&key)),
            }
            assert!(cache.len() <= cache.capacity());
            assert_eq!(cache.iter().count(), cache.len());
            assert_eq!(
                cache.iter().map(|(_, value)| value % 8).sum::<u64>(),
                cache.weight()
            );
            let mut weight = 0;
            cache.for_each(|_, value| weight += value % 8);
            assert_eq!(weight, cache.weight());
        }
        assert_eq!(cache.resize(shards - 1), Err(Refused::Capacity));
    }
}

/// Threads go through the shards while others store, each value of a key being its own.
#[test]
fn threads_go_through_the_shards() {
    let cache: Cache<u64, u64> = Cache::new(1000).expect("a cache");
    in_threads(4, |thread| {
        let mut draws = Draws(thread + 1);
        for number in 0..calls() as u64 / 100 {
            let key = draws.below(3000);
            match draws.below(40) {
                0 => assert!(cache.iter().all(|(key, value)| value % 3000 == key)),
                1 => cache.for_each(|key, value| assert_eq!(value % 3000, *key)),
                2 => cache.retain(|key, value| value % 3000 == *key && key % 7 != number % 7),
                3 if number % 16 == 0 => {
                    assert!(cache.drain().all(|(key, value)| value % 3000 == key))
                }
                4..=7 => assert!(cache
                    .evict()
                    .map_or(true, |(key, value)| value % 3000 == key)),
                8..=15 => assert!(cache.peek(&key).map_or(true, |value| value % 3000 == key)),
                _ => drop(cache.insert(key, key + 3000 * number)),
            }
        }
    });
    assert!(cache.len() <= 1000);
}

/// What is being made while pairs are retained isn't stored: `keep` hasn't seen it.
#[test]
fn what_is_made_while_pairs_are_retained_is_not_stored() {
    let cache = Cache::new(10).expect("a cache");
    let made = cache.get_or_insert_with("key", || {
        cache.retain(|_, _| false);
        7
    });
    assert_eq!((made, cache.peek("key")), (7, None));
}
