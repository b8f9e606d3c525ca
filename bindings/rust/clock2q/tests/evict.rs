//! Pairs that leave without a new key: `evict`, `resize`, and weights.

mod common;

use clock2q::{Cache, PageCache, Refused, WeightedCache, MAX_CAPACITY};
use common::{calls, Constant, Draws, Good, Itself, TwoBits};
use std::collections::HashMap;
use std::hash::BuildHasher;
use std::panic::{catch_unwind, AssertUnwindSafe};

const CAPACITIES: [usize; 6] = [1, 2, 3, 10, 100, 1000];

#[test]
fn a_cache_empties() {
    for capacity in CAPACITIES {
        let mut cache = Cache::new(capacity).expect("a cache");
        cache.extend((0..3 * capacity).map(|key| (key, 2 * key)));
        for left in (0..capacity).rev() {
            let next = cache.next_victim().map(|(key, value)| (*key, *value));
            let (key, value) = cache.evict().expect("a pair is here");
            assert_eq!(next, Some((key, value)));
            assert_eq!((value, cache.len()), (2 * key, left));
            assert!(!cache.contains_key(&key));
        }
        assert_eq!(cache.next_victim(), None);
        assert_eq!(cache.evict(), None);
    }
}

/// From a full cache the key leaves that a new one would take the slot of.
#[test]
fn what_leaves_is_what_would_leave_for_a_new_key() {
    for capacity in CAPACITIES {
        let mut evicting = PageCache::new(capacity).expect("a cache");
        let mut entering = PageCache::new(capacity).expect("a cache");
        let mut draws = Draws(1);
        for number in 0..calls() / 10 / CAPACITIES.len() {
            let key = draws.below(3 * capacity as u64);
            assert_eq!(evicting.enter(key).slot, entering.enter(key).slot);
            if evicting.len() == capacity && draws.below(20) == 0 {
                let fresh = (4 * capacity + number) as u64;
                let next = entering.next_victim();
                let left = evicting.evict();
                assert_eq!(next, left);
                let place = entering.enter(fresh);
                assert_eq!(left, place.evicted.map(|key| (key, place.slot)));
                assert_eq!(evicting.enter(fresh).slot, place.slot);
            }
        }
    }
}

fn resizes<S: BuildHasher + Default>() {
    for capacity in CAPACITIES {
        let mut cache: Cache<u64, u64, S> =
            Cache::with_hasher(capacity, S::default()).expect("a cache");
        let mut stored = HashMap::new();
        let mut draws = Draws(1);
        for number in 0..(calls() / 4 / CAPACITIES.len()) as u64 {
            if draws.below(50) == 0 {
                let limit = 1 + draws.below(2 * capacity as u64) as usize;
                assert_eq!(cache.resize(limit), Ok(()));
                assert_eq!(cache.capacity(), limit);
            }
            let key = draws.below(3 * capacity as u64);
            assert!(cache.len() <= cache.capacity());
            match draws.below(4) {
                0 => assert!(cache.get(&key).map_or(true, |value| *value == stored[&key])),
                1 => drop(cache.remove(&key)),
                _ => {
                    let was_here = cache.contains_key(&key);
                    let left = cache.push(key, number);
                    assert_eq!(left.is_some_and(|(left, _)| left == key), was_here);
                    stored.insert(key, number);
                    assert_eq!(cache.peek(&key), Some(&number));
                }
            }
        }
        for refused in [0, MAX_CAPACITY + 1] {
            assert_eq!(cache.resize(refused), Err(Refused::Capacity));
        }
        assert_eq!(cache.resize(capacity), Ok(()));
        assert_eq!(cache.capacity(), capacity);
    }
}

#[test]
fn a_cache_is_resized() {
    resizes::<Good>();
    resizes::<TwoBits>();
    resizes::<Constant>();
}

/// It hits as often as a cache that was made as small, by nine tenths.
#[test]
fn a_cache_that_is_smaller_is_useful() {
    let mut small = Cache::new(100).expect("a cache");
    let mut cache = Cache::new(1000).expect("a cache");
    cache.extend((0..1000u64).map(|key| (key, key)));
    cache.resize(100).expect("it is smaller");
    let mut draws = Draws(1);
    for _ in 0..100_000 {
        let key = draws.below(1024) & draws.below(1024);
        cache.get_or_insert_with(key, || key);
        small.get_or_insert_with(key, || key);
    }
    assert!(
        10 * cache.hits() > 9 * small.hits(),
        "{} hits, {} of a small one",
        cache.hits(),
        small.hits()
    );
    assert_eq!(cache.clone().capacity(), 100);
}

type Weights<S> = WeightedCache<u64, u64, fn(&u64, &u64) -> u64, S>;

/// The weight of a pair is that of its value by 8.
fn weigh(_: &u64, value: &u64) -> u64 {
    value % 8
}

/// The pairs that left are those that were stored last and are no longer here.
fn store(
    cache: &mut Weights<impl BuildHasher>,
    stored: &mut HashMap<u64, u64>,
    key: u64,
    value: u64,
) {
    let was_here = cache.peek(&key).copied();
    let weight = cache.weight();
    match cache.push(key, value) {
        Err(refused) => {
            assert!(weigh(&key, &value) > cache.max_weight());
            assert_eq!(refused, (key, value));
            assert_eq!(
                (cache.peek(&key).copied(), cache.weight()),
                (was_here, weight)
            );
        }
        Ok(left) => {
            assert!(weigh(&key, &value) <= cache.max_weight());
            for (gone, value) in left {
                assert_eq!(stored.remove(&gone), Some(value));
                assert!(gone == key || !cache.contains_key(&gone));
            }
            assert!(!stored.contains_key(&key));
            stored.insert(key, value);
            assert_eq!(cache.peek(&key), Some(&value));
        }
    }
}

fn weighs<S: BuildHasher + Default>() {
    for capacity in CAPACITIES {
        for max_weight in [0, 1, 5, 7, 2 * capacity as u64, 10 * capacity as u64] {
            let hasher = S::default();
            let mut cache: Weights<S> =
                WeightedCache::with_hasher(capacity, max_weight, weigh as _, hasher)
                    .expect("a cache");
            let mut stored = HashMap::new();
            let mut draws = Draws(1);
            for number in 0..(calls() / 40 / CAPACITIES.len()) as u64 {
                let key = draws.below(3 * capacity as u64);
                match draws.below(40) {
                    0..=23 => store(&mut cache, &mut stored, key, number * 8 + draws.below(9)),
                    24..=34 => {
                        assert!(cache.get(&key).map_or(true, |value| *value == stored[&key]))
                    }
                    35..=37 => assert_eq!(cache.remove(&key), stored.remove(&key)),
                    38 if number % 9 == 0 => cache.retain(|key, _| key % 3 != 0),
                    38 if number % 20 == 0 => cache.clear(),
                    38 => cache.set_max_weight(max_weight / (1 + draws.below(2))),
                    _ => {
                        if let Some((key, value)) = cache.evict() {
                            assert_eq!(stored.remove(&key), Some(value));
                        }
                    }
                }
                stored.retain(|key, value| cache.peek(key) == Some(value));
                assert_eq!(stored.len(), cache.len());
                assert_eq!(cache.iter().len(), cache.len());
                assert_eq!(
                    cache.weight(),
                    stored.iter().map(|(key, value)| weigh(key, value)).sum()
                );
                assert!(cache.weight() <= cache.max_weight() && cache.len() <= capacity);
            }
        }
    }
}

#[test]
fn weights_are_added_up() {
    weighs::<Good>();
    weighs::<TwoBits>();
    weighs::<Constant>();
    weighs::<Itself>();
}

/// No pair leaves for one that fits, nor more than are needed.
#[test]
fn as_few_leave_as_need_to() {
    let mut cache =
        WeightedCache::new(1000, 100, |_: &u64, weight: &u64| *weight).expect("a cache");
    for key in 0..10 {
        assert_eq!(cache.push(key, 10), Ok(Vec::new()));
    }
    let left = cache.push(10, 35).expect("it fits");
    assert_eq!((left.len(), cache.weight()), (4, 95));
    assert_eq!(cache.push(11, 101), Err((11, 101)));
    assert_eq!(cache.push(12, 0), Ok(Vec::new()));
    assert_eq!(cache.push(10, 36), Ok(vec![(10, 35)]));
    assert_eq!(cache.insert(10, 40), Ok(Some(36)));
    assert_eq!(
        format!("{cache:?}"),
        "WeightedCache { len: 8, capacity: 1000, weight: 100, max_weight: 100 }"
    );
}

#[test]
fn weighted_values_are_made() {
    let weigher = |_: &u64, weight: &u64| *weight;
    let mut cache = WeightedCache::with_policy(10, 2, 1, 100, weigher).expect("a cache");
    for key in 0..30u64 {
        assert_eq!(
            cache.get_or_insert_with(key % 7, || 10 + key),
            Ok(&(10 + key % 7))
        );
    }
    assert_eq!((cache.hits(), cache.misses(), cache.weight()), (23, 7, 91));
    assert_eq!(cache.get_or_insert_with(8, || 101), Err((8, 101)));
    assert_eq!((cache.len(), cache.weight()), (7, 91));
    assert_eq!(cache.get_or_insert_with(9, || 50), Ok(&50));
    assert!(cache.weight() <= 100);
    assert_eq!(cache.resize(3), Ok(()));
    assert!(cache.len() <= 3 && cache.capacity() == 3);
    assert_eq!(cache.weight(), cache.iter().map(|(_, weight)| weight).sum());
    assert_eq!(cache.resize(MAX_CAPACITY + 1), Err(Refused::Capacity));
    assert_eq!((cache.resize(11), cache.capacity()), (Ok(()), 11));
    let refused = WeightedCache::with_policy(10, 10, 1, 100, weigher);
    assert_eq!(refused.err(), Some(Refused::Policy));
}

#[test]
fn the_heaviest_weights_are_no_sum_too_large() {
    let mut cache =
        WeightedCache::new(10, u64::MAX, |_: &u64, weight: &u64| *weight).expect("a cache");
    for key in 0..20 {
        assert!(cache.insert(key, u64::MAX - key).is_ok());
        assert_eq!(cache.len(), 1);
    }
    assert_eq!(cache.insert(20, 19), Ok(None));
    assert_eq!((cache.len(), cache.weight()), (2, u64::MAX));
}

#[test]
fn a_weigher_that_panics_changes_nothing() {
    let weigher = |_: &u64, value: &u64| {
        if *value == 13 {
            panic!("thirteen")
        } else {
            *value
        }
    };
    let mut cache = WeightedCache::new(10, 100, weigher).expect("a cache");
    assert_eq!(cache.insert(1, 60), Ok(None));
    for key in [1, 2] {
        assert!(catch_unwind(AssertUnwindSafe(|| cache.insert(key, 13))).is_err());
        assert_eq!(
            (cache.len(), cache.weight(), cache.peek(&1)),
            (1, 60, Some(&60))
        );
    }
}
