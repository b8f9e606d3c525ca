//! What a cache has in common with std's maps, beside its calls in `cache.rs`.

mod common;

use clock2q::{Cache, Entry};
use common::{Draws, Good, Itself, TwoBits};
use std::collections::HashMap;
use std::sync::RwLock;
use std::thread;

#[test]
fn entries() {
    let mut cache: Cache<String, u64> = Cache::new(3).expect("a cache");
    *cache.entry("a".to_string()).or_insert(1) += 1;
    *cache.entry("a".to_string()).or_insert(1) += 1;
    cache.entry("b".to_string()).or_default();
    let length = |key: &String| key.len() as u64;
    assert_eq!(
        *cache.entry("four".to_string()).or_insert_with_key(length),
        4
    );
    assert_eq!(cache.peek("a"), Some(&3));
    cache.entry("a".to_string()).and_modify(|value| *value = 9);
    assert_eq!(*cache.entry("a".to_string()).or_insert_with(|| 0), 9);
    assert_eq!((cache.hits(), cache.misses()), (3, 3));
    match cache.entry("a".to_string()) {
        Entry::Occupied(mut entry) => {
            assert_eq!((entry.key().as_str(), *entry.get()), ("a", 9));
            assert_eq!(entry.insert(10), 9);
            assert_eq!(
                format!("{entry:?}"),
                r#"OccupiedEntry { key: "a", value: 10 }"#
            );
            assert_eq!(entry.remove_entry(), ("a".to_string(), 10));
        }
        Entry::Vacant(entry) => panic!("{entry:?}"),
    }
    let entry = cache.entry("a".to_string());
    assert_eq!(entry.key(), "a");
    assert_eq!(format!("{entry:?}"), r#"Vacant(VacantEntry("a"))"#);
    if let Entry::Vacant(entry) = entry {
        assert_eq!(entry.into_key(), "a");
    }
    assert_eq!(cache.len(), 2);
}

/// An entry that is filled evicts what a pair that is pushed would.
#[test]
fn entries_evict_as_pushes_do() {
    fn agree<S: Default + std::hash::BuildHasher>() {
        for capacity in [1, 2, 10, 100] {
            let mut pushed = Cache::with_hasher(capacity, S::default()).expect("a cache");
            let mut filled = Cache::with_hasher(capacity, S::default()).expect("a cache");
            let mut draws = Draws(1);
            for number in 0..20_000 {
                let key = draws.below(3 * capacity as u64);
                assert_eq!(pushed.contains_key(&key), filled.contains_key(&key));
                if draws.below(20) == 0 {
                    let mut removed = None;
                    if let Entry::Occupied(entry) = filled.entry(key) {
                        removed = Some(entry.remove());
                    } else {
                        filled.remove(&key);
                    }
                    assert_eq!(pushed.remove(&key), removed);
                    continue;
                }
                if pushed.get(&key).is_none() {
                    pushed.push(key, number);
                }
                filled.entry(key).or_insert(number);
                assert_eq!(pushed.len(), filled.len());
            }
            assert!(pushed
                .iter()
                .all(|(key, value)| filled.peek(key) == Some(value)));
        }
    }
    agree::<Itself>();
    agree::<TwoBits>();
}

#[test]
fn a_clone_has_the_same_pairs() {
    for capacity in [1, 2, 3, 10, 100, 1000] {
        let small = capacity / 4;
        let made = Cache::with_policy_and_hasher(capacity, small, small, Good::new());
        let mut cache = made.expect("a cache");
        let mut draws = Draws(7);
        for number in 0..10 * capacity {
            cache.insert(draws.below(3 * capacity as u64), number);
            cache.get(&draws.below(3 * capacity as u64));
        }
        let mut copy = cache.clone();
        let pairs: HashMap<u64, usize> = cache.iter().map(|(key, value)| (*key, *value)).collect();
        let copied: HashMap<u64, usize> = copy.drain().collect();
        assert_eq!(copied, pairs);
        assert_eq!((copy.hits(), copy.misses()), (cache.hits(), cache.misses()));
        assert_eq!(
            (copy.capacity(), copy.len(), cache.len()),
            (capacity, 0, pairs.len())
        );
        for number in 0..10 * capacity {
            copy.insert(number as u64, number);
        }
        assert_eq!(copy.len(), capacity);
    }
}

/// A cache that is made of pairs has all of them.
#[test]
fn collected() {
    for count in [1, 2, 3, 10, 100, 1000] {
        let cache: Cache<usize, usize> = (0..count).map(|number| (number, 2 * number)).collect();
        assert_eq!((cache.len(), cache.capacity()), (count, count));
        assert!((0..count).all(|number| cache.peek(&number) == Some(&(2 * number))));
        let map: HashMap<usize, usize> = cache.into_iter().collect();
        assert_eq!(map.len(), count);
    }
    let none: Cache<u8, u8> = std::iter::empty().collect();
    assert_eq!((none.len(), none.capacity()), (0, 1));
    let twice: Cache<u8, u8> = [(1, 1), (1, 2)].into_iter().collect();
    assert_eq!((twice.len(), twice.peek(&1)), (1, Some(&2)));
}

/// Equal pairs make equal caches, whatever the slots.
#[test]
fn caches_are_equal_if_their_pairs_are() {
    let cache: Cache<u64, u64> = (0..10).map(|number| (number, number)).collect();
    let mut other = Cache::new(20).expect("a cache");
    other.extend(cache.iter());
    assert!(cache == other && cache == cache.clone());
    other.insert(3, 4);
    assert!(cache != other);
    other.remove(&3);
    assert!(cache != other);
    other.insert(10, 10);
    assert!(cache != other);
}

#[test]
fn pairs_are_drained() {
    let mut cache: Cache<u64, u64> = (0..10).map(|number| (number, number)).collect();
    let mut drained = cache.drain();
    assert_eq!(drained.len(), 10);
    assert_eq!(drained.next(), Some((0, 0)));
    std::mem::forget(drained);
    assert_eq!((cache.len(), cache.iter().count()), (0, 0));
    assert!((0..10).all(|key| !cache.contains_key(&key)));
    cache.extend((0..10).map(|number| (number, number)));
    assert_eq!(cache.drain().map(|(key, _)| key).sum::<u64>(), 45);
    cache.insert(1, 1);
    assert_eq!(cache.len(), 1);
}

#[test]
fn iterators_from_both_ends() {
    let mut cache: Cache<u64, u64> = (0..5).map(|number| (number, number)).collect();
    cache.remove(&2);
    let keys: Vec<u64> = cache.keys().copied().collect();
    let mut backwards: Vec<u64> = cache.keys().rev().copied().collect();
    backwards.reverse();
    assert_eq!(backwards, keys);
    let mut pairs = cache.iter();
    let first = pairs.next().expect("a pair");
    let rest = pairs.clone();
    assert_eq!(
        (pairs.next_back(), rest.len()),
        (rest.clone().next_back(), 3)
    );
    assert_eq!(
        (
            pairs.len(),
            pairs.next().is_some(),
            pairs.next_back().is_some()
        ),
        (2, true, true)
    );
    assert_eq!(
        (pairs.next(), pairs.next_back(), pairs.len()),
        (None, None, 0)
    );
    assert_eq!(rest.chain([first]).count(), 4);
    cache.values_mut().for_each(|value| *value *= 2);
    assert!(cache.values().clone().all(|value| value % 2 == 0));
    assert_eq!(
        cache
            .into_iter()
            .rev()
            .map(|(key, _)| key)
            .collect::<Vec<_>>()
            .len(),
        4
    );
}

/// These count as little, or as much, as those that they are named after.
#[test]
fn look_ups() {
    let mut cache = Cache::new(2).expect("a cache");
    cache.insert("a".to_string(), 1);
    assert_eq!(cache.get_key_value("a"), Some((&"a".to_string(), &1)));
    assert_eq!(cache.get_key_value("b"), None);
    assert_eq!((cache.hits(), cache.misses()), (1, 1));
    *cache.peek_mut("a").expect("it is here") = 2;
    assert_eq!(cache.peek_mut("b"), None);
    assert_eq!(cache.peek("a"), Some(&2));
    assert_eq!((cache.hits(), cache.misses()), (1, 1));
}

/// Threads that only read may share a cache.
#[test]
fn readers() {
    let cache: Cache<String, u64> = (0..1000)
        .map(|number| (number.to_string(), number))
        .collect();
    let shared = RwLock::new(cache);
    thread::scope(|scope| {
        for reader in 0..4u64 {
            let shared = &shared;
            scope.spawn(move || {
                let cache = shared.read().expect("no panic");
                for number in 0..4000 {
                    let found = cache.peek(&number.to_string());
                    assert_eq!(found, Some(&number).filter(|_| number < 1000));
                }
                assert_eq!(cache.iter().map(|(_, value)| *value).max(), Some(999));
                drop(cache);
                let mut cache = shared.write().expect("no panic");
                assert_eq!(cache.get(&reader.to_string()), Some(&reader));
            });
        }
    });
}
