//! Weighted caches: entries, comparisons, and what listeners hear.

mod common;

use clock2q::{sync, Cause, WeightedCache, WeightedEntry};
use common::{calls, Constant, Draws, Good, TwoBits};
use std::cell::RefCell;
use std::collections::HashMap;
use std::hash::BuildHasher;
use std::panic::{catch_unwind, AssertUnwindSafe};
use std::sync::{mpsc, Mutex, OnceLock};
use std::thread;

fn weigh(_: &u64, value: &u64) -> u64 {
    value % 8
}

/// What was stored is there, or was heard of once, whatever is called, and the weights are those of the pairs.
fn each_pair_is_heard_once<S: BuildHasher + Default>() {
    for (capacity, max_weight) in [(1, 7), (10, 30), (50, 60), (50, 1000)] {
        let left = RefCell::new(Vec::new());
        let cache = WeightedCache::with_hasher(capacity, max_weight, weigh, S::default());
        let cache = cache.expect("a cache");
        let mut cache =
            cache.heard_by(|key, value, cause| left.borrow_mut().push((*key, *value, cause)));
        let mut stored: HashMap<u64, u64> = HashMap::new();
        let mut draws = Draws(1);
        for number in 0..(calls() / 40) as u64 {
            let key = draws.below(3 * capacity as u64);
            let was_here = cache.contains_key(&key);
            let mut is_new = false;
            match draws.below(12) {
                0 => drop(cache.remove(&key)),
                1 => drop(cache.evict()),
                2 => cache.retain(|key, _| key % 7 != number % 7),
                3 if number % 50 == 0 => cache.clear(),
                4 => cache.set_max_weight(max_weight / (1 + draws.below(2))),
                5 => {
                    let limit = 1 + draws.below(2 * capacity as u64) as usize;
                    cache.resize(limit).expect("there is memory");
                }
                6 => match cache.entry(key) {
                    WeightedEntry::Occupied(entry) => {
                        assert!(was_here);
                        assert_eq!((*entry.key(), *entry.get()), (key, stored[&key]));
                        entry.remove();
                    }
                    WeightedEntry::Vacant(entry) => {
                        assert!(!was_here);
                        assert_eq!(*entry.key(), key);
                        is_new = entry.insert(number).is_ok();
                    }
                },
                7 => {
                    let made = cache.get_or_insert_with(key, || number);
                    is_new = made.is_ok_and(|value| *value == number);
                }
                _ => is_new = cache.insert(key, number).is_ok(),
            }
            for (key, value, cause) in left.borrow_mut().drain(..) {
                assert_ne!(cause, Cause::Expired);
                assert_eq!(
                    stored.remove(&key),
                    Some(value),
                    "it was stored, and not heard of"
                );
            }
            if is_new {
                assert_eq!(
                    stored.insert(key, number),
                    None,
                    "the one before was heard of"
                );
            }
            assert_eq!(cache.len(), stored.len());
            if number % 16 == 0 {
                let pairs: HashMap<u64, u64> =
                    cache.iter().map(|(key, value)| (*key, *value)).collect();
                assert_eq!(pairs, stored);
                let weights: u64 = cache.values().map(|value| value % 8).sum();
                assert_eq!(
                    (cache.weight(), cache.keys().len()),
                    (weights, stored.len())
                );
            }
        }
    }
}

#[test]
fn pairs_are_heard() {
    each_pair_is_heard_once::<Good>();
    each_pair_is_heard_once::<TwoBits>();
    each_pair_is_heard_once::<Constant>();
}

#[test]
fn causes() {
    let left = RefCell::new(Vec::new());
    let heard = || left.borrow_mut().drain(..).collect::<Vec<_>>();
    let weigher = |_: &&str, value: &u64| *value;
    let cache = WeightedCache::with_policy(10, 2, 1, 20, weigher).expect("a cache");
    let mut cache = cache
        .heard_by(|key: &&str, value: &u64, cause| left.borrow_mut().push((*key, *value, cause)));
    cache.extend([("a", 5), ("a", 6)]);
    assert_eq!(heard(), [("a", 5, Cause::Replaced)]);
    cache.extend([("a", 21)]);
    assert_eq!(heard(), []);
    cache.extend([(&"b", &7), (&"c", &8)]);
    assert_eq!(heard(), [("a", 6, Cause::Evicted)]);
    assert_eq!(cache.insert("b", 19), Ok(None));
    assert_eq!(heard().last(), Some(&("c", 8, Cause::Evicted)));
    assert_eq!(cache.remove("b"), Some(19));
    assert_eq!(heard(), [("b", 19, Cause::Removed)]);
    assert_eq!(cache.get_or_insert_with("d", || 3), Ok(&3));
    assert_eq!(
        cache.try_get_or_insert_with("d", || Err("it is here")),
        Ok(Ok(&3))
    );
    assert_eq!(
        cache.try_get_or_insert_with("e", || Err("none")),
        Err("none")
    );
    assert_eq!(
        cache.try_get_or_insert_with("e", || Ok::<_, ()>(21)),
        Ok(Err(("e", 21)))
    );
    assert_eq!(cache.evict(), Some(("d", 3)));
    assert_eq!(heard(), [("d", 3, Cause::Evicted)]);
    cache.extend([("e", 4)]);
    cache.set_max_weight(3);
    assert_eq!(heard(), [("e", 4, Cause::Evicted)]);
    cache.extend([("f", 2)]);
    cache.retain(|_, _| false);
    assert_eq!(heard(), [("f", 2, Cause::Removed)]);
    cache.extend([("g", 1), ("h", 1)]);
    cache.resize(1).expect("it is smaller");
    assert_eq!(heard().len(), 1);
    assert_eq!(cache.drain().count(), 1);
    assert_eq!(heard().last().map(|left| left.2), Some(Cause::Cleared));
    cache.extend([("i", 1)]);
    drop(cache);
    assert_eq!(heard(), []);
}

/// The pair of a key that has to leave for its own new value is replaced, and the others that do are evicted.
#[test]
fn a_pair_that_leaves_for_its_own_new_value() {
    for at in 0..10 {
        let left = RefCell::new(Vec::new());
        let cache = WeightedCache::new(100, 10, |_: &u64, value: &u64| *value).expect("a cache");
        let mut cache = cache.heard_by(|key, _, cause| left.borrow_mut().push((*key, cause)));
        cache.extend((0..10).map(|key| (key, 1)));
        assert_eq!(cache.push(at, 10).expect("it is light").len(), 10);
        let heard = left.borrow();
        let replaced = heard.iter().filter(|(_, cause)| *cause == Cause::Replaced);
        assert_eq!(replaced.collect::<Vec<_>>(), [&(at, Cause::Replaced)]);
        assert_eq!((heard.len(), cache.len(), cache.weight()), (10, 1, 10));
    }
}

#[test]
fn comparisons() {
    let made = || WeightedCache::new(10, 100, weigh).expect("a cache");
    let (mut one, mut other) = (made(), made());
    assert!(one == other);
    one.extend([(1, 1), (2, 2)]);
    other.extend([(2, 2)]);
    assert!(one != other);
    other.extend([(1, 3)]);
    assert!(one != other);
    other.extend([(1, 1)]);
    assert!(one == other);
    assert!(one == other.heard_by(|_, _, _| ()));
}

/// A listener that panics leaves a whole cache.
#[test]
fn listeners_may_panic() {
    let cache = WeightedCache::new(10, 30, weigh).expect("a cache");
    let mut cache = cache.heard_by(|_, value, _| assert!(value % 3 != 0, "a listener"));
    let mut draws = Draws(1);
    for number in 0..20_000 {
        let key = draws.below(30);
        let done = catch_unwind(AssertUnwindSafe(|| match draws.below(5) {
            0 => drop(cache.remove(&key)),
            1 => cache.retain(|key, _| key % 5 != number % 5),
            _ => drop(cache.insert(key, number)),
        }));
        drop(done);
        let weights: u64 = cache.values().map(|value| value % 8).sum();
        assert_eq!(cache.weight(), weights);
    }
}

type Heard = Box<dyn Fn(&u64, &u64, Cause) + Send + Sync>;
type Shared = sync::WeightedCache<u64, u64, fn(&u64, &u64) -> u64, Good, Heard>;

/// Makes drawn calls, and returns the values that were stored.
fn stored_by(cache: &Shared, seed: u64) -> Vec<u64> {
    let (mut draws, mut own) = (Draws(seed), Vec::new());
    for number in 0..(calls() / 20) as u64 {
        let (key, value) = (
            draws.below(1000),
            4 * (8 * number + draws.below(8)) + seed - 1,
        );
        match draws.below(8) {
            0 => drop(cache.remove(&key)),
            1 => drop(cache.evict()),
            2 if number % 500 == 0 => cache.clear(),
            3 if number % 500 == 0 => cache.retain(|key, _| key % 3 != 0),
            4 => {
                if cache.get_or_insert_with(key, || value) == value {
                    own.push(value);
                }
            }
            _ => {
                if cache.insert(key, value).is_ok() {
                    own.push(value);
                }
            }
        }
    }
    own
}

/// Threads that share a cache: each pair that was stored is there or was heard of, once, and a listener may use the cache.
#[test]
fn threads_are_heard() {
    static SHARED: OnceLock<Shared> = OnceLock::new();
    let (tell, heard) = mpsc::channel();
    let hear: Heard = Box::new(move |key, value, _| {
        let cache = SHARED.get().expect("it is made");
        cache.peek(key);
        if value % 100 == 0 {
            cache.remove(&(key + 1));
        }
        tell.send(*value).expect("it is heard");
    });
    let weigher: fn(&u64, &u64) -> u64 = weigh;
    let made = sync::WeightedCache::with_hasher(400, 1000, weigher, Good::new()).expect("a cache");
    let cache = SHARED.get_or_init(|| made.heard_by(hear));
    let mut stored: Vec<u64> = thread::scope(|scope| {
        let store = |seed| scope.spawn(move || stored_by(cache, seed));
        let threads: Vec<_> = (1..=4).map(store).collect();
        let joined = threads.into_iter().map(|thread| thread.join());
        joined
            .flat_map(|own| own.expect("no thread panics"))
            .collect()
    });
    cache.resize(100).expect("it is smaller");
    cache.set_max_weight(100);
    cache.clear();
    let mut heard: Vec<u64> = heard.try_iter().collect();
    heard.sort_unstable();
    stored.sort_unstable();
    let heard_count = heard.len();
    heard.dedup();
    assert_eq!(heard.len(), heard_count, "each is heard of once");
    // What was made while its key was inserted or removed is returned, but not stored.
    assert!(heard
        .iter()
        .all(|value| stored.binary_search(value).is_ok()));
    assert!(stored.len() - heard.len() < stored.len() / 20);
}

#[test]
fn shared_causes() {
    let left = Mutex::new(Vec::new());
    let heard = || std::mem::take(&mut *left.lock().expect("no thread panics"));
    let cache = sync::WeightedCache::new(10, 20, |_: &&str, value: &u64| *value).expect("a cache");
    let mut cache = cache.heard_by(|key: &&str, value: &u64, cause| {
        left.lock()
            .expect("no thread panics")
            .push((*key, *value, cause));
    });
    cache.extend([("a", 5), ("a", 6), ("b", 21)]);
    assert_eq!(heard(), [("a", 5, Cause::Replaced)]);
    assert_eq!(cache.get_or_insert_with("b", || 19), 19);
    assert_eq!(heard(), [("a", 6, Cause::Evicted)]);
    assert_eq!(cache.insert("b", 20), Ok(Some(19)));
    assert_eq!(heard(), [("b", 19, Cause::Replaced)]);
    assert_eq!(cache.remove("b"), Some(20));
    assert_eq!(heard(), [("b", 20, Cause::Removed)]);
    cache.extend([("c", 2), ("d", 3)]);
    cache.retain(|key, _| *key == "c");
    assert_eq!(heard(), [("d", 3, Cause::Removed)]);
    assert_eq!(cache.drain().count(), 1);
    assert_eq!(heard(), [("c", 2, Cause::Cleared)]);
}

#[test]
fn shared_values_are_changed() {
    let cache = sync::Cache::new(100).expect("a cache");
    cache.insert("seven", 7);
    assert_eq!(
        cache.get_mut_with("seven", |value| std::mem::replace(value, 8)),
        Some(7)
    );
    assert_eq!(cache.peek_mut_with("seven", |value| *value += 1), Some(()));
    assert_eq!(
        (cache.get("seven"), cache.hits(), cache.misses()),
        (Some(9), 2, 0)
    );
    assert_eq!(cache.get_mut_with("eight", |value: &mut i32| *value), None);
    assert_eq!(cache.peek_mut_with("eight", |value: &mut i32| *value), None);
    assert_eq!((cache.hits(), cache.misses()), (2, 1));
    assert_eq!(cache.get_key_value("seven"), Some(("seven", 9)));
    assert_eq!(cache.get_key_value("eight"), None);
    assert_eq!((cache.hits(), cache.misses()), (3, 2));
}

#[test]
fn copies_are_inserted() {
    let pairs = HashMap::from([(1u64, 1u64), (2, 2), (3, 13)]);
    let mut cache = sync::Cache::new(100).expect("a cache");
    cache.extend(&pairs);
    assert_eq!(cache.iter().collect::<HashMap<_, _>>(), pairs);
    let made = sync::WeightedCache::new(100, 10, |_: &u64, value: &u64| *value);
    let mut cache = made.expect("a cache");
    cache.extend(&pairs);
    assert_eq!((cache.len(), cache.peek(&3)), (2, None));
}
