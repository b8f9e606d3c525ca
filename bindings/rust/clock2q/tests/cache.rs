//! The cache of any keys against a `HashMap`.

mod common;

use clock2q::{Cache, PageCache, Refused, MAX_CAPACITY};
use common::{calls, Constant, Draws, Good, Itself, TwoBits};
use std::collections::HashMap;
use std::hash::BuildHasher;

const CAPACITIES: [usize; 6] = [1, 2, 3, 10, 100, 1000];

/// A cache, the value stored last of each key that may be in it, and what was counted.
struct Beside<S> {
    cache: Cache<String, u64, S>,
    stored: HashMap<String, u64>,
    hits: u64,
    misses: u64,
}

impl<S: BuildHasher + Default> Beside<S> {
    fn new(capacity: usize) -> Self {
        Beside {
            cache: Cache::with_hasher(capacity, S::default()).expect("a cache"),
            stored: HashMap::new(),
            hits: 0,
            misses: 0,
        }
    }

    /// Whether the key is here, with the value that was stored last.
    fn is_here(&self, key: &str) -> bool {
        let value = self.cache.peek(key);
        assert!(value.is_none() || value == self.stored.get(key));
        assert_eq!(self.cache.contains_key(key), value.is_some());
        value.is_some()
    }

    fn count(&mut self, was_here: bool) {
        self.hits += u64::from(was_here);
        self.misses += u64::from(!was_here);
    }

    /// The pair that left is what the model has.
    fn leaves(&mut self, key: &str, value: u64) {
        assert_eq!(self.stored.remove(key), Some(value));
        assert!(!self.cache.contains_key(key));
    }

    fn look_up(&mut self, key: &str, number: u64) {
        let was_here = self.is_here(key);
        self.count(was_here);
        if number % 2 == 0 {
            assert_eq!(self.cache.get(key).is_some(), was_here);
        } else if let Some(value) = self.cache.get_mut(key) {
            *value = number;
            self.stored.insert(key.to_string(), number);
        }
    }

    fn store(&mut self, key: &str, number: u64) {
        let was_here = self.is_here(key);
        let before = self.stored.get(key).copied();
        if number % 2 == 0 {
            let old = self.cache.insert(key.to_string(), number);
            assert_eq!(old, before.filter(|_| was_here));
            self.stored.insert(key.to_string(), number);
        } else {
            match self.cache.push(key.to_string(), number) {
                Some((left, value)) if left == key => {
                    assert!(was_here);
                    assert_eq!(Some(value), before);
                }
                Some((left, value)) => {
                    assert!(!was_here);
                    self.leaves(&left, value);
                }
                None => assert!(!was_here),
            }
            self.stored.insert(key.to_string(), number);
        }
        assert!(self.is_here(key));
    }

    fn look_up_or_store(&mut self, key: &str, number: u64) {
        let was_here = self.is_here(key);
        self.count(was_here);
        if number % 5 == 0 {
            let len = self.cache.len();
            let made: Result<&mut u64, u64> = self
                .cache
                .try_get_or_insert_with(key.to_string(), || Err(number));
            assert_eq!(made.is_ok(), was_here);
            assert_eq!(self.cache.len(), len);
            assert_eq!(self.is_here(key), was_here);
            return;
        }
        let value = *self.cache.get_or_insert_with(key.to_string(), || number);
        if !was_here {
            self.stored.insert(key.to_string(), number);
        }
        assert_eq!(value, self.stored[key]);
        assert!(self.is_here(key));
    }

    fn remove(&mut self, key: &str) {
        let was_here = self.is_here(key);
        let removed = self.cache.remove_entry(key);
        assert_eq!(removed.is_some(), was_here);
        if let Some((held, value)) = removed {
            assert_eq!(held, key);
            self.leaves(key, value);
        }
    }

    fn evict(&mut self) {
        let len = self.cache.len();
        match self.cache.evict() {
            Some((key, value)) => {
                assert_eq!(self.cache.len(), len - 1);
                self.leaves(&key, value);
            }
            None => assert_eq!(len, 0),
        }
    }

    fn retain(&mut self, bound: u64) {
        let kept: HashMap<String, u64> = self
            .cache
            .iter()
            .filter(|(_, value)| **value % 16 < bound)
            .map(|(key, value)| (key.clone(), *value))
            .collect();
        self.cache.retain(|_, value| *value % 16 < bound);
        assert_eq!(self.cache.len(), kept.len());
        self.stored = kept;
    }

    fn call(&mut self, draws: &mut Draws, number: u64) {
        let key = draws.below(3 * self.cache.capacity() as u64).to_string();
        match draws.below(40) {
            0..=11 => self.look_up(&key, number),
            12..=23 => self.store(&key, number),
            24..=35 => self.look_up_or_store(&key, number),
            36..=38 => self.remove(&key),
            _ if draws.below(4) == 0 => self.evict(),
            _ if draws.below(60) == 0 => self.cache.clear(),
            _ if draws.below(4) == 0 => self.retain(draws.below(17)),
            _ => assert!(self.cache.iter_mut().all(|(_, value)| *value < u64::MAX)),
        }
        assert!(self.cache.len() <= self.cache.capacity());
        assert_eq!(self.cache.hits(), self.hits);
        assert_eq!(self.cache.misses(), self.misses);
    }

    /// Each iterator has each pair once.
    fn lists_all(self) {
        let len = self.cache.len();
        assert_eq!(self.cache.is_empty(), len == 0);
        assert_eq!(self.cache.iter().len(), len);
        assert_eq!(self.cache.iter().count(), len);
        let keys: Vec<_> = self.cache.keys().cloned().collect();
        let values: Vec<_> = self.cache.values().copied().collect();
        let zipped: Vec<_> = keys.into_iter().zip(values).collect();
        assert!(zipped.iter().all(|(key, value)| self.stored[key] == *value));
        let distinct: HashMap<_, _> = zipped.iter().cloned().collect();
        assert_eq!(distinct.len(), len);
        assert_eq!(self.cache.into_iter().collect::<Vec<_>>(), zipped);
    }
}

fn agrees<S: BuildHasher + Default>() {
    for capacity in CAPACITIES {
        let mut beside = Beside::<S>::new(capacity);
        let mut draws = Draws(88_172_645_463_325_252);
        for number in 0..calls() / CAPACITIES.len() {
            beside.call(&mut draws, number as u64);
            assert!(beside.cache.len() <= capacity);
        }
        beside.lists_all();
    }
}

#[test]
fn agrees_with_a_good_hasher() {
    agrees::<Good>();
}

#[test]
fn agrees_with_four_hashes() {
    agrees::<TwoBits>();
}

#[test]
fn agrees_with_one_hash() {
    agrees::<Constant>();
}

/// Each of the keys of one hash has a slot of its own, and the next takes the place of one that has to leave.
#[test]
fn keys_of_one_hash_are_beside_one_another() {
    let mut cache: Cache<usize, usize, Constant> =
        Cache::with_hasher(100, Constant::default()).expect("a cache");
    for key in 0..100 {
        assert_eq!(cache.push(key, key), None);
    }
    assert!((0..100).all(|key| cache.get(&key) == Some(&key)));
    for key in 100..10_000 {
        let (left, value) = cache.push(key, key).expect("one leaves");
        assert!(left == value && left < key);
        assert!(!cache.contains_key(&left) && cache.contains_key(&key));
        assert_eq!(cache.len(), 100);
    }
    assert_eq!(cache.remove(&9_999), Some(9_999));
    assert_eq!(cache.insert(10_000, 1), None);
}

/// The keys that are here are those that have a slot in a cache of their hashes.
#[test]
fn keys_leave_as_their_hashes_do() {
    for capacity in CAPACITIES {
        let mut cache: Cache<u64, u64, Itself> =
            Cache::with_hasher(capacity, Itself::default()).expect("a cache");
        let mut pages = PageCache::new(capacity).expect("a cache");
        let mut draws = Draws(1);
        for number in 0..calls() / CAPACITIES.len() {
            let key = draws.below(3 * capacity as u64);
            match draws.below(100) {
                0..=9 => assert_eq!(cache.remove(&key).is_some(), pages.remove(key)),
                10..=19 => assert_eq!(cache.contains_key(&key), pages.contains(key)),
                20..=49 => assert_eq!(cache.get(&key).is_some(), pages.find(key).is_some()),
                50..=79 => {
                    cache.insert(key, number as u64);
                    pages.enter(key);
                }
                80..=97 => {
                    cache.get_or_insert_with(key, || number as u64);
                    pages.enter(key);
                }
                98 if number % 2 == 0 => {
                    let left = pages.evict().map(|(key, _)| key);
                    assert_eq!(cache.evict().map(|(key, _)| key), left);
                }
                98 => {
                    cache.retain(|kept, _| kept % 8 != key % 8);
                    for gone in (key % 8..3 * capacity as u64).step_by(8) {
                        if pages.contains(gone) {
                            pages.remove(gone);
                        }
                    }
                }
                _ => {
                    cache.clear();
                    pages.clear();
                }
            }
            assert_eq!(cache.len(), pages.len());
        }
    }
}

#[test]
fn a_full_cache_exchanges_a_pair() {
    let mut cache = Cache::new(2).expect("a cache");
    assert_eq!(cache.push("seven", 7), None);
    assert_eq!(cache.push("eight", 8), None);
    assert_eq!(cache.push("seven", 70), Some(("seven", 7)));
    assert_eq!(cache.get("seven"), Some(&70));
    let (left, value) = cache.push("nine", 9).expect("a pair leaves");
    assert!([("seven", 70), ("eight", 8)].contains(&(left, value)));
    assert_eq!((cache.len(), cache.capacity()), (2, 2));
    assert_eq!(format!("{cache:?}"), "Cache { len: 2, capacity: 2 }");
}

/// As in a `HashMap`, the key that is stored already stays.
#[test]
fn the_first_of_equal_keys_stays() {
    #[derive(Debug)]
    struct Named(u64, &'static str);
    impl PartialEq for Named {
        fn eq(&self, other: &Named) -> bool {
            self.0 == other.0
        }
    }
    impl Eq for Named {}
    impl std::hash::Hash for Named {
        fn hash<H: std::hash::Hasher>(&self, state: &mut H) {
            self.0.hash(state);
        }
    }
    let mut cache = Cache::new(2).expect("a cache");
    cache.insert(Named(7, "first"), 1);
    assert_eq!(cache.insert(Named(7, "second"), 2), Some(1));
    let (key, value) = cache.push(Named(7, "third"), 3).expect("a pair before");
    assert_eq!((key.1, value), ("third", 2));
    assert_eq!(cache.keys().next().expect("a key").1, "first");
}

#[test]
fn pairs_are_pushed_in_turn() {
    let mut cache = Cache::with_policy(10, 2, 1).expect("a cache");
    cache.extend((0..100u64).map(|number| (number, number * 2)));
    assert_eq!(cache.len(), 10);
    for (_, value) in &mut cache {
        *value += 1;
    }
    assert!((&cache)
        .into_iter()
        .all(|(key, value)| *value == key * 2 + 1));
}

/// A full cache never hits a loop that is longer than Small and the history, and one that isn't from the third round on.
#[test]
fn a_longer_history_admits_a_longer_loop() {
    fn hits(mut cache: Cache<u64, ()>) -> usize {
        cache.extend((0..20).map(|key| (key, ())));
        let mut rounds = (0..4).map(|_| {
            (20..40)
                .filter(|key| cache.insert(*key, ()).is_some())
                .count()
        });
        rounds.nth(3).expect("four rounds")
    }
    assert_eq!(hits(Cache::with_policy(20, 2, 1).expect("a cache")), 0);
    assert_eq!(
        hits(Cache::with_history(20, 2, 1, 18).expect("a cache")),
        20
    );
    let copy = Cache::with_history(20, 2, 1, 18).expect("a cache").clone();
    assert_eq!(hits(copy), 20);
}

#[test]
fn refusals() {
    fn refused(made: Result<Cache<u64, u64>, Refused>) -> Option<Refused> {
        made.err()
    }
    assert_eq!(refused(Cache::new(0)), Some(Refused::Capacity));
    assert_eq!(
        refused(Cache::new(MAX_CAPACITY + 1)),
        Some(Refused::Capacity)
    );
    assert_eq!(
        refused(Cache::with_policy(10, 10, 1)),
        Some(Refused::Policy)
    );
    assert_eq!(refused(Cache::with_policy(10, 0, 0)), None);
    assert_eq!(
        refused(Cache::with_history(10, 2, 1, 11)),
        Some(Refused::Policy)
    );
    assert_eq!(refused(Cache::with_history(10, 2, 1, 10)), None);
    let huge = Cache::<[u8; 1 << 25], ()>::new(MAX_CAPACITY);
    assert_eq!(huge.err(), Some(Refused::Memory));
}
