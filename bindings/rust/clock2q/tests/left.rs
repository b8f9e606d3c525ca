//! What becomes of keys that left: the map gives them back or drops them, and the core keeps them in its history.

mod common;

use clock2q::proved::cache::Cache as Core;
use clock2q::proved::rattle::Global;
use clock2q::Cache;
use common::{calls, Constant, Draws, Few, Good, TwoBits};
use std::cell::Cell;
use std::hash::{BuildHasher, BuildHasherDefault, Hash, Hasher};
use std::panic::{catch_unwind, resume_unwind, AssertUnwindSafe};
use std::rc::Rc;

/// How many keys are alive, and which number panics as it is dropped.
#[derive(Default)]
struct Watch {
    alive: Cell<usize>,
    fatal: Cell<Option<u64>>,
}

/// A key that can't be cloned.
struct Key(u64, Rc<Watch>);

impl Key {
    fn new(number: u64, watch: &Rc<Watch>) -> Key {
        watch.alive.set(watch.alive.get() + 1);
        Key(number, Rc::clone(watch))
    }
}

impl Drop for Key {
    fn drop(&mut self) {
        self.1.alive.set(self.1.alive.get() - 1);
        if self.1.fatal.get() == Some(self.0) {
            self.1.fatal.set(None);
            resume_unwind(Box::new("a key"));
        }
    }
}

impl PartialEq for Key {
    fn eq(&self, other: &Key) -> bool {
        self.0 == other.0
    }
}

impl Eq for Key {}

impl Hash for Key {
    fn hash<H: Hasher>(&self, state: &mut H) {
        self.0.hash(state);
    }
}

#[test]
fn the_map_keeps_no_key_that_left() {
    let watch = Rc::new(Watch::default());
    let mut cache = Cache::with_hasher(20, Good::new()).expect("a cache");
    for number in 0..100 {
        let left = cache.push(Key::new(number, &watch), number);
        assert_eq!(left.is_some(), number >= 20);
        drop(left);
        assert_eq!(watch.alive.get(), cache.len());
    }
    let (key, value) = cache.evict().expect("a pair");
    assert_eq!((key.0, watch.alive.get()), (value, 20));
}

fn core_of(numbers: std::ops::Range<u64>, watch: &Rc<Watch>) -> Core<Key, u64, Good> {
    let capacity = 20.try_into().expect("it isn't 0");
    let mut core = Core::with_hasher(Global, capacity, Good::new()).expect("a cache");
    for number in numbers {
        core.put(Key::new(number, watch), number);
    }
    core
}

/// Why the map isn't the core with the caller's keys: its history owns half as many as are here.
#[test]
fn the_core_keeps_keys_that_left() {
    let watch = Rc::new(Watch::default());
    let mut core = core_of(0..100, &watch);
    assert_eq!((core.len(), watch.alive.get()), (20, 30));
    core.remove(&Key::new(99, &watch));
    assert_eq!((core.len(), watch.alive.get()), (19, 30));
}

/// And a key that leaves the history is dropped while the index lacks the one that enters.
#[test]
fn a_drop_that_panics_breaks_the_core() {
    let broken = (0..100).filter(|fatal| {
        let watch = Rc::new(Watch::default());
        let mut core = core_of(0..100, &watch);
        watch.fatal.set(Some(*fatal));
        let put = AssertUnwindSafe(|| core.put(Key::new(100, &watch), 100));
        let has_panicked = catch_unwind(put).is_err();
        watch.fatal.set(None);
        let is_whole = core.keys().all(|key| core.contains(key));
        assert!(has_panicked || is_whole);
        !is_whole
    });
    assert_eq!(broken.count(), 1);
}

/// Whether a key left is known by its hash, so that keys come back as those of a core that has the keys, whatever the
/// hasher is, as long as no two keys have one hash.
fn leaves_as_the_core_does<S: BuildHasher + Default>(distinct: u64) {
    for capacity in [1usize, 2, 3, 10, 100] {
        let some = capacity.try_into().expect("it isn't 0");
        let mut core = Core::with_hasher(Global, some, S::default()).expect("a cache");
        let mut cache = Cache::with_hasher(capacity, S::default()).expect("a cache");
        let mut draws = Draws(7);
        for number in 0..calls() as u64 / 20 {
            let key = draws.below(distinct.min(3 * capacity as u64));
            match draws.below(10) {
                0 => assert_eq!(cache.remove(&key).is_some(), core.remove(&key)),
                1..=3 => assert_eq!(cache.get(&key), core.get(&key)),
                4 | 5 => {
                    let kept = *cache.entry(key).or_insert(number);
                    assert_eq!(kept, *core.get_or_insert_with(key, || number));
                }
                6 if draws.below(9) == 0 => {
                    assert_eq!(cache.evict().map(|it| it.0), core.evict().map(|it| it.0))
                }
                _ => assert_eq!(cache.push(key, number), core.put_evicting(key, number)),
            }
            let next = cache.next_victim().map(|(key, _)| *key);
            assert_eq!(next, core.next_victim().map(|(key, _)| *key));
        }
    }
}

#[test]
fn keys_leave_as_those_of_the_core() {
    leaves_as_the_core_does::<Good>(u64::MAX);
    leaves_as_the_core_does::<BuildHasherDefault<Few<16>>>(250);
}

/// Keys of one hash take one another's place in the history, and no other: each is here or isn't, with its own value.
#[test]
fn keys_of_one_hash_have_one_history() {
    fn agrees<S: BuildHasher + Default>() {
        let mut cache = Cache::with_policy_and_hasher(8, 4, 2, S::default()).expect("a cache");
        let mut stored = std::collections::HashMap::new();
        let mut draws = Draws(3);
        for number in 0..calls() as u64 / 20 {
            let key = draws.below(20);
            assert!(cache
                .peek(&key)
                .map_or(true, |value| stored[&key] == *value));
            cache.insert(key, number);
            stored.insert(key, number);
            cache.remove(&draws.below(200));
            assert!(cache.len() <= 8);
        }
    }
    agrees::<Constant>();
    agrees::<TwoBits>();
}

/// In the largest caches those that left have an index of their own.
#[test]
#[ignore = "it takes 400 MB"]
fn the_largest_caches_remember_keys() {
    let capacity = 11_200_000;
    let small = 10;
    let mut cache: Cache<u32, ()> = Cache::with_policy(capacity, small, small).expect("a cache");
    let mut core = Core::with_policy(
        Global,
        capacity.try_into().expect("it isn't 0"),
        small,
        small,
        Good::new(),
    )
    .expect("a cache");
    let mut put = |key: u32| {
        let left = cache.push(key, ()).map(|(key, ())| key);
        assert_eq!(left, core.put_evicting(key, ()).map(|(key, ())| key));
    };
    (0..capacity as u32 + 100).for_each(&mut put);
    // These left Small, so that each goes to Main now.
    (capacity as u32 - small as u32..capacity as u32 + 100)
        .rev()
        .for_each(&mut put);
    (2 * capacity as u32..2 * capacity as u32 + 100).for_each(&mut put);
}
