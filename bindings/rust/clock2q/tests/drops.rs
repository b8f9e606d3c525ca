//! Keys and values that use a shared cache as they are dropped, which would wait for ever under a shard's lock.

mod common;

use clock2q::sync::{Cache, WeightedCache};
use common::TwoBits;
use std::cell::Cell;
use std::hash::{Hash, Hasher};
use std::panic::{catch_unwind, resume_unwind, AssertUnwindSafe};
use std::sync::{mpsc, Arc, Weak};
use std::thread;
use std::time::Duration;

thread_local! {
    /// How many comparisons go well until one panics.
    static UNTIL_PANIC: Cell<usize> = const { Cell::new(usize::MAX) };
}

/// What a key or a value calls as it is dropped: it takes the lock of each shard in turn.
trait Used: Send + Sync {
    fn used(&self) -> usize;
}

type Weighs = fn(&Key, &Value) -> u64;
type Plain = Cache<Key, Value, TwoBits>;
type Weighted = WeightedCache<Key, Value, Weighs, TwoBits>;

impl Used for Plain {
    fn used(&self) -> usize {
        self.len()
    }
}

impl Used for Weighted {
    fn used(&self) -> usize {
        self.len()
    }
}

struct User(Weak<dyn Used>);

impl Drop for User {
    fn drop(&mut self) {
        if let Some(cache) = self.0.upgrade() {
            cache.used();
        }
    }
}

struct Key(u64, User);

impl PartialEq for Key {
    fn eq(&self, other: &Key) -> bool {
        let until_panic = UNTIL_PANIC.with(Cell::get);
        if until_panic == 0 {
            resume_unwind(Box::new("a comparison"));
        }
        UNTIL_PANIC.with(|it| it.set(until_panic.saturating_sub(1)));
        self.0 == other.0
    }
}

impl Eq for Key {}

impl Hash for Key {
    fn hash<H: Hasher>(&self, state: &mut H) {
        self.0.hash(state);
    }
}

impl Clone for Key {
    fn clone(&self) -> Key {
        Key(self.0, User(Weak::clone(&self.1 .0)))
    }
}

struct Value(u64, Weak<dyn Used>, #[allow(dead_code)] User);

/// The weight of a value that can't be cloned.
const UNCLONED: u64 = 99;

impl Clone for Value {
    fn clone(&self) -> Value {
        if self.0 == UNCLONED {
            resume_unwind(Box::new("a clone"));
        }
        Value(self.0, Weak::clone(&self.1), User(Weak::clone(&self.1)))
    }
}

fn key(number: u64, of: &Weak<dyn Used>) -> Key {
    Key(number, User(Weak::clone(of)))
}

fn value(weight: u64, of: &Weak<dyn Used>) -> Value {
    Value(weight, Weak::clone(of), User(Weak::clone(of)))
}

/// Fails if the work waits for ever.
fn ends(work: impl FnOnce() + Send + 'static) {
    let (done, ended) = mpsc::channel();
    let worker = thread::spawn(move || {
        work();
        done.send(()).expect("somebody waits");
    });
    let ended = ended.recv_timeout(Duration::from_secs(60));
    assert_ne!(ended, Err(mpsc::RecvTimeoutError::Timeout), "it waits");
    worker.join().expect("no panic");
}

fn cache() -> (Arc<Plain>, Weak<dyn Used>) {
    let cache = Cache::with_shards_and_hasher(20, 1, TwoBits::default());
    let cache = Arc::new(cache.expect("a cache"));
    let of: Arc<dyn Used> = Arc::<Plain>::clone(&cache);
    (cache, Arc::downgrade(&of))
}

fn heavy(weighs: Weighs) -> (Arc<Weighted>, Weak<dyn Used>) {
    let cache = Weighted::with_shards_and_hasher(20, 100, 1, weighs, TwoBits::default());
    let cache = Arc::new(cache.expect("a cache"));
    let of: Arc<dyn Used> = Arc::<Weighted>::clone(&cache);
    (cache, Arc::downgrade(&of))
}

/// Calls with the first comparison that panics, then the second, and so on, until none does.
fn with_each_panic(mut call: impl FnMut()) {
    for until_panic in 0.. {
        UNTIL_PANIC.with(|it| it.set(until_panic));
        let called = catch_unwind(AssertUnwindSafe(&mut call));
        UNTIL_PANIC.with(|it| it.set(usize::MAX));
        if called.is_ok() {
            break;
        }
    }
}

/// A key that comes back to a cache that was resized has two leave.
#[test]
fn pairs_that_leave_use_the_cache() {
    ends(|| {
        for call in 0..3 {
            let (cache, of) = cache();
            for number in 0..20 {
                cache.insert(key(number, &of), value(1, &of));
            }
            cache.resize(19).expect("a capacity");
            let gone = (0..20).find(|number| !cache.contains_key(&key(*number, &of)));
            let gone = key(gone.expect("one left"), &of);
            match call {
                0 => drop(cache.insert(gone, value(1, &of))),
                1 => drop(cache.push(gone, value(1, &of))),
                _ => drop(cache.get_or_insert_with(gone, || value(1, &of))),
            }
            assert!((18..20).contains(&cache.len()));
            cache.insert(key(3, &of), value(1, &of));
            cache.remove(&key(4, &of));
            cache.clear();
            assert!(cache.is_empty());
        }
    });
}

/// What goes through the shards drops nothing under a lock, even if a closure or a clone panics.
#[test]
fn pairs_that_are_gone_through_use_the_cache() {
    ends(|| {
        let ((cache, of), (weighted, by_weight)) = (cache(), heavy(|_, _| 1));
        for call in 0..8 {
            for number in 0..20 {
                cache.insert(key(number, &of), value(number + 83, &of));
                drop(weighted.insert(key(number, &by_weight), value(number, &by_weight)));
            }
            match call {
                0 => cache.retain(|key, _| key.0 % 2 == 0),
                1 => drop((cache.evict(), weighted.evict())),
                2 => drop((cache.drain(), weighted.drain())),
                3 => drop(cache.remove_entry(&key(3, &of))),
                4 => drop(cache.peek(&key(5, &of))),
                5 => weighted.retain(|key, _| key.0 % 2 == 0),
                6 => {
                    let kept = AssertUnwindSafe(|| {
                        cache.retain(|key, _| match key.0 {
                            7 => resume_unwind(Box::new("a closure")),
                            _ => false,
                        });
                    });
                    assert!(catch_unwind(kept).is_err() && cache.len() == 13);
                }
                _ => {
                    let cloned = AssertUnwindSafe(|| cache.iter().count());
                    assert!(catch_unwind(cloned).is_err());
                    assert_eq!((cache.len(), weighted.iter().count()), (20, 20));
                }
            }
        }
    });
}

#[test]
fn pairs_that_leave_by_weight_use_the_cache() {
    ends(|| {
        let (cache, of) = heavy(|_, value| value.0);
        for number in 0..50 {
            let _ = cache.insert(key(number % 30, &of), value(number, &of));
            assert!(cache.insert(key(number, &of), value(101, &of)).is_err());
            cache.get_or_insert_with(key(number + 3, &of), || value(2 * number, &of));
            cache.remove(&key(number / 2, &of));
        }
        cache.set_max_weight(10);
        cache.clear();
        assert_eq!(cache.weight(), 0);
    });
}

#[test]
fn pairs_whose_comparison_panics_use_the_cache() {
    ends(|| {
        let ((cache, of), (weighted, by_weight)) = (cache(), heavy(|_, value| value.0));
        for number in 0..30 {
            with_each_panic(|| drop(cache.insert(key(number, &of), value(1, &of))));
            with_each_panic(|| {
                drop(cache.get_or_insert_with(key(number + 1, &of), || value(1, &of)))
            });
            with_each_panic(|| drop(cache.remove(&key(number / 2, &of))));
            let (of, cache) = (&by_weight, &weighted);
            with_each_panic(|| drop(cache.insert(key(number, of), value(9, of))));
            with_each_panic(|| {
                drop(cache.get_or_insert_with(key(number + 1, of), || value(9, of)))
            });
            with_each_panic(|| drop(cache.remove(&key(number / 2, of))));
        }
    });
}

#[test]
fn pairs_whose_weigher_panics_use_the_cache() {
    ends(|| {
        let (cache, of) = heavy(|_, _| resume_unwind(Box::new("a weigher")));
        let made = AssertUnwindSafe(|| cache.get_or_insert_with(key(1, &of), || value(1, &of)));
        assert!(catch_unwind(made).is_err() && cache.is_empty());
    });
}

/// What is made while its key is stored or removed goes to who made it, and isn't stored.
#[test]
fn outdated_values_use_the_cache() {
    ends(|| {
        let ((cache, of), (weighted, by_weight)) = (cache(), heavy(|_, value| value.0));
        for call in 0..4 {
            let made = cache.get_or_insert_with(key(call, &of), || {
                match call {
                    0 => drop(cache.insert(key(0, &of), value(5, &of))),
                    1 => drop(cache.push(key(1, &of), value(5, &of))),
                    2 => drop(cache.remove(&key(2, &of))),
                    _ => cache.clear(),
                }
                value(7, &of)
            });
            let kept = cache.get_with(&key(call, &of), |kept| kept.0);
            assert_eq!((made.0, kept), (7, (call < 2).then_some(5)));
            let (of, cache) = (&by_weight, &weighted);
            let made = cache.get_or_insert_with(key(call, of), || {
                match call {
                    0 => drop(cache.insert(key(0, of), value(5, of))),
                    1 => drop(cache.push(key(1, of), value(5, of))),
                    2 => drop(cache.remove(&key(2, of))),
                    _ => cache.clear(),
                }
                value(7, of)
            });
            let kept = cache.get_with(&key(call, of), |kept| kept.0);
            assert_eq!((made.0, kept), (7, (call < 2).then_some(5)));
        }
    });
}

/// A pair that is refused leaves all as it was, so that what is being made is stored.
#[test]
fn what_is_too_heavy_outdates_nothing() {
    ends(|| {
        let (cache, of) = heavy(|_, value| value.0);
        cache.get_or_insert_with(key(1, &of), || {
            assert!(cache.insert(key(1, &of), value(101, &of)).is_err());
            value(7, &of)
        });
        assert_eq!(cache.get_with(&key(1, &of), |kept| kept.0), Some(7));
    });
}
