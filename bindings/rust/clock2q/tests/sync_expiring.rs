//! Pairs that expire in the caches that threads share, and listeners that are called without a lock.

mod common;

use clock2q::{sync, Builder, Cause, Clock, TurnedClock};
use common::{calls, Draws};
use std::sync::atomic::{AtomicBool, AtomicU64, Ordering};
use std::sync::{Arc, OnceLock};
use std::thread;
use std::time::Duration;

/// In threads, while one of them turns the clock: a value has the moment at which its time is over.
#[test]
fn threads_see_nothing_past_its_time() {
    let clock = Arc::new(TurnedClock::default());
    // No locks of std's, which the thread sanitizer doesn't see.
    let heard: [AtomicU64; 5] = Default::default();
    let time = Duration::from_secs(20);
    let made = Builder::new(100)
        .time_to_live(time)
        .shared_listener(|_: &u64, _: &Duration, cause| {
            heard[cause as usize].fetch_add(1, Ordering::SeqCst);
        })
        .clock(Arc::clone(&clock))
        .build_shared();
    let cache = made.expect("a cache");
    let stored = AtomicU64::new(0);
    let work = |thread: u64| {
        let mut draws = Draws(thread + 1);
        let mut inserted = 0;
        // The moment at which a value's time is over, for the thread that turns the clock: for any other it may be
        // turned before the value is inserted.
        let over = || {
            if thread == 0 {
                clock.now() + time
            } else {
                Duration::MAX
            }
        };
        for _ in 0..(calls() / 50).max(2000) {
            let key = draws.below(200);
            let before = clock.now();
            match draws.below(20) {
                0..=4 => assert!(cache.get(&key).map_or(true, |end| end > before)),
                5 => assert!(cache.peek(&key).map_or(true, |end| end > before)),
                6 => assert!(cache.iter().all(|(_, end)| end > before)),
                7 => drop(cache.remove(&key)),
                8 => drop(cache.expire()),
                9 => cache.retain(|kept, _| kept % 16 != key % 16),
                10 => drop(cache.evict()),
                11 if thread == 0 => clock.turn(Duration::from_secs(1)),
                12 if key == 0 => cache.clear(),
                13..=15 => {
                    let end = cache.get_or_insert_with(key, || {
                        inserted += 1;
                        over()
                    });
                    assert!(end > before);
                }
                _ => {
                    inserted += 1;
                    assert!(cache.insert(key, over()).map_or(true, |end| end > before));
                }
            }
        }
        stored.fetch_add(inserted, Ordering::SeqCst);
    };
    thread::scope(|scope| {
        let work = &work;
        let started: Vec<_> = (0..4)
            .map(|thread| scope.spawn(move || work(thread)))
            .collect();
        for thread in started {
            thread.join().expect("no panic");
        }
    });
    let len = cache.len() as u64;
    let heard = heard.each_ref().map(|count| count.load(Ordering::SeqCst));
    let left: u64 = heard.iter().sum();
    // What was outdated while it was made was never here.
    assert!(left + len <= stored.load(Ordering::SeqCst));
    assert!(heard.iter().all(|count| *count > 0), "{heard:?}");
}

/// Each pair that entered a shared cache leaves once.
#[test]
fn each_pair_is_heard_once() {
    let heard: Vec<AtomicU64> = (0..20_000).map(|_| AtomicU64::new(0)).collect();
    let evicted = AtomicU64::new(0);
    let made = Builder::new(100)
        .shared_listener(|key: &u64, _: &(), cause| {
            heard[*key as usize].fetch_add(1, Ordering::SeqCst);
            evicted.fetch_add(u64::from(cause == Cause::Evicted), Ordering::SeqCst);
        })
        .policy(20, 10)
        .build_shared();
    let cache = made.expect("a cache");
    let insert = |thread: u64| {
        for key in (thread..20_000).step_by(4) {
            assert!(cache.insert(key, ()).is_none());
        }
    };
    thread::scope(|scope| {
        let insert = &insert;
        let started: Vec<_> = (0..4)
            .map(|thread| scope.spawn(move || insert(thread)))
            .collect();
        for thread in started {
            thread.join().expect("no panic");
        }
    });
    assert_eq!(cache.len(), 100);
    cache.resize(50).expect("it is smaller");
    assert_eq!(evicted.load(Ordering::SeqCst), 19_950);
    cache.clear();
    assert_eq!(evicted.load(Ordering::SeqCst), 19_950);
    assert!(heard.iter().all(|count| count.load(Ordering::SeqCst) == 1));
}

/// A listener may use the cache: no lock is held.
#[test]
fn listeners_use_the_cache() {
    type Heard = fn(&u64, &u64, Cause);
    static CACHE: OnceLock<sync::ExpiringCache<u64, u64, Heard, &TurnedClock>> = OnceLock::new();
    static CLOCK: OnceLock<TurnedClock> = OnceLock::new();
    static IS_USED: AtomicBool = AtomicBool::new(false);
    fn hear(key: &u64, _: &u64, _: Cause) {
        let cache = CACHE.get().expect("it was made");
        cache.get(key);
        IS_USED.store(cache.len() <= 10, Ordering::Relaxed);
    }
    let clock = CLOCK.get_or_init(TurnedClock::default);
    let cache = CACHE.get_or_init(|| {
        let builder = Builder::new(10).time_to_live(Duration::from_secs(9));
        let builder = builder.shared_listener(hear as Heard).clock(clock);
        builder.build_shared().expect("a cache")
    });
    let is_heard = || IS_USED.swap(false, Ordering::Relaxed);
    assert!((0..11).all(|key| cache.insert(key, key).is_none()));
    assert!(is_heard());
    cache.get_or_insert_with(20, || 20);
    assert!(is_heard());
    assert!(cache.insert(20, 21).is_some() && is_heard());
    assert!(cache.remove(&20).is_some() && is_heard());
    assert!(cache.evict().is_some() && is_heard());
    cache.retain(|key, _| key % 2 == 0);
    assert!(is_heard());
    clock.turn(Duration::from_secs(9));
    let key = (0..20).find(|key| cache.get(key).is_none() && is_heard());
    assert!(key.is_some());
    assert!(cache.expire() > 0 && is_heard());
    cache.insert(1, 1);
    cache.clear();
    assert!(is_heard() && cache.is_empty());
}
