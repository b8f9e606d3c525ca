//! Pairs that expire by a clock that the tests turn, and listeners that hear who leaves, and why.

mod common;

use clock2q::MAX_CAPACITY;
use clock2q::{sync, Builder, Cache, Cause, Clock, ExpiringCache, Refused, TurnedClock};
use common::{calls, Constant, Draws, Good, Itself, TwoBits};
use std::cell::RefCell;
use std::collections::HashMap;
use std::hash::BuildHasher;
use std::panic::{catch_unwind, resume_unwind, AssertUnwindSafe};
use std::sync::Arc;
use std::time::Duration;

type Left = (u64, u64, Cause);

/// A cache's pairs with the moments of their ends, by key, and what has to be heard.
struct Model {
    pairs: HashMap<u64, (u64, Duration)>,
    clock: Arc<TurnedClock>,
}

impl Model {
    fn is_over(&self, key: u64) -> bool {
        self.pairs[&key].1 <= self.clock.now()
    }

    fn fresh(&self, key: u64) -> Option<u64> {
        let pair = self.pairs.get(&key);
        pair.filter(|pair| pair.1 > self.clock.now())
            .map(|pair| pair.0)
    }

    /// Each pair leaves once, because its time is over if it is, or else for one of these reasons.
    fn hears(&mut self, left: &RefCell<Vec<Left>>, causes: &[Cause]) {
        for (key, value, cause) in left.borrow_mut().drain(..) {
            let is_over = self.is_over(key);
            assert_eq!(is_over, cause == Cause::Expired);
            assert!(is_over || causes.contains(&cause), "{cause:?}");
            assert_eq!(self.pairs.remove(&key).map(|pair| pair.0), Some(value));
        }
    }
}

fn expires<S: BuildHasher + Default>(capacity: usize) {
    let left = RefCell::new(Vec::new());
    let clock = Arc::new(TurnedClock::default());
    let time = Duration::from_secs(10 + capacity as u64);
    let made = Builder::new(capacity)
        .time_to_live(time)
        .listener(|key: &u64, value: &u64, cause| left.borrow_mut().push((*key, *value, cause)))
        .clock(Arc::clone(&clock))
        .hasher(S::default())
        .build();
    let mut cache = made.expect("a cache");
    let mut model = Model {
        pairs: HashMap::new(),
        clock: Arc::clone(&clock),
    };
    let mut draws = Draws(9);
    for number in 0..calls() as u64 / 30 {
        let key = draws.below(3 * capacity as u64);
        let fresh = model.fresh(key);
        clock.turn(Duration::from_secs(u64::from(draws.below(3) == 0)));
        let fresh = fresh.filter(|_| !model.is_over(key));
        match draws.below(24) {
            0..=4 => {
                assert_eq!(cache.get(&key).copied(), fresh);
                model.hears(&left, &[]);
                assert!(fresh.is_some() || !model.pairs.contains_key(&key));
            }
            5 => assert_eq!(cache.peek(&key).copied(), fresh),
            6 => assert_eq!(cache.contains_key(&key), fresh.is_some()),
            7..=12 => {
                let time = [Some(time), None, Some(Duration::ZERO), Some(time / 2)]
                    [draws.below(4) as usize];
                assert_eq!(cache.insert_for(key, number, time), fresh);
                model.hears(&left, &[Cause::Replaced, Cause::Evicted]);
                let until = time.map_or(Duration::MAX, |time| clock.now() + time);
                model.pairs.insert(key, (number, until));
            }
            13..=18 => {
                let made = *cache.get_or_insert_with(key, || number);
                assert_eq!(made, fresh.unwrap_or(number));
                model.hears(&left, &[Cause::Evicted]);
                let pair = (number, clock.now() + time);
                model.pairs.entry(key).or_insert(pair);
            }
            19 => {
                assert_eq!(cache.remove(&key), fresh);
                model.hears(&left, &[Cause::Removed]);
                assert!(!model.pairs.contains_key(&key));
            }
            20 if draws.below(4) == 0 => {
                let pair = cache.evict();
                let last = left.borrow().last().map(|left| (left.0, left.1));
                assert!(pair.is_none() || pair == last);
                assert!(pair.is_some() || cache.is_empty());
                model.hears(&left, &[Cause::Evicted]);
            }
            21 if draws.below(4) == 0 => {
                let over = model.pairs.keys().filter(|key| model.is_over(**key));
                assert_eq!(over.count(), cache.expire());
                model.hears(&left, &[]);
            }
            22 if draws.below(4) == 0 => {
                cache.retain(|kept, _| kept % 8 != key % 8);
                model.hears(&left, &[Cause::Removed]);
                assert!(model.pairs.keys().all(|kept| !model.is_over(*kept)));
            }
            23 if draws.below(30) == 0 => {
                cache.clear();
                model.hears(&left, &[Cause::Cleared]);
                assert!(model.pairs.is_empty());
            }
            23 if draws.below(9) == 0 => {
                let limit = 1 + draws.below(2 * capacity as u64) as usize;
                assert_eq!(cache.resize(limit), Ok(()));
                model.hears(&left, &[Cause::Evicted]);
                assert_eq!(cache.capacity(), limit);
            }
            _ => {
                let pairs = cache.iter().map(|(key, value)| (*key, *value));
                let fresh = model.pairs.keys().filter(|key| !model.is_over(**key));
                let fresh = fresh.map(|key| (*key, model.pairs[key].0));
                assert_eq!(pairs.collect::<HashMap<_, _>>(), fresh.collect());
            }
        }
        assert!(left.borrow().is_empty(), "{:?}", left.borrow());
        assert_eq!(cache.len(), model.pairs.len());
    }
    for refused in [0, MAX_CAPACITY + 1] {
        assert_eq!(cache.resize(refused), Err(Refused::Capacity));
    }
    assert_eq!(cache.len(), model.pairs.len());
}

#[test]
fn nothing_is_returned_past_its_time() {
    for capacity in [1, 2, 3, 10, 100] {
        expires::<Good>(capacity);
        expires::<TwoBits>(capacity);
        expires::<Constant>(capacity);
    }
}

/// What expires leaves as what is removed: the rest of the cache goes on as one whose owner removes it.
#[test]
fn to_expire_is_to_be_removed() {
    for capacity in [2, 10, 100] {
        let clock = Arc::new(TurnedClock::default());
        let builder = Builder::new(capacity).time_to_live(Duration::from_secs(30));
        let builder = builder.clock(Arc::clone(&clock)).hasher(Itself::default());
        let mut cache: ExpiringCache<u64, u64, _, _, _> = builder.build().expect("a cache");
        let mut plain = Cache::with_hasher(capacity, Itself::default()).expect("a cache");
        let mut ends = HashMap::new();
        let mut draws = Draws(2);
        for number in 0..calls() as u64 / 30 {
            clock.turn(Duration::from_secs(draws.below(2)));
            let key = draws.below(3 * capacity as u64);
            let is_over = ends.get(&key).is_some_and(|end| *end <= clock.now());
            if is_over && plain.contains_key(&key) {
                plain.remove(&key);
            }
            if draws.below(3) == 0 {
                assert_eq!(cache.get(&key), plain.get(&key));
            } else {
                assert_eq!(cache.insert(key, number), plain.insert(key, number));
                ends.insert(key, clock.now() + Duration::from_secs(30));
            }
            if draws.below(50) == 0 {
                cache.expire();
                plain.retain(|key, _| ends[key] > clock.now());
            }
            assert_eq!(cache.len(), plain.len());
            assert_eq!(
                (cache.hits(), cache.misses()),
                (plain.hits(), plain.misses())
            );
        }
    }
}

/// A listener that panics leaves a whole cache.
#[test]
fn listeners_may_panic() {
    let made = Builder::new(3)
        .listener(|_: &u64, _: &u64, _| resume_unwind(Box::new("a listener")))
        .build();
    let mut cache = made.expect("a cache");
    let mut panics = 0;
    for number in 0..100 {
        let mut run = |call: &mut dyn FnMut()| {
            panics += usize::from(catch_unwind(AssertUnwindSafe(call)).is_err())
        };
        run(&mut || _ = cache.insert(number % 7, number));
        assert_eq!(cache.peek(&(number % 7)), Some(&number));
        run(&mut || _ = cache.get_or_insert_with(number % 5, || number));
        assert!(cache.contains_key(&(number % 5)));
        run(&mut || _ = cache.remove(&(number % 5)));
        assert!(!cache.contains_key(&(number % 5)));
        assert_eq!(cache.iter().count(), cache.len());
    }
    assert!(panics > 100);
}

#[test]
fn what_is_made() {
    let mut cache = ExpiringCache::new(2, Duration::from_secs(3600)).expect("a cache");
    assert_eq!(cache.insert("seven", 7), None);
    *cache.get_mut("seven").expect("it is here") += 1;
    assert_eq!(cache.insert("seven", 9), Some(8));
    assert_eq!(
        format!("{cache:?}"),
        "ExpiringCache { len: 1, capacity: 2 }"
    );
    let shared = sync::ExpiringCache::new(2, Duration::ZERO).expect("a cache");
    assert_eq!(shared.get_or_insert_with("seven", || 7), 7);
    assert_eq!((shared.get("seven"), shared.len()), (None, 0));
    let refused =
        |builder: Builder<u8, u8>| (builder.clone().build().err(), builder.build_shared().err());
    assert_eq!(
        refused(Builder::new(0)),
        (Some(Refused::Capacity), Some(Refused::Capacity))
    );
    assert_eq!(
        refused(Builder::new(2).policy(2, 1)),
        (Some(Refused::Policy), Some(Refused::Policy))
    );
}
