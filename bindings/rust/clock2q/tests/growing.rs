//! Caches whose capacity is raised: the pairs stay in their order, with their hits, and what left stays remembered.

mod common;
mod machine;

use clock2q::{sync, Builder, Cache, Refused, WeightedCache, MAX_CAPACITY};
use common::{calls, Draws, Itself};
use machine::Model;
use std::collections::BTreeSet;
use std::time::Duration;

/// What is asked for: the first capacity, maybe Small and its window, and maybe the history.
type Asked = (usize, Option<(usize, usize)>, Option<usize>);

const ASKED: [Asked; 8] = [
    (1, None, None),
    (2, None, None),
    (10, None, None),
    (100, None, None),
    (5, Some((0, 0)), None),
    (10, Some((3, 2)), None),
    (10, Some((4, 4)), Some(10)),
    (50, Some((5, 3)), Some(0)),
];

/// A map whose keys have hashes of their own, and the machine that it is then, in which there are fewer pairs at times.
struct Beside {
    cache: Cache<u64, u64, Itself>,
    model: Model,
    asked: Asked,
    limit: usize,
}

impl Beside {
    fn new(asked: Asked) -> Beside {
        let hasher = Itself::default();
        let (shares, history) = shares(asked, asked.0);
        let cache =
            Cache::with_history_and_hasher(asked.0, shares.1, shares.2, history, hasher.clone());
        let cache = match asked {
            (capacity, None, None) => Cache::with_hasher(capacity, hasher),
            (capacity, Some((small, window)), None) => {
                Cache::with_policy_and_hasher(capacity, small, window, hasher)
            }
            _ => cache,
        };
        let mut model = Model::new(shares);
        model.limit = history;
        Beside {
            cache: cache.expect("a cache"),
            model,
            asked,
            limit: asked.0,
        }
    }

    fn len(&self) -> usize {
        self.model.residents().count()
    }

    fn push(&mut self, key: u64, number: u64) {
        self.cache.push(key, number);
        if let Some(slot) = self.model.slot(key) {
            self.model.hit(slot);
            return;
        }
        if self.limit < self.model.capacity && self.len() >= self.limit {
            self.model.evict();
        }
        self.model.insert(key, number);
    }

    fn get(&mut self, key: u64) {
        let slot = self.model.slot(key);
        assert_eq!(self.cache.get(&key).is_some(), slot.is_some());
        slot.map(|slot| self.model.hit(slot));
    }

    fn resize(&mut self, limit: usize) {
        assert_eq!(self.cache.resize(limit), Ok(()));
        assert_eq!(self.cache.capacity(), limit);
        while self.len() > limit {
            self.model.evict();
        }
        if limit > self.model.capacity {
            let (shares, history) = shares(self.asked, limit);
            self.model.grow(shares, history);
        }
        self.limit = limit;
    }

    fn call(&mut self, draws: &mut Draws, number: u64) {
        let key = draws.below(2 * self.limit as u64 + 8);
        match draws.below(1000) {
            0..=599 => self.push(key, number),
            600..=899 => self.get(key),
            900..=949 => assert_eq!(self.cache.remove(&key).is_some(), self.model.remove(key)),
            950..=994 => {
                let left = self.cache.evict().map(|(key, _)| key);
                assert_eq!(left, self.model.evict().map(|(key, _)| key));
            }
            _ => self.resize(1 + draws.below(3 * self.asked.0 as u64 + number / 500) as usize),
        }
        let next = self.cache.next_victim().map(|(key, _)| *key);
        assert_eq!(next, self.model.next_victim().map(|(key, _)| key));
        assert_eq!(self.cache.len(), self.len());
    }
}

/// Returns the capacity, Small, its window and the history of a capacity.
fn shares((_, small, history): Asked, capacity: usize) -> ((usize, usize, usize), usize) {
    let tenth = (capacity / 10).max(1).min(capacity - 1);
    let (small, window) = small.unwrap_or((tenth, tenth.div_ceil(2)));
    let history = history.unwrap_or(capacity / 2);
    ((capacity, small, window), history)
}

#[test]
fn it_goes_on_as_the_model_does() {
    for asked in ASKED {
        let mut beside = Beside::new(asked);
        let mut draws = Draws(1 + asked.0 as u64);
        for number in 0..(calls() / 3 / ASKED.len()) as u64 {
            beside.call(&mut draws, number);
        }
        while let Some((key, _)) = beside.cache.evict() {
            assert_eq!(Some(key), beside.model.evict().map(|(key, _)| key));
        }
        assert_eq!(beside.len(), 0);
    }
}

/// No pair leaves, so that no listener hears of one, and there is room for as many more.
#[test]
fn no_pair_leaves() {
    fn leaves(_: &u64, _: &u64, _: clock2q::Cause) {
        panic!("no pair leaves");
    }
    let (weigher, hour) = (|_: &u64, value: &u64| *value, Duration::from_secs(3600));
    let weighted = WeightedCache::new(100, 9000, weigher).expect("a cache");
    let mut weighted = weighted.heard_by(leaves);
    let builder = Builder::new(100).time_to_live(hour);
    let mut expiring = builder.listener(leaves).build().expect("a cache");
    for number in 0..1000 {
        if number == 100 {
            assert_eq!(
                (weighted.resize(1000), expiring.resize(1000)),
                (Ok(()), Ok(()))
            );
        }
        assert_eq!(weighted.insert(number, 9), Ok(None));
        assert_eq!(expiring.insert(number, number), None);
    }
    assert_eq!((weighted.len(), weighted.weight()), (1000, 9000));
    assert_eq!((expiring.len(), expiring.get(&0)), (1000, Some(&0)));
}

#[test]
fn no_pair_leaves_a_shard() {
    let weigher = |_: &u64, value: &u64| *value;
    let cache = sync::Cache::new(1000).expect("a cache");
    let weighted = sync::WeightedCache::new(1000, 100_000, weigher).expect("a cache");
    let expiring = Builder::new(1000).build_shared().expect("a cache");
    let keys = || {
        let (mut weighed, mut timed) = (BTreeSet::new(), BTreeSet::new());
        weighted.for_each(|key, _| _ = weighed.insert(*key));
        expiring.for_each(|key, _| _ = timed.insert(*key));
        (
            cache.iter().map(|(key, _)| key).collect::<BTreeSet<u64>>(),
            weighed,
            timed,
        )
    };
    let insert = |number| {
        cache.insert(number, number);
        assert!(weighted.insert(number, 1).is_ok());
        expiring.insert(number, number);
    };
    (0..2000).for_each(insert);
    let before = keys();
    assert_eq!(
        (cache.resize(50_000), weighted.resize(50_000)),
        (Ok(()), Ok(()))
    );
    assert_eq!(
        (expiring.resize(50_000), expiring.capacity()),
        (Ok(()), 50_000)
    );
    assert_eq!(keys(), before);
    (2000..12_000).for_each(insert);
    assert_eq!((cache.len(), cache.shards()), (before.0.len() + 10_000, 15));
    assert_eq!(
        (weighted.len(), weighted.capacity()),
        (before.1.len() + 10_000, 50_000)
    );
    assert_eq!(expiring.len(), before.2.len() + 10_000);
}

/// A refusal changes nothing.
#[test]
fn refusals() {
    let mut cache = Cache::new(3).expect("a cache");
    cache.extend([(1, 1), (2, 2), (3, 3)]);
    for refused in [0, MAX_CAPACITY + 1, usize::MAX] {
        assert_eq!(cache.resize(refused), Err(Refused::Capacity));
        assert_eq!((cache.len(), cache.capacity()), (3, 3));
    }
    let shared = sync::Cache::<u64, u64>::new(1000).expect("a cache");
    for refused in [0, 14, 15 * MAX_CAPACITY + 1] {
        assert_eq!(shared.resize(refused), Err(Refused::Capacity));
        assert_eq!(shared.capacity(), 1000);
    }
}
