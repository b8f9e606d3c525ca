//! The history that the caller sizes: what it admits, and what is refused, in every map that takes shares.

mod common;

use clock2q::{sync, Builder, Cache, Refused, WeightedCache};
use common::Good;

/// How many of twenty new keys hit in the fourth round of a loop over them, in a full cache for twenty. `insert` returns
/// true if its key was there.
fn hits(mut insert: impl FnMut(u64) -> bool) -> usize {
    for key in 0..20 {
        insert(key);
    }
    let mut rounds = (0..4).map(|_| (20..40).filter(|key| insert(*key)).count());
    rounds.nth(3).expect("four rounds")
}

fn one(_: &u64, _: &()) -> u64 {
    1
}

/// Small and the usual history have room for 12 of the 20 keys, and so none hits; with a history of 18 all do.
#[test]
fn a_longer_history_admits_a_longer_loop() {
    let mut usual = WeightedCache::with_policy(20, 2, 1, 100, one).expect("a cache");
    let mut longer = WeightedCache::with_history(20, 2, 1, 18, 100, one).expect("a cache");
    assert_eq!(hits(|key| usual.insert(key, ()) == Ok(Some(()))), 0);
    assert_eq!(hits(|key| longer.insert(key, ()) == Ok(Some(()))), 20);
    let usual = sync::Cache::with_policy(20, 2, 1).expect("a cache");
    let longer = sync::Cache::with_history(20, 2, 1, 18).expect("a cache");
    assert_eq!(hits(|key| usual.insert(key, ()).is_some()), 0);
    assert_eq!(hits(|key| longer.insert(key, ()).is_some()), 20);
    let longer = sync::WeightedCache::with_history(20, 2, 1, 18, 100, one).expect("a cache");
    assert_eq!(hits(|key| longer.insert(key, ()) == Ok(Some(()))), 20);
    for (history, hit) in [(10, 0), (18, 20)] {
        let builder = Builder::new(20).history(history);
        let mut alone = builder.clone().build().expect("a cache");
        assert_eq!(hits(|key| alone.insert(key, ()).is_some()), hit);
        let shared = builder.policy(2, 1).build_shared().expect("a cache");
        assert_eq!(hits(|key| shared.insert(key, ()).is_some()), hit);
    }
}

/// What isn't said is as usual: the same pairs leave as if it were said.
#[test]
fn what_is_not_said_is_as_usual() {
    for capacity in [1, 2, 9, 10, 11, 25, 100, 1000] {
        let small = if capacity > 1 {
            (capacity / 10).max(1)
        } else {
            0
        };
        let made = Builder::new(capacity).history(capacity / 2);
        let mut built = made.hasher(Good::new()).build().expect("a cache");
        let (window, history) = (small.div_ceil(2), capacity / 2);
        let mut said =
            Cache::with_history_and_hasher(capacity, small, window, history, Good::new())
                .expect("a cache");
        let mut usual = Cache::with_hasher(capacity, Good::new()).expect("a cache");
        let mut draws = common::Draws(1);
        for number in 0..20_000 {
            let key = draws.below(3 * capacity as u64) & draws.below(1024);
            let before = built.insert(key, number);
            assert_eq!(said.insert(key, number), before);
            assert_eq!(usual.insert(key, number), before);
        }
    }
}

/// Each shard remembers a part, of which some have none if there are few.
#[test]
fn it_is_divided_among_shards() {
    for (history, hit) in [(0, false), (40, false), (3600, true), (4000, true)] {
        let cache = sync::Cache::with_history(4000, 400, 200, history).expect("a cache");
        assert_eq!(cache.shards(), 16);
        for key in 0..4000 {
            cache.insert(key, ());
        }
        let round = || {
            (4000..7600)
                .filter(|key| cache.insert(*key, ()).is_some())
                .count()
        };
        let rounds: Vec<usize> = (0..8).map(|_| round()).collect();
        assert_eq!(rounds[7] > 3000, hit, "{history}: {rounds:?}");
    }
    let few = sync::Cache::<u64, ()>::with_history(4000, 400, 200, 5).expect("a cache");
    assert_eq!(few.shards(), 16);
}

#[test]
fn refusals() {
    assert_eq!(
        WeightedCache::with_history(10, 2, 1, 11, 10, one).err(),
        Some(Refused::Policy)
    );
    for (capacity, history, refused) in [
        (10, 11, Some(Refused::Policy)),
        (10, 10, None),
        (10, 0, None),
        (5000, 5001, Some(Refused::Policy)),
        (5000, 5000, None),
        (0, 0, Some(Refused::Capacity)),
    ] {
        assert_eq!(
            sync::Cache::<u64, u64>::with_history(capacity, 2, 1, history).err(),
            refused
        );
        assert_eq!(
            sync::WeightedCache::with_history(capacity, 2, 1, history, 10, one).err(),
            refused
        );
        let builder = Builder::<u64, u64>::new(capacity).history(history);
        assert_eq!(builder.clone().build().err(), refused);
        assert_eq!(builder.clone().build_shared().err(), refused);
        assert_eq!(builder.policy(2, 1).build_shared().err(), refused);
    }
}
