//! The erased core against a plain model of the machine that it is proved to be: the same replies, slots, victims and
//! history, whatever the hasher, and whenever it grows.

mod common;
mod machine;

use clock2q::proved::cache::{Cache, CacheError, Occupant};
use clock2q::proved::rattle::Global;
use common::{calls, Constant, Draws, Good, TwoBits};
use machine::Model;
use std::hash::BuildHasher;

/// Small's share, and the window, of some capacities.
const SHARES: [(usize, usize, usize); 12] = [
    (1, 0, 0),
    (2, 1, 1),
    (3, 1, 1),
    (3, 2, 1),
    (5, 0, 0),
    (7, 6, 6),
    (10, 1, 1),
    (16, 8, 3),
    (30, 3, 2),
    (40, 20, 20),
    (100, 10, 5),
    (250, 25, 13),
];

/// A cache and its model.
struct Beside<S: BuildHasher> {
    cache: Cache<u64, u64, S>,
    model: Model,
    /// It grows at random below this capacity.
    grows_below: usize,
}

impl<S: BuildHasher> Beside<S> {
    fn put(&mut self, key: u64, value: u64, kind: u64) {
        let found = self.model.slot(key);
        let before = found.map(|slot| self.model.values[slot]);
        let had = self.model.values.clone();
        let (slot, left) = match found {
            Some(slot) => {
                self.model.hit(slot);
                self.model.values[slot] = value;
                (slot, None)
            }
            None => self.model.insert(key, value),
        };
        match kind {
            0 => assert_eq!(self.cache.put(key, value), before),
            1 => {
                let gone = left.map(|left| (left, had[slot]));
                let replaced = before.map(|before| (key, before));
                assert_eq!(self.cache.put_evicting(key, value), replaced.or(gone));
            }
            2 => {
                let other = left.map_or(Occupant::Nobody, Occupant::Other);
                let occupant = found.map_or(other, |_| Occupant::Itself);
                assert_eq!(self.cache.put_slot(key, value), (slot, occupant));
            }
            _ => {
                let is_made = slot == had.len();
                let (at, place, entered) = self.cache.enter(key, || 7);
                assert_eq!((at, entered.is_hit), (slot, found.is_some()));
                assert_eq!(entered.has_evicted, left.is_some());
                assert_eq!(*place, if is_made { 7 } else { had[slot] });
                *place = value;
            }
        }
    }

    fn look_up(&mut self, key: u64, kind: u64) {
        let found = self.model.slot(key);
        let mut value = found.map(|slot| self.model.values[slot]);
        match kind {
            0 => assert_eq!(self.cache.get(&key).copied(), value),
            1 => assert_eq!(self.cache.slot(&key), found),
            2 => assert_eq!(self.cache.get_mut(&key).copied(), value),
            3 => {
                let at = found.unwrap_or(0);
                assert_eq!(self.cache.get_at(at, &key).copied(), value);
            }
            4 => {
                assert_eq!(self.cache.peek(&key).copied(), value);
                assert_eq!(self.cache.peek_slot(&key), found);
                assert_eq!(self.cache.contains(&key), found.is_some());
                return;
            }
            5 => {
                let made: Result<&u64, u64> = self.cache.try_get_or_insert_with(key, || Err(key));
                assert_eq!(made.copied(), value.ok_or(key));
            }
            _ => {
                if found.is_none() {
                    self.model.insert(key, 2 * key);
                    value = Some(2 * key);
                }
                let made = self.cache.get_or_insert_with(key, || 2 * key);
                assert_eq!(Some(*made), value);
            }
        }
        if let Some(slot) = found {
            self.model.hit(slot);
        }
    }

    fn take_out(&mut self, key: u64, slot: usize, kind: u64) {
        match kind {
            0 => assert_eq!(self.cache.remove(&key), self.model.remove(key)),
            1 => assert_eq!(self.cache.evict(), self.model.evict()),
            2 => {
                let there = self.model.residents().any(|it| it.slot == slot);
                assert_eq!(self.cache.remove_slot(slot), there);
                if there {
                    self.model.vacate(slot);
                }
            }
            3 => assert_eq!(self.cache.hit_slot(slot), self.model.hit(slot)),
            _ => {
                let gone = self.model.entries();
                for (_, slot, value) in gone.iter().filter(|it| it.2 % 8 == key % 8) {
                    assert_eq!(value % 8, key % 8);
                    self.model.vacate(*slot);
                }
                self.cache.retain(|_, value| value % 8 != key % 8);
            }
        }
    }

    /// Raises some of the shares.
    fn grow(&mut self, draws: &mut Draws) {
        let mut more = |bound| draws.below(bound) as usize;
        let model = &mut self.model;
        let small = model.small_share + more(3);
        let capacity = small + model.capacity - model.small_share + more(4);
        let window = (model.window + more(3)).clamp(small.min(1), small);
        let history = (model.limit + more(4)).min(capacity);
        let some = capacity.try_into().expect("it isn't 0");
        let grown = self.cache.grow_with_history(some, small, window, history);
        assert_eq!(grown, Ok(()));
        model.grow((capacity, small, window), history);
    }

    fn call(&mut self, draws: &mut Draws, number: u64) {
        let key = draws.below(3 * self.model.capacity as u64 + 1);
        let slot = draws.below(self.model.capacity as u64 + 2) as usize;
        match draws.below(200) {
            0..=89 => self.put(key, number, draws.below(4)),
            90..=179 => self.look_up(key, draws.below(7)),
            180..=198 => self.take_out(key, slot, draws.below(20).saturating_sub(15).min(4)),
            _ if self.model.capacity < self.grows_below => self.grow(draws),
            _ if draws.below(20) == 0 => {
                self.cache.clear();
                self.model.clear();
            }
            _ => {
                let entries = self
                    .cache
                    .iter()
                    .map(|(key, slot, value)| (*key, slot, *value));
                assert_eq!(entries.collect::<Vec<_>>(), self.model.entries());
            }
        }
        assert_eq!(self.cache.len(), self.model.residents().count());
        let next = self.cache.next_victim().map(|(key, slot)| (*key, slot));
        assert_eq!(next, self.model.next_victim());
    }
}

fn agrees<S: BuildHasher + Default>() {
    for shares in SHARES {
        let (capacity, small, window) = shares;
        let some = capacity.try_into().expect("no capacity is 0");
        let cache = Cache::with_policy(Global, some, small, window, S::default());
        let mut beside = Beside {
            cache: cache.expect("a cache"),
            model: Model::new(shares),
            grows_below: 0,
        };
        let mut draws = Draws(1 + capacity as u64);
        for number in 0..calls() / SHARES.len() {
            if number == calls() / SHARES.len() / 2 {
                beside.grows_below = 3 * capacity + 20;
            }
            beside.call(&mut draws, number as u64);
        }
    }
}

#[test]
fn agrees_with_a_good_hasher() {
    agrees::<Good>();
}

#[test]
fn agrees_with_four_hashes() {
    agrees::<TwoBits>();
}

#[test]
fn agrees_with_one_hash() {
    agrees::<Constant>();
}

/// The shares that a capacity has if nothing else is said.
fn usual(capacity: usize) -> (usize, usize, usize) {
    let small = if capacity > 1 {
        (capacity / 10).max(1)
    } else {
        0
    };
    (capacity, small, small.div_ceil(2))
}

/// A cache has them, and also one that was made smaller and grew.
#[test]
fn the_usual_shares() {
    for (made, grown) in (1..=250).flat_map(|made| [(made, made), (made, made + made / 3 + 1)]) {
        let some = |capacity: usize| capacity.try_into().expect("it isn't 0");
        let mut cache: Cache<u64, u64> = Cache::new(Global, some(made)).expect("a cache");
        let mut model = Model::new(usual(made));
        for number in 0..1000 {
            if number == 500 {
                assert_eq!(cache.grow(some(grown)), Ok(()));
                model.grow(usual(grown), grown / 2);
            }
            let key = number * number % 371;
            if model.slot(key).is_none() {
                model.insert(key, number);
            } else {
                let slot = model.slot(key).expect("it is here");
                model.hit(slot);
                model.values[slot] = number;
            }
            cache.put(key, number);
            let next = cache.next_victim().map(|(key, slot)| (*key, slot));
            assert_eq!(next, model.next_victim());
        }
    }
}

#[test]
fn refusals() {
    let made = |capacity: usize, small, window| {
        let some = capacity.try_into().expect("it isn't 0");
        let made: Result<Cache<u64, u64, Good>, _> =
            Cache::with_policy(Global, some, small, window, Good::default());
        made.err()
    };
    assert_eq!(made(1 << 24, 0, 0), Some(CacheError::Capacity));
    for (small, window) in [(7, 1), (8, 8), (0, 1), (1, 0), (3, 4)] {
        assert_eq!(made(7, small, window), Some(CacheError::Policy));
    }
    assert_eq!(made(7, 6, 6), None);
}

/// No share becomes smaller. A growth that is refused changes nothing.
#[test]
fn refused_growth() {
    let some = |capacity: usize| capacity.try_into().expect("it isn't 0");
    let hasher = Good::default();
    let made = Cache::with_history(Global, some(10), 3, 2, 5, hasher);
    let mut cache: Cache<u64, u64, Good> = made.expect("a cache");
    (0..20).for_each(|key| _ = cache.put(key, key));
    let entries = |cache: &Cache<u64, u64, Good>| {
        let entries = cache.iter().map(|(key, slot, _)| (*key, slot));
        (cache.capacity(), entries.collect::<Vec<_>>())
    };
    let before = entries(&cache);
    for (capacity, small, window, history) in [
        (9, 3, 2, 5),
        (11, 5, 2, 5),
        (12, 2, 2, 5),
        (12, 3, 1, 5),
        (12, 3, 2, 4),
        (12, 3, 2, 13),
        (12, 3, 4, 5),
        (12, 12, 2, 5),
    ] {
        let grown = cache.grow_with_history(some(capacity), small, window, history);
        assert_eq!(grown, Err(CacheError::Policy));
    }
    assert_eq!(cache.grow(some(10)), Err(CacheError::Policy));
    assert_eq!(cache.grow(some(1 << 24)), Err(CacheError::Capacity));
    assert_eq!(entries(&cache), before);
    assert_eq!(cache.grow_with_history(some(10), 3, 2, 5), Ok(()));
    assert_eq!(entries(&cache), before);
}
