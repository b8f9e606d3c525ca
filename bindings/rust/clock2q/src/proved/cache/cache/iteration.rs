// Written by bindings/rust/erase from crates/clock2q_cache/src/cache/iteration.rt; change that, and run erase.
//! Iteration over the residents of a cache, read-only.
use crate::proved::cache::cache::{Cache, DefaultHashBuilder};
use crate::proved::count::Count;
use crate::proved::rattle::{Allocator, Global};
use core::hash::{BuildHasher, Hash};
use core::iter::FusedIterator;

/// An iterator over the residents of a cache, by ascending slot: the key, its slot and its value.
///
/// # Example
///
/// ```
/// # #![allow(unused)]
/// # use clock2q::proved::rattle::Global;
/// # use clock2q::proved::cache::{Cache, CacheError, Entered, MAX_CAPACITY, Occupant};
/// # let mut cache: Cache<u64, u64> = Cache::new(Global, 10.try_into()?)?;
/// # cache.put(1, 10);
/// for (key, slot, value) in cache.iter() {
///     println!("{key} has {value} in slot {slot}");
/// }
/// # Ok::<(), Box<dyn std::error::Error>>(())
/// ```
pub struct Iter<'a, K: Hash + Eq, V, S: BuildHasher = DefaultHashBuilder, A: Allocator = Global> {
    cache: &'a Cache<K, V, S, A>,
    slot: u32,
    left: usize,
    looks: Count,
}

/// An iterator over the keys of a cache, by ascending slot.
///
/// # Example
///
/// ```
/// # #![allow(unused)]
/// # use clock2q::proved::rattle::Global;
/// # use clock2q::proved::cache::{Cache, CacheError, Entered, MAX_CAPACITY, Occupant};
/// # let mut cache: Cache<u64, u64> = Cache::new(Global, 10.try_into()?)?;
/// # cache.put(1, 10);
/// for key in cache.keys() {
///     println!("{key}");
/// }
/// # Ok::<(), Box<dyn std::error::Error>>(())
/// ```
pub struct Keys<'a, K: Hash + Eq, V, S: BuildHasher = DefaultHashBuilder, A: Allocator = Global> {
    entries: Iter<'a, K, V, S, A>,
}

/// An iterator over the values of a cache, by ascending slot.
///
/// # Example
///
/// ```
/// # #![allow(unused)]
/// # use clock2q::proved::rattle::Global;
/// # use clock2q::proved::cache::{Cache, CacheError, Entered, MAX_CAPACITY, Occupant};
/// # let mut cache: Cache<u64, u64> = Cache::new(Global, 10.try_into()?)?;
/// # cache.put(1, 10);
/// for value in cache.values() {
///     println!("{value}");
/// }
/// # Ok::<(), Box<dyn std::error::Error>>(())
/// ```
pub struct Values<'a, K: Hash + Eq, V, S: BuildHasher = DefaultHashBuilder, A: Allocator = Global> {
    entries: Iter<'a, K, V, S, A>,
}

impl<K: Hash + Eq, V, S: BuildHasher, A: Allocator> Cache<K, V, S, A> {
    /// Returns an iterator over the residents, by ascending slot: the key, its slot and its value.
    /// It records no hit, and so changes no later eviction.
    ///
    /// # Cost
    ///
    /// One look at each slot up to the last resident's, which the iterator counts. No key is hashed or
    /// compared, and no link is accessed.
    #[inline]
    pub fn iter(&self) -> Iter<'_, K, V, S, A> {
        Iter {
            cache: self,
            slot: 0,
            left: self.len(),
            looks: Count::new(),
        }
    }

    /// Returns an iterator over the keys of the residents, by ascending slot. It records no hit.
    ///
    /// # Cost
    ///
    /// That of [`iter`](Cache::iter).
    #[inline]
    pub fn keys(&self) -> Keys<'_, K, V, S, A> {
        Keys {
            entries: self.iter(),
        }
    }

    /// Returns an iterator over the values of the residents, by ascending slot. It records no hit.
    ///
    /// # Cost
    ///
    /// That of [`iter`](Cache::iter).
    #[inline]
    pub fn values(&self) -> Values<'_, K, V, S, A> {
        Values {
            entries: self.iter(),
        }
    }

    /// Returns the lowest slot that has a resident, starting from a given one, and counts each slot
    /// that it looks at.
    #[inline]
    fn next_resident(&self, from: u32, looks: &mut Count) -> Option<u32> {
        for slot in from..self.made() {
            looks.tick();
            if self.is_resident(slot as usize) {
                return Some(slot);
            }
        }
        None
    }
}

impl<'a, K: Hash + Eq, V, S: BuildHasher, A: Allocator> Iterator for Iter<'a, K, V, S, A> {
    type Item = (&'a K, usize, &'a V);

    #[inline]
    fn next(&mut self) -> Option<(&'a K, usize, &'a V)> {
        if self.left == 0 {
            return None;
        }
        let cache = self.cache;
        let slot = cache.next_resident(self.slot, &mut self.looks)?;
        self.slot = slot + 1;
        self.left -= 1;
        Some((cache.key(slot), slot as usize, cache.value(slot)))
    }

    #[inline]
    fn size_hint(&self) -> (usize, Option<usize>) {
        (self.left, Some(self.left))
    }
}

impl<'a, K: Hash + Eq, V, S: BuildHasher, A: Allocator> ExactSizeIterator for Iter<'a, K, V, S, A> {
    #[inline]
    fn len(&self) -> usize {
        self.left
    }
}

impl<'a, K: Hash + Eq, V, S: BuildHasher, A: Allocator> FusedIterator for Iter<'a, K, V, S, A> {}

impl<'a, K: Hash + Eq, V, S: BuildHasher, A: Allocator> Iterator for Keys<'a, K, V, S, A> {
    type Item = &'a K;

    #[inline]
    fn next(&mut self) -> Option<&'a K> {
        let (key, _, _) = self.entries.next()?;
        Some(key)
    }

    #[inline]
    fn size_hint(&self) -> (usize, Option<usize>) {
        self.entries.size_hint()
    }
}

impl<'a, K: Hash + Eq, V, S: BuildHasher, A: Allocator> ExactSizeIterator for Keys<'a, K, V, S, A> {
    #[inline]
    fn len(&self) -> usize {
        self.entries.len()
    }
}

impl<'a, K: Hash + Eq, V, S: BuildHasher, A: Allocator> FusedIterator for Keys<'a, K, V, S, A> {}

impl<'a, K: Hash + Eq, V, S: BuildHasher, A: Allocator> Iterator for Values<'a, K, V, S, A> {
    type Item = &'a V;

    #[inline]
    fn next(&mut self) -> Option<&'a V> {
        let (_, _, value) = self.entries.next()?;
        Some(value)
    }

    #[inline]
    fn size_hint(&self) -> (usize, Option<usize>) {
        self.entries.size_hint()
    }
}

impl<'a, K: Hash + Eq, V, S: BuildHasher, A: Allocator> ExactSizeIterator
    for Values<'a, K, V, S, A> {
    #[inline]
    fn len(&self) -> usize {
        self.entries.len()
    }
}

impl<'a, K: Hash + Eq, V, S: BuildHasher, A: Allocator> FusedIterator for Values<'a, K, V, S, A> {}

impl<'a, K: Hash + Eq, V, S: BuildHasher, A: Allocator> IntoIterator for &'a Cache<K, V, S, A> {
    type Item = (&'a K, usize, &'a V);

    type IntoIter = Iter<'a, K, V, S, A>;

    #[inline]
    fn into_iter(self) -> Iter<'a, K, V, S, A> {
        self.iter()
    }
}
