//! Keys and their slots.

use crate::proved::cache::{Cache, DefaultHashBuilder, Occupant};
use crate::proved::rattle::Global;
use crate::slots::some;
use crate::Refused;
use core::fmt;

/// The slot of a key, and the key that had it until now.
#[derive(Clone, Copy, Debug, PartialEq, Eq)]
pub struct Place {
    /// Below the capacity.
    pub slot: usize,
    /// The key that had the slot until now, if one had: the same key after a hit.
    pub last: Option<u64>,
    /// Another key that had the slot until now, and lost it.
    pub evicted: Option<u64>,
}

impl Place {
    /// Returns true if the key had the slot already, so that what is kept for the slot is this
    /// key's.
    pub fn has(&self, key: u64) -> bool {
        self.last == Some(key)
    }
}

/// Gives keys slots, numbers below its capacity, and chooses which key loses its slot to a new one.
///
/// Its keys are hashed with a fixed seed: whoever chooses them can choose ones that make calls slow.
///
/// # Example
///
/// ```
/// use clock2q::PageCache;
///
/// let mut pages = PageCache::new(2)?;
/// let mut frames = [0u64; 2];
/// for page in [7, 8, 7, 9] {
///     let place = pages.enter(page);
///     if !place.has(page) {
///         frames[place.slot] = page * 10;
///     }
///     assert_eq!(frames[place.slot], page * 10);
/// }
/// # Ok::<(), clock2q::Refused>(())
/// ```
pub struct PageCache {
    cache: Cache<u64, ()>,
}

impl PageCache {
    /// Makes a cache for `capacity` keys, which takes all the memory that it will ever use.
    ///
    /// # Errors
    ///
    /// [`Refused::Capacity`] and [`Refused::Memory`].
    pub fn new(capacity: usize) -> Result<PageCache, Refused> {
        let cache = Cache::new(Global, some(capacity)?)?;
        Ok(PageCache { cache })
    }

    /// Makes a cache in which `small` slots are for new keys, each young until `window` more were
    /// admitted.
    ///
    /// # Errors
    ///
    /// Those of [`new`](PageCache::new), and [`Refused::Policy`].
    pub fn with_policy(capacity: usize, small: usize, window: usize) -> Result<PageCache, Refused> {
        let hasher = DefaultHashBuilder::default();
        let cache = Cache::with_policy(Global, some(capacity)?, small, window, hasher)?;
        Ok(PageCache { cache })
    }

    /// Makes a cache with the shares of [`with_policy`](PageCache::with_policy) that remembers up to `history`
    /// evicted keys in place of half the capacity.
    ///
    /// # Errors
    ///
    /// Those of [`with_policy`](PageCache::with_policy), and [`Refused::Policy`] unless `history <= capacity`.
    pub fn with_history(
        capacity: usize,
        small: usize,
        window: usize,
        history: usize,
    ) -> Result<PageCache, Refused> {
        let hasher = DefaultHashBuilder::default();
        let capacity = some(capacity)?;
        let cache = Cache::with_history(Global, capacity, small, window, history, hasher)?;
        Ok(PageCache { cache })
    }

    /// Raises the capacity, with the shares of a cache that [`new`](PageCache::new) makes. Each key keeps its slot and its
    /// turn to leave, and keys that left stay remembered.
    ///
    /// # Errors
    ///
    /// [`Refused::Capacity`] and [`Refused::Memory`], and [`Refused::Policy`] if a share would be smaller than it is. The
    /// cache is as it was then.
    ///
    /// ```
    /// let mut pages = clock2q::PageCache::new(2)?;
    /// let slot = pages.enter(7).slot;
    /// pages.grow(1000)?;
    /// assert!(pages.is_at(slot, 7));
    /// # Ok::<(), clock2q::Refused>(())
    /// ```
    pub fn grow(&mut self, capacity: usize) -> Result<(), Refused> {
        Ok(self.cache.grow(some(capacity)?)?)
    }

    /// Raises the capacity, with the shares of [`with_history`](PageCache::with_history).
    ///
    /// # Errors
    ///
    /// Those of [`grow`](PageCache::grow), and [`Refused::Policy`] if the shares don't fit together.
    pub fn grow_with_history(
        &mut self,
        capacity: usize,
        small: usize,
        window: usize,
        history: usize,
    ) -> Result<(), Refused> {
        let capacity = some(capacity)?;
        Ok(self
            .cache
            .grow_with_history(capacity, small, window, history)?)
    }

    /// Returns the slot of a key, after a hit or after giving it one that another key may lose.
    pub fn enter(&mut self, key: u64) -> Place {
        let (slot, occupant) = self.cache.put_slot(key, ());
        let (last, evicted) = match occupant {
            Occupant::Itself => (Some(key), None),
            Occupant::Nobody => (None, None),
            Occupant::Other(other) => (Some(other), Some(other)),
        };
        Place {
            slot,
            last,
            evicted,
        }
    }

    /// Returns the slot of a key that has one, after a hit.
    pub fn find(&mut self, key: u64) -> Option<usize> {
        self.cache.slot(&key)
    }

    /// Returns true, after a hit, if the key is at this slot. Hashes nothing.
    pub fn is_at(&mut self, slot: usize, key: u64) -> bool {
        self.cache.get_at(slot, &key).is_some()
    }

    /// Returns true if the key has a slot, and records nothing.
    pub fn contains(&self, key: u64) -> bool {
        self.cache.contains(&key)
    }

    /// Returns the slot of a key that has one, and records nothing.
    pub fn peek(&self, key: u64) -> Option<usize> {
        self.cache.peek_slot(&key)
    }

    /// Takes the slot of a key away and returns true. A key that has none is forgotten.
    pub fn remove(&mut self, key: u64) -> bool {
        self.cache.remove(&key)
    }

    /// Takes the slot away from the key that would lose it next, and returns the key and the slot. It is
    /// remembered as those that lost their slots to others are.
    pub fn evict(&mut self) -> Option<(u64, usize)> {
        self.cache.evict()
    }

    /// Returns the key and the slot that [`evict`](PageCache::evict) would return, and changes nothing.
    pub fn next_victim(&mut self) -> Option<(u64, usize)> {
        self.cache.next_victim().map(|(key, slot)| (*key, slot))
    }

    /// Takes all slots away, and forgets all keys.
    pub fn clear(&mut self) {
        self.cache.clear();
    }

    /// Returns how many keys have a slot.
    pub fn len(&self) -> usize {
        self.cache.len()
    }

    /// Returns true if no key has a slot.
    pub fn is_empty(&self) -> bool {
        self.len() == 0
    }

    /// Returns how many keys can have a slot.
    pub fn capacity(&self) -> usize {
        self.cache.capacity()
    }
}

impl fmt::Debug for PageCache {
    fn fmt(&self, formatter: &mut fmt::Formatter<'_>) -> fmt::Result {
        formatter
            .debug_struct("PageCache")
            .field("len", &self.len())
            .field("capacity", &self.capacity())
            .finish()
    }
}
