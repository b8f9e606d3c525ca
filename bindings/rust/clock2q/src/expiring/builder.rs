//! Making caches whose pairs may expire.

use super::cache::ExpiringCache;
use super::{nobody, Clock, SystemClock};
use crate::slots::{Shares, Slots};
use crate::store::Store;
use crate::{sync, Cause, DefaultHashBuilder, Refused};
use std::marker::PhantomData;
use std::time::Duration;

/// Says how a cache is made whose pairs may expire, or whose listener hears which pairs leave: an [`ExpiringCache`], or
/// a [`sync::ExpiringCache`] for threads.
///
/// ```
/// use clock2q::{Builder, Cause};
///
/// let mut left = Vec::new();
/// let builder = Builder::new(2).listener(|key: &u32, _: &(), cause| left.push((*key, cause)));
/// let mut cache = builder.build()?;
/// (1..=3).for_each(|key| drop(cache.insert(key, ())));
/// cache.remove(&3);
/// drop(cache);
/// assert_eq!(left, [(1, Cause::Evicted), (3, Cause::Removed)]);
/// # Ok::<(), clock2q::Refused>(())
/// ```
#[derive(Clone, Debug)]
pub struct Builder<K, V, L = fn(&K, &V, Cause), C = SystemClock, S = DefaultHashBuilder> {
    pub(crate) capacity: usize,
    pub(crate) shares: Shares,
    pub(crate) time_to_live: Option<Duration>,
    pub(crate) listener: L,
    pub(crate) clock: C,
    pub(crate) hasher: S,
    of: PhantomData<fn(K, V)>,
}

impl<K, V> Builder<K, V> {
    /// Begins with a cache for `capacity` keys, whose pairs don't expire, with the system's clock and a random hasher.
    pub fn new(capacity: usize) -> Builder<K, V> {
        Builder {
            capacity,
            shares: Shares::default(),
            time_to_live: None,
            listener: nobody,
            clock: SystemClock::default(),
            hasher: DefaultHashBuilder::default(),
            of: PhantomData,
        }
    }
}

impl<K, V, L, C, S> Builder<K, V, L, C, S> {
    /// Has each pair expire so long after it was inserted, unless [`ExpiringCache::insert_for`] says otherwise.
    pub fn time_to_live(mut self, time: Duration) -> Self {
        self.time_to_live = Some(time);
        self
    }

    /// Has `small` slots be for new keys, each young until `window` more were admitted.
    pub fn policy(mut self, small: usize, window: usize) -> Self {
        self.shares.small_and_window = Some((small, window));
        self
    }

    /// Has up to `history` evicted keys be remembered, in place of half the capacity.
    ///
    /// ```
    /// let builder = clock2q::Builder::new(1000).history(900);
    /// let mut cache = builder.build()?;
    /// cache.insert("seven", 7);
    /// # Ok::<(), clock2q::Refused>(())
    /// ```
    pub fn history(mut self, history: usize) -> Self {
        self.shares.history = Some(history);
        self
    }

    /// Has `listener` hear each pair that leaves, and why, last in the call that has it leave, when the cache is whole.
    pub fn listener<M: FnMut(&K, &V, Cause)>(self, listener: M) -> Builder<K, V, M, C, S> {
        self.heard_by(listener)
    }

    /// Does so for a cache that threads share, whose listener is called by several at once, and while no lock is held.
    pub fn shared_listener<M: Fn(&K, &V, Cause)>(self, listener: M) -> Builder<K, V, M, C, S> {
        self.heard_by(listener)
    }

    fn heard_by<M>(self, listener: M) -> Builder<K, V, M, C, S> {
        Builder {
            capacity: self.capacity,
            shares: self.shares,
            time_to_live: self.time_to_live,
            listener,
            clock: self.clock,
            hasher: self.hasher,
            of: PhantomData,
        }
    }

    /// Has `clock` tell the time.
    pub fn clock<D: Clock>(self, clock: D) -> Builder<K, V, L, D, S> {
        Builder {
            capacity: self.capacity,
            shares: self.shares,
            time_to_live: self.time_to_live,
            listener: self.listener,
            clock,
            hasher: self.hasher,
            of: PhantomData,
        }
    }

    /// Has `hasher` hash the keys.
    pub fn hasher<T>(self, hasher: T) -> Builder<K, V, L, C, T> {
        Builder {
            capacity: self.capacity,
            shares: self.shares,
            time_to_live: self.time_to_live,
            listener: self.listener,
            clock: self.clock,
            hasher,
            of: PhantomData,
        }
    }

    /// Makes the cache.
    ///
    /// # Errors
    ///
    /// Those of [`Cache::with_history`](crate::Cache::with_history).
    pub fn build(self) -> Result<ExpiringCache<K, V, L, C, S>, Refused> {
        let slots = Slots::with_shares(self.capacity, self.shares)?;
        Ok(ExpiringCache::of(Store::new(slots)?, self))
    }

    /// Makes a cache that threads share.
    ///
    /// # Errors
    ///
    /// Those of [`sync::Cache::with_history`].
    pub fn build_shared(self) -> Result<sync::ExpiringCache<K, V, L, C, S>, Refused> {
        sync::ExpiringCache::of(self)
    }
}
