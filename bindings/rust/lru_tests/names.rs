//! lru's names over `clock2q::Cache`, for lru's own unit tests. `run` puts them below.
#![cfg(test)]

extern crate alloc;

use clock2q::Cache;
use std::borrow::Borrow;
use std::collections::hash_map::RandomState;
use std::hash::{BuildHasher, Hash};

struct LruCache<K, V, S = RandomState>(Cache<K, V, S>);

impl<K: Hash + Eq, V> LruCache<K, V> {
    fn new(capacity: usize) -> Self {
        LruCache(Cache::new(capacity).expect("a cache"))
    }
}

impl<K: Hash + Eq, V, S: BuildHasher> LruCache<K, V, S> {
    fn with_hasher(capacity: usize, hasher: S) -> Self {
        LruCache(Cache::with_hasher(capacity, hasher).expect("a cache"))
    }

    fn put(&mut self, key: K, value: V) -> Option<V> {
        self.0.insert(key, value)
    }

    fn get<Q: Hash + Eq + ?Sized>(&mut self, key: &Q) -> Option<&V>
    where
        K: Borrow<Q>,
    {
        self.0.get(key)
    }

    fn get_mut<Q: Hash + Eq + ?Sized>(&mut self, key: &Q) -> Option<&mut V>
    where
        K: Borrow<Q>,
    {
        self.0.get_mut(key)
    }

    fn get_or_insert(&mut self, key: K, make: impl FnOnce() -> V) -> Option<&V> {
        Some(self.0.get_or_insert_with(key, make))
    }

    fn peek<Q: Hash + Eq + ?Sized>(&self, key: &Q) -> Option<&V>
    where
        K: Borrow<Q>,
    {
        self.0.peek(key)
    }

    fn peek_mut<Q: Hash + Eq + ?Sized>(&mut self, key: &Q) -> Option<&mut V>
    where
        K: Borrow<Q>,
    {
        self.0.peek_mut(key)
    }

    fn contains<Q: Hash + Eq + ?Sized>(&self, key: &Q) -> bool
    where
        K: Borrow<Q>,
    {
        self.0.contains_key(key)
    }

    fn pop<Q: Hash + Eq + ?Sized>(&mut self, key: &Q) -> Option<V>
    where
        K: Borrow<Q>,
    {
        self.0.remove(key)
    }

    fn pop_entry<Q: Hash + Eq + ?Sized>(&mut self, key: &Q) -> Option<(K, V)>
    where
        K: Borrow<Q>,
    {
        self.0.remove_entry(key)
    }

    fn pop_lru(&mut self) -> Option<(K, V)> {
        self.0.evict()
    }

    fn resize(&mut self, capacity: usize) {
        self.0.resize(capacity).expect("it was as large when it was made")
    }

    fn cap(&self) -> usize {
        self.0.capacity()
    }

    fn len(&self) -> usize {
        self.0.len()
    }

    fn is_empty(&self) -> bool {
        self.0.is_empty()
    }

    fn clear(&mut self) {
        self.0.clear()
    }
}

/// The crate of scoped threads that the tests use, by std.
mod scoped_threadpool {
    use std::thread::{self, Scope};

    pub struct Pool;

    impl Pool {
        pub fn new(_: u32) -> Pool {
            Pool
        }

        pub fn scoped<'env, F>(&mut self, run: F)
        where
            F: for<'scope> FnOnce(&'scope Scope<'scope, 'env>),
        {
            thread::scope(|scope| run(scope))
        }
    }
}
